/* What the own calls share: each case is a function that runs in a process of its own, over a stream with a PAT of PID 0. */
#ifndef DVBEMU_CASES_H
#define DVBEMU_CASES_H

#include <errno.h>
#include <fcntl.h>
#include <linux/dvb/dmx.h>
#include <linux/dvb/frontend.h>
#include <poll.h>
#include <pthread.h>
#include <signal.h>
#include <stdint.h>
#include <stdio.h>
#include <stdlib.h>
#include <string.h>
#include <sys/ioctl.h>
#include <sys/wait.h>
#include <unistd.h>

#define DEMUX "/dev/dvb/adapter0/demux0"
#define RECORDER "/dev/dvb/adapter0/dvr0"
#define TUNER "/dev/dvb/adapter0/frontend0"
/* (by then whatever is waited for has come, also on a busy machine) */
enum { PACKET = 188, NEVER = 0x1ff0, ALL_PIDS = 0x2000, FREQUENCY = 474000000, LATE_MS = 30000, MOST_NODES = 40 };

/* a case; some want that no other one runs beside it */
struct one {
	const char *name;
	void (*try)(void);
	int alone;
};
/* the head of a case, which stands in a section of its own with all others */
#define HEAD(name, alone)                                                                                                \
	static void name(void);                                                                                          \
	static const struct one one_##name __attribute__((used, section("cases"), aligned(8))) = { #name, name, alone }; \
	static void name(void)
#define CASE(name) HEAD(name, 0)
#define ALONE(name) HEAD(name, 1)
extern const struct one __start_cases[], __stop_cases[];

extern unsigned char bytes[1 << 21];

const struct one *case_of(const char *name);
int here(const char *word, const char *number);
/* timed.c */
void time_calls(int count);
void time_pipes(int count);
void time_sections(int most);
void time_recording(int most);
void time_bytes(int most);

/* ends the case where this doesn't hold */
void want(int holds, const char *what);
double seconds(void);
void pause_for(int milliseconds);
/* an open demux node, with a filter on sections of the PAT or on a PID that brings none; the recorder and the tuner once they are
 * free */
int demux(int flags);
int pat(int flags);
int silent(int flags);
int recorder(int flags);
int tuner(int flags);
void set_section(int fd, int pid);
int set_pes(int fd, int pid, enum dmx_output output);
void record_all(int fd);
/* opens all nodes that are free, and says how many */
int nodes_free(int *fds);
/* a read gives a whole PAT */
int is_pat(int fd);
/* how a child ends that does this */
int child(void (*does)(void *), void *with);

#endif
