/*
 * Own calls on an adapter, as tests/test_serve.py has them: cases [NAME ..], cases -NAME .. for all others, each in a process of
 * its own, several side by side; and cases +WORD [NUMBER], of here.c. The last line is `N passed, M failed`.
 */
#define _GNU_SOURCE
#include <time.h>

#include "cases.h"

enum { MOST_SECONDS = 150, LANES = 6, PAT_BYTES = 24, TRIES = 1000 };

unsigned char bytes[1 << 21];

void want(int holds, const char *what)
{
	if (holds)
		return;
	printf("failed: %s (errno %d, %s)\n", what, errno, strerror(errno));
	fflush(stdout);
	_exit(1);
}

double seconds(void)
{
	struct timespec now;
	clock_gettime(CLOCK_MONOTONIC, &now);
	return (double)now.tv_sec + (double)now.tv_nsec / 1e9;
}

void pause_for(int milliseconds) { usleep((useconds_t)milliseconds * 1000); }

void set_section(int fd, int pid)
{
	struct dmx_sct_filter_params params = { .pid = (uint16_t)pid, .flags = DMX_IMMEDIATE_START };
	params.filter.mask[0] = pid == NEVER ? 0 : 0xff;
	want(!ioctl(fd, DMX_SET_FILTER, &params), "a section filter");
}

int demux(int flags)
{
	int fd = open(DEMUX, O_RDWR | flags);
	want(fd >= 0, "open of demux0");
	return fd;
}

int pat(int flags)
{
	int fd = demux(flags);
	set_section(fd, 0);
	return fd;
}

int silent(int flags)
{
	int fd = demux(flags);
	set_section(fd, NEVER);
	return fd;
}

/* opens what one program may have at a time, once it is free */
static int once_free(const char *path, int flags)
{
	int fd = -1;
	for (int i = 0; i < TRIES && (fd = open(path, flags)) < 0 && errno == EBUSY; i++)
		pause_for(20);
	want(fd >= 0, path);
	return fd;
}

int recorder(int flags) { return once_free(RECORDER, flags); }
int tuner(int flags) { return once_free(TUNER, flags); }

int set_pes(int fd, int pid, enum dmx_output output)
{
	struct dmx_pes_filter_params params = { (uint16_t)pid, DMX_IN_FRONTEND, output, DMX_PES_OTHER, DMX_IMMEDIATE_START };
	return ioctl(fd, DMX_SET_PES_FILTER, &params);
}

void record_all(int fd) { want(!set_pes(fd, ALL_PIDS, DMX_OUT_TS_TAP), "a recording of all packets"); }

int nodes_free(int *fds)
{
	int count = 0;
	while (count < MOST_NODES && (fds[count] = open(DEMUX, O_RDWR)) >= 0)
		count++;
	return count;
}

int is_pat(int fd)
{
	ssize_t n = read(fd, bytes, 4096);
	return n >= 16 && bytes[0] == 0 && (bytes[1] & 0xf0) == 0xb0;
}

int child(void (*does)(void *), void *with)
{
	int status = -1;
	pid_t pid = fork();
	if (!pid) {
		does(with);
		_exit(0);
	}
	waitpid(pid, &status, 0);
	return WIFEXITED(status) ? WEXITSTATUS(status) : -1;
}

/* ------ */

static struct running {
	pid_t pid;
	const struct one *one;
	double begun;
} lanes[LANES];

static int passed, failed;

static void start(struct running *lane, const struct one *one)
{
	fflush(stdout);
	*lane = (struct running){ fork(), one, seconds() };
	if (lane->pid)
		return;
	setpgid(0, 0);
	one->try();
	fflush(stdout);
	_exit(0);
}

/* notes those that have ended, and ends those that don't; how many run */
static int look(void)
{
	int running = 0;
	for (struct running *lane = lanes; lane < &lanes[LANES]; lane++) {
		int status = 0, is_late = lane->pid && seconds() - lane->begun > MOST_SECONDS;
		if (is_late)
			kill(-lane->pid, SIGKILL);
		if (!lane->pid || waitpid(lane->pid, &status, is_late ? 0 : WNOHANG) != lane->pid) {
			running += lane->pid != 0;
			continue;
		}
		*(status ? &failed : &passed) += 1;
		if (status)
			printf("failed: %s: %s %d\n", lane->one->name,
			       is_late		     ? "no end, signal"
			       : WIFSIGNALED(status) ? "signal"
						     : "status",
			       WIFSIGNALED(status) ? WTERMSIG(status) : WEXITSTATUS(status));
		lane->pid = 0;
	}
	return running;
}

static void run(const struct one *one)
{
	struct running *lane = lanes;
	while (look() >= (one->alone ? 1 : LANES))
		pause_for(2);
	while (lane->pid)
		lane++;
	start(lane, one);
	while (one->alone && look())
		pause_for(2);
}

static int is_asked(const char *name, char **words)
{
	int leaves_out = *words && **words == '-', is_any = !*words || leaves_out;
	for (; *words; words++)
		if (!strcmp(name, *words + leaves_out))
			return !leaves_out;
	return is_any;
}

const struct one *case_of(const char *name)
{
	for (const struct one *one = __start_cases; one < __stop_cases; one++)
		if (!strcmp(one->name, name))
			return one;
	want(0, name);
	return NULL;
}

int main(int count, char **words)
{
	if (count > 1 && *words[1] == '+')
		return here(words[1], words[2]);
	for (int alone = 0; alone < 2; alone++)
		for (const struct one *one = __start_cases; one < __stop_cases; one++)
			if (one->alone == alone && is_asked(one->name, words + 1))
				run(one);
	while (look())
		pause_for(2);
	printf("%d passed, %d failed\n", passed, failed);
	return failed > 0;
}
