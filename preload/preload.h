/* What the parts of the preload share: descriptors.c and the other files say what each part does. */
#ifndef DVBEMU_PRELOAD_H
#define DVBEMU_PRELOAD_H

#include <dlfcn.h>
#include <poll.h>
#include <pthread.h>
#include <signal.h>
#include <stdint.h>
#include <sys/types.h>

/*
 * A call of the C library that stands in the place of the library's own; its other names; calls whose name of 64 bits differs in
 * nothing here, and such whose checked name has a size behind the arguments; and the library's own.
 */
#define EXPORT __attribute__((visibility("default")))
#define SAME(name, ...) __asm__(".irp other, " #__VA_ARGS__ "\n.globl \\other\n.set \\other, " #name "\n.endr");
#define SAME64(...) __asm__(".irp name, " #__VA_ARGS__ "\n.globl \\name\\()64\n.set \\name\\()64, \\name\n.endr");
#define CHECKED(...) __asm__(".irp name, " #__VA_ARGS__ "\n.globl __\\name\\()_chk\n.set __\\name\\()_chk, \\name\n.endr");
#define NEXT(name)                                                           \
	({                                                                   \
		static __typeof__(&name) found_;                             \
		if (!found_)                                                 \
			found_ = (__typeof__(&name))dlsym(RTLD_NEXT, #name); \
		found_;                                                      \
	})

enum { NONE, FRONTEND, DEMUX, DVR };
/* (paths lie on the stacks of the program's threads, which may be of 16 KiB; dvbemu-serve sees that its folder's name is short
 * enough) */
enum { MOST_ADAPTERS = 8, MOST_LINES = 16, MOST_DEVICES = 48, FOLDER = 256, PATH = FOLDER + 256 };

/* the verbs of requests, and the bits of a poll's answer */
enum { OPEN_DEMUX = 1, OPEN_DVR, CLOSE, IOCTL, READ, POLL };
enum { READABLE = 1, OVERFLOW = 2, TIMED_OUT = 4, SOMETHING = READABLE | OVERFLOW | TIMED_OUT };
enum { ARGUMENT = 60, DVR_NODE = 32, NO_NODE = 64 };
/* how long a program waits for a seat, and how many bytes a read asks for at once */
enum { SEAT_MS = 5000, MOST_READ = 65536 };

struct request {
	uint32_t verb, node, number, length;
	char argument[ARGUMENT];
};

struct reply {
	uint32_t code, length, value, zero;
	uint64_t place;
};

/* what is known of a device: nothing is there, something is, or neither */
enum { QUIET, READY, UNKNOWN };

/* A device that is open. A pipe stands behind its descriptors, which can be read where the device can. */
struct device {
	int kind, access, section, timeout, state, readers, in_set, is_tap;
	uint32_t node, found, tokens;
	uint32_t turn; /* rises where the device may have something: who reads waits for that */
	uint32_t open; /* which open of the line it is, and the byte of the table that is locked by it; 0: by none */
	long due;      /* when the filter's timeout is over; 0: it has none */
	ino_t ino;     /* of its pipe */
	off_t position;
};

/* What the processes of a line share: those that were forked, and what they have become by exec. */
struct table {
	pthread_mutex_t one; /* goes round a request and its reply, and what is done about it */
	int adapter, is_gone;
	int is_left; /* somebody was killed in it */
	uint32_t opens, tries;
	struct request asked; /* the last request in it, or none, and its reply */
	struct reply told;
	ino_t ask_ino, tell_ino, own_ino; /* of the pipes, and of this */
	struct device devices[MOST_DEVICES];
};

/* The line to an adapter's server, and what this process has of its devices. */
struct line {
	struct table *table;
	int memory, ask, tell; /* the table, and the pair of pipes: -1 where there is none yet */
	struct mine {
		ino_t ino; /* of the pipe that these belong to */
		int rings, lock, life,
			bell; /* the pipe's other end, a frontend's lock, that of its open, and the watch of the bell */
		int known;    /* a descriptor by which it was added to a set of epoll */
	} mine[MOST_DEVICES];
};

/* line.c */
extern const struct mine nothing;
extern struct line lines[MOST_LINES];
extern char folders[MOST_ADAPTERS][FOLDER];
extern int adapters;
extern pid_t self;
struct pause {
	struct line *line;
	sigset_t before;
	int state;
};
void init(void);
void take(struct pause *pause);
void give(struct pause *pause);
/* to the end of a block nobody else has what is this process's, or a line; in that order, where both are */
#define HOLD(one, what)                                                     \
	struct pause one __attribute__((cleanup(give))) = { .line = what }; \
	take(&one)
#define HOLD_OWN() HOLD(own_pause, NULL)
#define HOLD_LINE(line) HOLD(line_pause, line)
void hold_for_good(void);
struct line *line_to(int adapter);
int line_made(struct line *line, int adapter);
int line_comes(struct line *line, char *ask, char *tell);
int line_sits(struct line *line, const char *tell);
void line_lost(struct line *line);
int lock_of(const struct line *line, uint32_t number);
int is_locked(const struct line *line, uint32_t number);
int ask(struct line *line, uint32_t verb, uint32_t node, uint32_t number, const void *argument, uint32_t length,
	struct reply *reply, void *into);
int ask_read(struct line *line, uint32_t node, uint32_t most);
int take_read(struct line *line, struct reply *reply, void *into, uint32_t most);
long milliseconds(void);
int wait_raw(struct pollfd *all, nfds_t count, long time);

/* kept.c: the descriptors of the preload itself, and those that may be a device */
int high(int fd);
void let_go(int fd);
int is_own(int fd);
int give_way(int fd);
int moved(int fd, int wanted);
ino_t pipe_of(int fd);
int is_object(int fd, ino_t ino);
void mark(int fd);
void unmark(int fd);
int is_marked(int fd);
int marks_end(void);
int is_readable(const void *from, void *into, size_t count);
int is_writable(void *to, const void *from, size_t count);

/* device.c */
struct at {
	struct line *line;
	int place;
};
struct device *device_at(struct at at);
int found(int fd, struct at *at);
int find(int fd, struct at *at);
int device_open(int adapter, int kind, int flags);
ssize_t device_read(int fd, struct at at, void *into, size_t count);
int device_ioctl(int fd, struct at at, uint32_t number, void *argument);
void device_begin(struct line *line, int place, int rings, int life);
void devices_found(struct line *line, const struct request *asked, const struct reply *told);
int is_others(struct line *line, int place);
void look(struct at at, int fd);
void ring(struct at at);
void wake_readers(struct at at);
void sweep(void);
void sweep_all(void);

/* node.c */
int node_bytes(const struct device *device, uint32_t number, const void *argument, char *bytes);
int node_changed(struct device *device, uint32_t number, const void *argument);

/* watch.c */
void watch(void);
void watch_changed(void);
void watch_stopped(void);
void watch_ends(int for_ever);
void watch_moved(int wanted);
int bell_of(struct at at);
void bell_done(struct at at);
int watch_runs(void);

/* exec.c */
void inherit(void);

/* trace.c: the calls that are told beside the verbs of requests; the result of one that waits, and one that isn't known; whose
 * calls are told, where they aren't this thread's */
enum { TRACE_WAIT = 7, TRACE_FRONTEND, TRACE_OPEN, TRACE_CLOSE, TRACE_WAITS = INT32_MIN, TRACE_ENDS };
enum { TRACE_NAME = 16 };
extern struct traced {
	pid_t process, thread;
	char name[TRACE_NAME];
} traced;
extern __thread int traced_waits __attribute__((tls_model("initial-exec")));
int traces(void);
void trace(int call, int adapter, uint32_t node, uint32_t number, const void *argument, size_t length, long result);

/* tree.c: whether a path lies in /dev/dvb, also by links, and where it stands in the tree for that; what such a place is, and a
 * device's */
int led(int there, const char *path, char *into);
int leads(int there, const char *path, char *into);
int kind_of(const char *place, int *adapter);
void place_of(struct at at, char *into);

/* frontend.c: whether an event waits to be told; an ioctl, which gives 0 or a negative error; a lock of who may tune */
int frontend_lock(int adapter);
int frontend_event(int adapter);
void frontend_seatless(int adapter);
int frontend_ioctl(int adapter, int access, uint32_t number, void *argument);

#endif
