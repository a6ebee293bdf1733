/*
 * The line of a process to the server of an adapter, dvb_serve: requests and their replies over a pair of named pipes, whose name
 * is told at the pipe `knock` of the server's folder, from where keeper.py hands it on. Forked children have the line too.
 *
 *   DVBEMU_DIR    the folders of the servers of adapter 0, 1 and so on, with colons between
 */
#define _GNU_SOURCE
#include <errno.h>
#include <fcntl.h>
#include <stdio.h>
#include <stdlib.h>
#include <string.h>
#include <sys/mman.h>
#include <sys/random.h>
#include <sys/stat.h>
#include <sys/syscall.h>
#include <sys/uio.h>
#include <time.h>
#include <unistd.h>

#include "preload.h"

enum { NAME = 64, SCRATCH = 512, MOST_TRIES = 8, SLEEP_NS = 100000000 };

/* a reply that hasn't come, and one to a request of no node, which no device makes */
static const uint32_t untold = UINT32_MAX;
static const struct reply no_node = { .code = EBADF, .place = UINT64_MAX }, no_verb = { .code = EINVAL, .place = UINT64_MAX };

const struct mine nothing = { .rings = -1, .lock = -1, .life = -1, .bell = -1, .known = -1 };
struct line lines[MOST_LINES];
char folders[MOST_ADAPTERS][FOLDER];
int adapters;
/* the process whose memory this is: a child of vfork has another number and its parent's memory */
pid_t self;

static pthread_mutex_t own = PTHREAD_MUTEX_INITIALIZER;

static void before_fork(void) { pthread_mutex_lock(&own); }
static void in_parent(void) { pthread_mutex_unlock(&own); }
static void in_child(void)
{
	self = getpid();
	watch_stopped();
	pthread_mutex_unlock(&own);
}

static void begin(void)
{
	const char *there = getenv("DVBEMU_DIR");
	while (there && *there && adapters < MOST_ADAPTERS) {
		size_t length = strcspn(there, ":");
		snprintf(folders[adapters++], FOLDER, "%.*s", (int)length, there);
		there += length + (there[length] == ':');
	}
	self = getpid();
	for (struct line *line = lines; line < &lines[MOST_LINES]; line++) {
		line->memory = line->ask = line->tell = -1;
		for (struct mine *mine = line->mine; mine < &line->mine[MOST_DEVICES]; mine++)
			*mine = nothing;
	}
	pthread_atfork(before_fork, in_parent, in_child);
	if (adapters)
		inherit();
}

void init(void)
{
	static pthread_once_t once = PTHREAD_ONCE_INIT;
	pthread_once(&once, begin);
}

__attribute__((constructor)) static void start(void) { init(); }

long milliseconds(void)
{
	struct timespec now;
	clock_gettime(CLOCK_MONOTONIC, &now);
	return now.tv_sec * 1000 + now.tv_nsec / 1000000;
}

/* waits so many milliseconds, or without an end where they are below 0 */
int wait_raw(struct pollfd *all, nfds_t count, long time)
{
	struct timespec most = { time / 1000, time % 1000 * 1000000L };
	return (int)syscall(SYS_ppoll, all, count, time < 0 ? NULL : &most, NULL, 0);
}

/* ------ locks, in which no signal's handler runs and no thread ends */

/* how many of them this thread is in: the first holds all back, and the last lets go */
static __thread int held __attribute__((tls_model("initial-exec")));

static void hold_back(struct pause *pause)
{
	sigset_t all;
	if (!held) {
		sigfillset(&all);
		pthread_sigmask(SIG_SETMASK, &all, &pause->before);
		pthread_setcancelstate(PTHREAD_CANCEL_DISABLE, &pause->state);
	}
	held++;
}

static void go_on(const struct pause *pause)
{
	if (--held)
		return;
	pthread_setcancelstate(pause->state, NULL);
	pthread_sigmask(SIG_SETMASK, &pause->before, NULL);
}

/* a thread that was begun with all signals held back has them so to its end */
void hold_for_good(void) { held++; }

static void find_back(struct line *line);

/* whether the pipes of a line are closed in this process, past the preload */
static int is_cut(const struct line *line)
{
	return line->ask >= 0 && (!is_object(line->ask, line->table->ask_ino) || !is_object(line->tell, line->table->tell_ino));
}

/* Locks what several processes have. One that is killed as it wakes another leaves that asleep, where a third has the lock by
 * then. */
static int lock_shared(pthread_mutex_t *one)
{
	int error = pthread_mutex_trylock(one);
	while (error == EBUSY || error == ETIMEDOUT) {
		struct timespec until;
		clock_gettime(CLOCK_REALTIME, &until);
		until.tv_sec += (until.tv_nsec + SLEEP_NS) / 1000000000;
		until.tv_nsec = (until.tv_nsec + SLEEP_NS) % 1000000000;
		error = pthread_mutex_timedlock(one, &until);
	}
	return error;
}

/*
 * What this process has, its lines and the descriptors of its devices, or a line. Where a process was killed in a line, the next
 * one that can does what that one has left.
 */
void take(struct pause *pause)
{
	struct line *line = pause->line;
	hold_back(pause);
	if (!line) {
		pthread_mutex_lock(&own);
		return;
	}
	if (lock_shared(&line->table->one) == EOWNERDEAD) {
		line->table->is_left = 1;
		pthread_mutex_consistent(&line->table->one);
	}
	if (line->table->is_left && !is_cut(line))
		find_back(line);
}

void give(struct pause *pause)
{
	struct line *line = pause->line;
	if (line && !line->table->is_left)
		line->table->asked.verb = 0;
	pthread_mutex_unlock(line ? &line->table->one : &own);
	go_on(pause);
}

/* ------ lines */

static ino_t ino_of(int fd)
{
	struct stat now;
	return syscall(SYS_fstat, fd, &now) ? 0 : now.st_ino;
}

/* a line without pipes */
int line_made(struct line *line, int adapter)
{
	pthread_mutexattr_t shared;
	int fd = high((int)syscall(SYS_memfd_create, "dvbemu", 1 /* closed by exec */));
	void *there = fd < 0 || ftruncate(fd, sizeof *line->table)
			      ? MAP_FAILED
			      : mmap(NULL, sizeof *line->table, PROT_READ | PROT_WRITE, MAP_SHARED, fd, 0);
	if (there == MAP_FAILED) {
		let_go(fd);
		return -1;
	}
	*line = (struct line){ .table = there, .memory = fd, .ask = -1, .tell = -1 };
	for (struct mine *mine = line->mine; mine < &line->mine[MOST_DEVICES]; mine++)
		*mine = nothing;
	line->table->adapter = adapter;
	line->table->own_ino = ino_of(fd);
	pthread_mutexattr_init(&shared);
	pthread_mutexattr_setpshared(&shared, PTHREAD_PROCESS_SHARED);
	pthread_mutexattr_setrobust(&shared, PTHREAD_MUTEX_ROBUST);
	return pthread_mutex_init(&line->table->one, &shared);
}

/* a line is done with where its server has gone, or it is cut, and this process has none of its devices any more */
static int is_free(struct line *line)
{
	if (!line->table)
		return 1;
	for (int i = 0; i < MOST_DEVICES; i++)
		if (line->mine[i].rings >= 0)
			return 0;
	if (!line->table->is_gone && !is_cut(line))
		return 0;
	let_go(is_object(line->ask, line->table->ask_ino) ? line->ask : -1);
	let_go(is_object(line->tell, line->table->tell_ino) ? line->tell : -1);
	let_go(ino_of(line->memory) == line->table->own_ino ? line->memory : -1);
	/* (a thread may still wait by the table, so that stays) */
	line->ask = line->tell = line->memory = -1;
	return 1;
}

/* the line to an adapter, which is made where there is none; NULL where it can't be */
struct line *line_to(int adapter)
{
	struct line *unused = NULL;
	for (struct line *line = lines; line < &lines[MOST_LINES]; line++) {
		if (line->table && line->table->adapter == adapter && !line->table->is_gone && !is_cut(line))
			return line;
		if (!unused && is_free(line))
			unused = line;
	}
	return unused && !line_made(unused, adapter) ? unused : NULL;
}

/* ------ locks of opens: whoever has opened a device holds one, and each child, as a description of the table that stands at its
 * byte */

int lock_of(const struct line *line, uint32_t number)
{
	struct flock byte = { .l_type = F_WRLCK, .l_start = number, .l_len = 1 };
	char path[64];
	snprintf(path, sizeof path, "/proc/self/fd/%d", line->memory);
	int fd = high((int)syscall(SYS_openat, AT_FDCWD, path, O_RDWR | O_CLOEXEC));
	if (fd >= 0 && !syscall(SYS_fcntl, fd, F_OFD_SETLK, &byte) && syscall(SYS_lseek, fd, (off_t)number, SEEK_SET) == number)
		return fd;
	let_go(fd);
	return -1;
}

/* whether anybody holds it still; where that can't be known somebody does */
int is_locked(const struct line *line, uint32_t number)
{
	struct flock byte = { .l_type = F_WRLCK, .l_start = number, .l_len = 1 };
	return !number || syscall(SYS_fcntl, line->memory, F_OFD_GETLK, &byte) || byte.l_type != F_UNLCK;
}

/* the server has gone, or what it would tell next isn't known; all that wait are woken by their devices */
void line_lost(struct line *line)
{
	line->table->is_gone = 1;
	for (int i = 0; i < MOST_DEVICES; i++) {
		struct device *device = &line->table->devices[i];
		if (!device->kind)
			continue;
		ring((struct at){ line, i });
		device->found = OVERFLOW;
		device->state = READY;
	}
	/* (with the pipes the server sees that this program has gone) */
	let_go(line->ask);
	let_go(line->tell);
	line->ask = line->tell = -1;
}

/* ------ coming in */

static int open_raw(const char *path, int flags) { return (int)syscall(SYS_openat, AT_FDCWD, path, flags | O_CLOEXEC); }

/* tells a name, in a line of its own whatever stands in front of it, and again as long as others fill the pipe */
static int knock(const char *folder, const char *name)
{
	char path[PATH], line[NAME];
	long n = -1, left = SEAT_MS, until = milliseconds() + SEAT_MS;
	int length = snprintf(line, sizeof line, "\n%s\n", name);
	snprintf(path, sizeof path, "%s/knock", folder);
	struct pollfd pipe = { open_raw(path, O_WRONLY | O_NONBLOCK), POLLOUT, 0 };
	while (pipe.fd >= 0 && left > 0 && (n = syscall(SYS_write, pipe.fd, line, length)) < 0 && errno == EAGAIN) {
		wait_raw(&pipe, 1, left);
		left = until - milliseconds();
	}
	if (pipe.fd >= 0)
		syscall(SYS_close, pipe.fd);
	return n == length ? 0 : -1;
}

/* Makes the two pipes and tells their name, which no other program has, also not one that counts its processes anew. */
int line_comes(struct line *line, char *ask, char *tell)
{
	const char *folder = folders[line->table->adapter];
	char name[NAME];
	uint64_t number = 0;
	if (syscall(SYS_getrandom, &number, sizeof number, 0) != sizeof number)
		number = (uint64_t)self << 32 ^ (uint64_t)clock();
	snprintf(name, sizeof name, "%llu", (unsigned long long)number);
	snprintf(ask, PATH, "%s/%s.ask", folder, name);
	snprintf(tell, PATH, "%s/%s.tell", folder, name);
	if (mkfifo(ask, 0600) || mkfifo(tell, 0600))
		return -1;
	line->ask = high(open_raw(ask, O_RDWR));
	line->tell = high(open_raw(tell, O_RDWR));
	if (line->ask < 0 || line->tell < 0)
		return -1;
	line->table->ask_ino = ino_of(line->ask);
	line->table->tell_ino = ino_of(line->tell);
	return knock(folder, name);
}

/* A seat has answered the first request: the replies' end is held alone from now on, so that a server's end is seen. */
int line_sits(struct line *line, const char *tell)
{
	int fd = high(open_raw(tell, O_RDONLY | O_NONBLOCK));
	if (fd < 0)
		return -1;
	syscall(SYS_fcntl, fd, F_SETFL, 0);
	let_go(line->tell);
	line->tell = fd;
	watch_changed();
	return 0;
}

/* waits for a seat; that there is none is told once */
static int sit_down(struct line *line, const char *tell)
{
	static int is_told;
	struct pollfd one = { line->tell, POLLIN, 0 };
	if (wait_raw(&one, 1, SEAT_MS) == 1)
		return line_sits(line, tell);
	if (!__atomic_exchange_n(&is_told, 1, __ATOMIC_SEQ_CST))
		frontend_seatless(line->table->adapter);
	return -1;
}

/* ------ a request and its reply */

static int put(struct line *line, const void *bytes, size_t count)
{
	for (const char *from = bytes; count;) {
		long n = syscall(SYS_write, line->ask, from, count);
		if (n < 0 && errno == EINTR)
			continue;
		if (n <= 0)
			return -1;
		from += n;
		count -= (size_t)n;
	}
	return 0;
}

/* Takes so many bytes. Where the program's memory can't be written the rest goes nowhere, and it is told so: 1. */
static int get(struct line *line, void *bytes, size_t count)
{
	char nowhere[SCRATCH], *into = bytes;
	int is_bad = 0;
	while (count) {
		long n = is_bad ? syscall(SYS_read, line->tell, nowhere, count < SCRATCH ? count : SCRATCH)
				: syscall(SYS_read, line->tell, into, count);
		if (n < 0 && errno == EINTR)
			continue;
		if (n < 0 && errno == EFAULT && !is_bad) {
			is_bad = 1;
			continue;
		}
		if (n <= 0)
			return -1;
		into += n;
		count -= (size_t)n;
	}
	return is_bad;
}

/*
 * Takes the reply, and the bytes behind it: both at once where they have come, and what is left of each, or can't be written at
 * once, alone.
 */
static int get_all(struct line *line, struct reply *reply, void *into, uint32_t room)
{
	struct iovec parts[2] = { { reply, sizeof *reply }, { into, room } };
	long n = room ? syscall(SYS_readv, line->tell, parts, 2) : 0;
	size_t done = n > 0 ? (size_t)n : 0, head = done < sizeof *reply ? done : sizeof *reply;
	done -= head;
	if (get(line, (char *)reply + head, sizeof *reply - head) || reply->length > room || done > reply->length)
		return -1;
	return get(line, (char *)into + done, reply->length - done);
}

/*
 * Passes over all that the line tells still: behind it come refusals of requests that only this makes, in a number that is this
 * try's alone, as another one may have been killed here too. A request was written whole or not at all, for a pipe takes so few
 * bytes at once, and so are the first bytes of a reply. 0 or -1.
 */
static int pass_over(struct line *line)
{
	struct request asked[MOST_TRIES + 1] = { 0 };
	struct reply wanted[MOST_TRIES + 1], seen[MOST_TRIES + 1] = { 0 }, next[MOST_TRIES + 1];
	uint32_t tries = ++line->table->tries;
	size_t size = (tries + 1) * sizeof *seen;
	if (tries > MOST_TRIES)
		return -1;
	for (uint32_t i = 0; i <= tries; i++) {
		asked[i] = (struct request){ .verb = i < tries ? POLL : 0, .node = NO_NODE };
		wanted[i] = i < tries ? no_node : no_verb;
	}
	asked[tries].node = 0;
	if (put(line, asked, (tries + 1) * sizeof *asked))
		return -1;
	if (line->table->told.code == untold) {
		if (get(line, &line->table->told, sizeof line->table->told))
			return -1;
		seen[tries] = line->table->told;
	}
	while (memcmp(seen, wanted, size)) {
		long n = syscall(SYS_read, line->tell, next, size);
		if (n < 0 && errno == EINTR)
			continue;
		if (n <= 0)
			return -1;
		memmove(seen, (char *)seen + n, size - (size_t)n);
		memcpy((char *)seen + size - n, next, (size_t)n);
	}
	return 0;
}

/* Somebody was killed in HOLD_LINE. What was asked last, if anything, was done or never came to the server; and it is noted here.
 */
static void find_back(struct line *line)
{
	struct table *table = line->table;
	if (!table->is_gone && table->asked.verb && pass_over(line))
		line_lost(line);
	if (!memcmp(&table->told, &no_node, sizeof no_node))
		table->asked.verb = 0;
	if (!table->is_gone)
		devices_found(line, &table->asked, &table->told);
	table->is_left = table->tries = table->asked.verb = 0;
}

/* the server has gone: -EIO */
static int lost(struct line *line)
{
	if (!line->table->is_gone)
		line_lost(line);
	return -EIO;
}

/* takes the reply to the last request: 0 or a negative error */
static int taken(struct line *line, struct reply *reply, void *into, uint32_t room)
{
	int error = get_all(line, &line->table->told, into, room);
	*reply = line->table->told;
	return error < 0 ? lost(line) : error ? -EFAULT : -(int)reply->code;
}

static int exchange(struct line *line, const struct request *request, struct reply *reply, void *into, uint32_t room)
{
	char ask[PATH], tell[PATH];
	struct table *table = line->table;
	int first = line->ask < 0;
	*ask = 0;
	if (is_cut(line))
		return -EIO;
	int bad = table->is_gone || (first && line_comes(line, ask, tell));
	table->told.code = untold;
	table->asked = *request;
	bad = bad || put(line, request, sizeof *request);
	bad = bad || (first && sit_down(line, tell));
	if (*ask) {
		unlink(ask);
		unlink(tell);
	}
	return bad ? lost(line) : taken(line, reply, into, room);
}

/* One request and its reply, with at most as many bytes as a read asks for, behind HOLD_LINE: 0 or a negative error. */
int ask(struct line *line, uint32_t verb, uint32_t node, uint32_t number, const void *argument, uint32_t length,
	struct reply *reply, void *into)
{
	struct request asked = { verb, node, number, length, { 0 } };
	if (length)
		memcpy(asked.argument, argument, length);
	int error = exchange(line, &asked, reply, into, verb == READ ? number : 0);
	if (traces() && verb != READ && verb != POLL)
		trace((int)verb, line->table->adapter, verb == OPEN_DEMUX && !error ? reply->value : node, number, argument,
		      length, error);
	return error;
}

/*
 * The same in two parts, for who has several lines: a read is asked for on a line with a seat, and its reply is taken once it
 * comes. Nothing else is asked between.
 */
int ask_read(struct line *line, uint32_t node, uint32_t most)
{
	struct request asked = { READ, node, most, 0, { 0 } };
	line->table->told.code = untold;
	return line->table->is_gone || put(line, &asked, sizeof asked) ? lost(line) : 0;
}

int take_read(struct line *line, struct reply *reply, void *into, uint32_t most) { return taken(line, reply, into, most); }
