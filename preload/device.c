/*
 * The devices that are open: a node of the server, or the frontend. A descriptor of one is the reading end of a pipe, and is a
 * device just as long as it is that pipe, whatever its number is and however it came there; where none is left the pipe's other
 * end tells, and the node is closed. The pipe can be read where the device can: so the system itself wakes whoever waits.
 */
#define _GNU_SOURCE
#include <errno.h>
#include <fcntl.h>
#include <limits.h>
#include <linux/dvb/frontend.h>
#include <linux/futex.h>
#include <string.h>
#include <sys/ioctl.h>
#include <sys/stat.h>
#include <sys/syscall.h>
#include <time.h>
#include <unistd.h>

#include "preload.h"

enum { PAUSE_NS = 10000000, LONG_S = 3600 };

struct device *device_at(struct at at) { return &at.line->table->devices[at.place]; }

/* the device behind a descriptor, if there is one */
int found(int fd, struct at *at)
{
	if (!is_marked(fd))
		return 0;
	ino_t ino = pipe_of(fd);
	for (struct line *line = lines; ino && line < &lines[MOST_LINES]; line++)
		for (int i = 0; line->table && i < MOST_DEVICES; i++)
			if (line->table->devices[i].kind && line->table->devices[i].ino == ino) {
				*at = (struct at){ line, i };
				return 1;
			}
	unmark(fd);
	return 0;
}

/* the same, and somebody watches it from then on */
int find(int fd, struct at *at)
{
	int is_one = found(fd, at);
	if (is_one && !watch_runs())
		watch();
	return is_one;
}

/* ------ what can be read, inside of HOLD_LINE */

/* The device may have something: who reads it is woken. */
void wake_readers(struct at at)
{
	struct device *device = device_at(at);
	__atomic_add_fetch(&device->turn, 1, __ATOMIC_SEQ_CST);
	if (device->readers)
		syscall(SYS_futex, &device->turn, FUTEX_WAKE, INT_MAX, NULL, NULL, 0);
}

/* The same, and who waits for its descriptors is woken too. */
void ring(struct at at)
{
	struct device *device = device_at(at);
	struct mine *mine = &at.line->mine[at.place];
	wake_readers(at);
	if (is_object(mine->rings, device->ino) && syscall(SYS_write, mine->rings, "", 1) == 1)
		device->tokens++;
}

/* takes all bytes but so many out of the pipe */
static void hush(struct device *device, int fd, uint32_t left)
{
	char bytes[256];
	int there = 0;
	if (device->tokens <= left || !is_object(fd, device->ino) || syscall(SYS_ioctl, fd, FIONREAD, &there))
		return;
	for (there -= (int)left; there > 0; there -= (int)sizeof bytes)
		syscall(SYS_read, fd, bytes, there < (int)sizeof bytes ? there : (int)sizeof bytes);
	device->tokens = left;
}

/* Looks whether something is there. Without a descriptor of the device at hand its pipe stays as it is where nothing is. */
void look(struct at at, int fd)
{
	struct device *device = device_at(at);
	struct reply reply = { 0 };
	if (device->kind == FRONTEND)
		device->found = frontend_event(at.line->table->adapter) ? READABLE : 0;
	else
		device->found = ask(at.line, POLL, device->node, 0, NULL, 0, &reply, NULL) ? OVERFLOW : reply.value;
	if (device->found & SOMETHING) {
		ring(at);
		hush(device, fd, 1);
		device->state = READY;
		return;
	}
	hush(device, fd, 0);
	device->state = device->tokens ? UNKNOWN : QUIET;
}

/* ------ open and close, inside of HOLD_OWN */

static int place_in(struct line *line)
{
	for (int i = 0; i < MOST_DEVICES; i++)
		if (!line->table->devices[i].kind && line->mine[i].rings < 0)
			return i;
	return -1;
}

/* this process has the other end of a device's pipe, and the lock of its open */
void device_begin(struct line *line, int place, int rings, int life)
{
	struct at at = { line, place };
	line->mine[place] = (struct mine){ .ino = device_at(at)->ino, .rings = rings, .lock = -1, .life = life, .known = -1 };
	line->mine[place].bell = bell_of(at);
}

/*
 * Opens the node of a device, and fills its place, which this gives, or a negative error. The place is filled first, behind the
 * lock of its open: so where this process is killed meanwhile others see what it has left.
 */
static int begin(struct line *line, int kind, int flags, int rings)
{
	struct reply reply = { 0 };
	struct stat made;
	HOLD_LINE(line);
	int place = syscall(SYS_fstat, rings, &made) ? -1 : place_in(line),
	    life = place < 0 ? -1 : lock_of(line, ++line->table->opens);
	int error = place < 0 ? -EMFILE : 0;
	struct device *device = &line->table->devices[place < 0 ? 0 : place];
	if (!error) {
		/* (a thread that has waited here for a device which another closed still counts itself out) */
		*device = (struct device){ .access = flags & O_ACCMODE,
					   .node = NO_NODE,
					   .ino = made.st_ino,
					   .turn = device->turn + 1,
					   .readers = device->readers,
					   .open = life < 0 ? 0 : line->table->opens };
		__atomic_store_n(&device->kind, kind, __ATOMIC_SEQ_CST);
		if (kind == FRONTEND)
			trace(TRACE_OPEN, line->table->adapter, NO_NODE, 0, NULL, 0, 0);
		else
			error = ask(line, kind == DEMUX ? OPEN_DEMUX : OPEN_DVR, 0, 0, NULL, 0, &reply, NULL);
		device->node = kind == DVR ? DVR_NODE : reply.value;
	}
	if (error) {
		device->kind = place < 0 ? device->kind : NONE;
		let_go(life);
	} else {
		device_begin(line, place, rings, life);
		if (kind == DVR)
			look((struct at){ line, place }, -1);
	}
	return error ? error : place;
}

static int open_in(int adapter, int kind, int flags)
{
	HOLD_OWN();
	sweep_all();
	struct line *line = line_to(adapter);
	int ends[2], lock = kind == FRONTEND && (flags & O_ACCMODE) != O_RDONLY ? frontend_lock(adapter) : -1;
	if (lock < -1 || !line) {
		trace(TRACE_OPEN, adapter, kind == DVR ? DVR_NODE : NO_NODE, 0, NULL, 0, lock < -1 ? lock : -ENOMEM);
		return lock < -1 ? lock : -ENOMEM;
	}
	if (syscall(SYS_pipe2, ends, O_CLOEXEC)) {
		let_go(lock);
		return -EMFILE;
	}
	int rings = high(ends[1]), place = begin(line, kind, flags, rings);
	if (place < 0) {
		syscall(SYS_close, ends[0]);
		let_go(rings);
		let_go(lock);
		return place;
	}
	line->mine[place].lock = lock;
	syscall(SYS_fcntl, rings, F_SETFL, O_NONBLOCK);
	syscall(SYS_fcntl, ends[0], F_SETFL, flags & O_NONBLOCK);
	syscall(SYS_fcntl, ends[0], F_SETFD, flags & O_CLOEXEC ? FD_CLOEXEC : 0);
	mark(ends[0]);
	return ends[0];
}

int device_open(int adapter, int kind, int flags)
{
	int fd = open_in(adapter, kind, flags);
	if (fd >= 0)
		watch();
	return fd;
}

static void close_node(struct at at)
{
	struct reply reply;
	struct device *device = device_at(at);
	if (device->kind == FRONTEND)
		trace(TRACE_CLOSE, at.line->table->adapter, NO_NODE, 0, NULL, 0, 0);
	else if (!at.line->table->is_gone)
		ask(at.line, CLOSE, device->node, 0, NULL, 0, &reply, NULL);
	device->kind = NONE;
	device->ino = 0;
	device->state = QUIET;
	ring(at);
}

/*
 * No process has a descriptor of the device any more: the first process that notices closes its node. If this process lost its
 * own descriptors past the preload, it can't know about other processes.
 */
static void end(struct at at, int is_over)
{
	struct mine *mine = &at.line->mine[at.place];
	if (is_over) {
		HOLD_LINE(at.line);
		if (device_at(at)->kind && device_at(at)->ino == mine->ino)
			close_node(at);
	}
	bell_done(at);
	let_go(mine->rings);
	let_go(mine->lock);
	let_go(mine->life);
	*mine = nothing;
}

/* whether the device at this place is open, but not in this process */
int is_others(struct line *line, int place)
{
	struct device *device = &line->table->devices[place];
	return __atomic_load_n(&device->kind, __ATOMIC_SEQ_CST) != NONE &&
	       (line->mine[place].rings < 0 || line->mine[place].ino != device->ino);
}

/* ends such a device where all that had it were killed */
static void end_left(struct at at)
{
	if (!is_others(at.line, at.place) || is_locked(at.line, device_at(at)->open))
		return;
	HOLD_LINE(at.line);
	if (is_others(at.line, at.place) && !is_locked(at.line, device_at(at)->open))
		close_node(at);
}

/* ends the devices of which no descriptor is left, inside of HOLD_OWN */
void sweep_all(void)
{
	for (struct line *line = lines; line < &lines[MOST_LINES]; line++) {
		struct pollfd all[MOST_DEVICES];
		if (!line->table)
			continue;
		for (int i = 0; i < MOST_DEVICES; i++) {
			all[i] = (struct pollfd){ line->mine[i].rings, 0, 0 };
			end_left((struct at){ line, i });
		}
		if (wait_raw(all, MOST_DEVICES, 0) < 1)
			continue;
		for (int i = 0; i < MOST_DEVICES; i++)
			if (all[i].fd >= 0 && all[i].revents & (POLLERR | POLLNVAL))
				end((struct at){ line, i }, !(all[i].revents & POLLNVAL));
	}
}

void sweep(void)
{
	HOLD_OWN();
	sweep_all();
}

/* ------ read and ioctl */

static void is_read(void *device) { __atomic_sub_fetch(&((struct device *)device)->readers, 1, __ATOMIC_SEQ_CST); }

/*
 * Waits until the device may have something. A signal ends that as it ends any call that the system can begin again: by its
 * handler; and where some bytes were read by any handler, as a wait with a time is.
 */
static int doze(struct device *device, uint32_t turn, int has_some)
{
	struct timespec short_time = { 0, PAUSE_NS }, long_time = { LONG_S, 0 }, *most = has_some ? &long_time : NULL;
	int type, n;
	pthread_cleanup_push(is_read, device);
	pthread_setcanceltype(PTHREAD_CANCEL_ASYNCHRONOUS, &type);
	n = (int)syscall(SYS_futex, &device->turn, FUTEX_WAIT, turn, watch_runs() ? most : &short_time, NULL, 0);
	n = n < 0 && errno == EINTR ? -EINTR : 0;
	pthread_setcanceltype(type, NULL);
	pthread_cleanup_pop(1);
	return n;
}

static int is_nonblocking(int fd) { return !!(syscall(SYS_fcntl, fd, F_GETFL) & O_NONBLOCK); }

/* where a read is: whether it waits, from which turn on */
struct reading {
	int waits;
	uint32_t turn;
	struct reply reply;
};

/* One request to read. Where nothing is there, and the descriptor waits for more, the device has a reader from then on. */
static int read_once(int fd, struct at at, ino_t ino, void *into, uint32_t most, struct reading *reading)
{
	struct device *device = device_at(at);
	HOLD_LINE(at.line);
	int error = device->ino != ino ? -EBADF : ask(at.line, READ, device->node, most, NULL, 0, &reading->reply, into);
	reading->waits = error == -EAGAIN && !is_nonblocking(fd);
	if (error == -EAGAIN)
		hush(device, fd, 0);
	if (error != -EBADF)
		device->state = error == -EAGAIN ? QUIET : UNKNOWN;
	if (reading->waits)
		__atomic_add_fetch(&device->readers, 1, __ATOMIC_SEQ_CST);
	reading->turn = device->turn;
	return error;
}

/* A section filter gives one section; any other node is read until all bytes are there, where the read blocks. */
static ssize_t read_all(int fd, struct at at, void *into, size_t count)
{
	struct device *device = device_at(at);
	ino_t ino = device->ino;
	size_t done = 0;
	if (device->kind == FRONTEND || device->access == O_WRONLY)
		return device->kind == FRONTEND ? -EINVAL : -EBADF;
	for (;;) {
		struct reading reading = { 0 };
		uint32_t most = count - done < MOST_READ ? (uint32_t)(count - done) : MOST_READ;
		int error = read_once(fd, at, ino, (char *)into + done, most, &reading);
		if (reading.waits)
			trace(READ, at.line->table->adapter, device->node, (uint32_t)count, NULL, 0, TRACE_WAITS);
		if (reading.waits && !(error = doze(device, reading.turn, done > 0)))
			continue;
		if (error && !done)
			return error;
		done += error ? 0 : reading.reply.length;
		if (error || device->section || !reading.reply.length || done == count ||
		    (reading.reply.length < most && is_nonblocking(fd)))
			return (ssize_t)done;
	}
}

ssize_t device_read(int fd, struct at at, void *into, size_t count)
{
	uint32_t node = device_at(at)->node;
	ssize_t n = read_all(fd, at, into, count);
	trace(READ, at.line->table->adapter, node, (uint32_t)count, NULL, 0, n);
	return n;
}

/* a request has changed a node */
static void changed(int fd, struct at at, uint32_t number, const void *argument)
{
	struct device *device = device_at(at);
	if (node_changed(device, number, argument) && !device->is_tap)
		look(at, fd);
	if (device->due)
		watch_changed();
}

/* Somebody was killed: what was done of its last request is noted, and what is in a device's pipe is counted anew. */
void devices_found(struct line *line, const struct request *asked, const struct reply *told)
{
	int is_done = !told->code, is_open = is_done && (asked->verb == OPEN_DEMUX || asked->verb == OPEN_DVR);
	for (int i = 0; i < MOST_DEVICES; i++) {
		struct device *device = &line->table->devices[i];
		int is_node = device->kind == DEMUX || device->kind == DVR;
		if (is_node && device->node == NO_NODE) {
			device->node = device->kind == DVR ? DVR_NODE : told->value;
			device->kind = is_open ? device->kind : NONE;
		} else if (is_node && device->node == asked->node && asked->verb == CLOSE) {
			device->kind = NONE;
		} else if (is_node && device->node == asked->node && asked->verb == IOCTL && is_done) {
			node_changed(device, asked->number, asked->argument);
		}
		device->state = UNKNOWN;
		device->tokens += 2;
		wake_readers((struct at){ line, i });
	}
}

static int demux_ioctl(int fd, struct at at, uint32_t number, void *argument)
{
	struct reply reply;
	char bytes[ARGUMENT] = { 0 };
	struct device *device = device_at(at);
	int length = node_bytes(device, number, argument, bytes);
	if (length < 0)
		return length;
	HOLD_LINE(at.line);
	int error = device->kind ? ask(at.line, IOCTL, device->node, number, bytes, (uint32_t)length, &reply, NULL) : -EBADF;
	if (!error)
		changed(fd, at, number, bytes);
	return error;
}

/* An ioctl of the frontend, which has a reader from then on where none of its events has come that the ioctl waits for. */
static int tune_once(int fd, struct at at, uint32_t number, void *argument, struct reading *reading)
{
	struct device *device = device_at(at);
	int error;
	traced_waits = traces() && !is_nonblocking(fd);
	HOLD_LINE(at.line);
	do {
		error = frontend_ioctl(at.line->table->adapter, device->access, number, argument);
		look(at, fd);
		reading->waits = error == -EAGAIN && !is_nonblocking(fd);
	} while (reading->waits && device->state == READY);
	if (reading->waits)
		__atomic_add_fetch(&device->readers, 1, __ATOMIC_SEQ_CST);
	reading->turn = device->turn;
	return error;
}

static int tuner_ioctl(int fd, struct at at, uint32_t number, void *argument)
{
	for (;;) {
		struct reading reading = { 0 };
		int error = tune_once(fd, at, number, argument, &reading);
		if (!reading.waits || (error = doze(device_at(at), reading.turn, 0)))
			return error;
	}
}

/* 0 or a negative error */
int device_ioctl(int fd, struct at at, uint32_t number, void *argument)
{
	return device_at(at)->kind == FRONTEND ? tuner_ioctl(fd, at, number, argument) : demux_ioctl(fd, at, number, argument);
}
