/*
 * /dev/dvb by FUSE: files whose opens, reads, ioctls and polls are requests on the lines of preload/line.c, a line for each
 * program that has a demux or a dvr open, by its process's number. One thread does all in the order in which the kernel tells
 * it, so that a device which one program has closed is free for the next. Reads of several programs are asked for at once, one
 * on each line, and their replies are taken as they come. A call that waits is kept until its node's bell rings
 * (preload/watch.c has what a bell is), its filter's timeout is over, or a signal ends it.
 *
 * The kernel copies an ioctl's argument by the size that its number has. The lists of FE_SET_PROPERTY and FE_GET_PROPERTY
 * stand in the memory of the program, where they are read and written.
 */
#define _GNU_SOURCE
#define FUSE_USE_VERSION 35
#include <errno.h>
#include <fcntl.h>
#include <fuse_lowlevel.h>
#include <linux/dvb/frontend.h>
#include <limits.h>
#include <stddef.h>
#include <stdio.h>
#include <stdlib.h>
#include <string.h>
#include <sys/inotify.h>
#include <sys/ioctl.h>
#include <sys/mman.h>
#include <sys/stat.h>
#include <sys/syscall.h>
#include <sys/uio.h>
#include <unistd.h>

#include "../preload/preload.h"
#include "fuse.h"

enum { MOST_PROGRAMS = 256, MOST_ARGUMENT = 1 << 14, MOST_BACKGROUND = 1024, TOLD = 4096 };
enum { ALL = -1, PAUSE_MS = 10, FOR_EVER = 1000000 };
/* of a process that has begun no program: PF_FORKNOEXEC of a kernel; and how many parents are looked at */
enum { FORKED = 0x40, MOST_PARENTS = 16 };
enum { EVENTS = POLLIN | POLLRDNORM | POLLPRI, READ_ONLY_DIRECTORY = 0755, FREE_FOR_ALL = 0666 };

/*
 * A program on an adapter: its line, the names of the line's pipes until it has a seat, and until when it waits for one, or 0;
 * and the read that its server was asked for, whose reply hasn't been taken.
 */
static struct program {
	struct line line;
	pid_t pid;
	int is_used, has_ended, pidfd, adapter, files;
	long until;
	struct wait *asked;
	char ask[PATH], tell[PATH];
} programs[MOST_PROGRAMS];

/* an open device; `poll` is whom to tell where it may have something, and `who` has called last */
struct file {
	struct device device;
	struct program *program;
	int adapter, flags, lock;
	struct fuse_pollhandle *poll;
	struct traced who;
	struct file *next;
};

/*
 * A call that waits: an open, FE_GET_EVENT, or a read. That is to be asked for, is asked for, or sleeps until the bell rings,
 * which may have rung meanwhile. It has `done` of the bytes that there is room for, of which the last request asks for `most`.
 */
enum { DUE, ASKED, SLEEPS };
struct wait {
	fuse_req_t request;
	struct file *file;
	int verb, state, has_rung, is_over;
	struct fuse_file_info info;
	struct traced who;
	char *bytes;
	size_t size, room, done;
	uint32_t most;
	struct wait *next;
};

/* an ioctl: whose it is, its argument in the program's memory, and what the kernel has copied or will */
static struct call {
	pid_t pid;
	const char *argument, *in;
	size_t in_size, out_size;
	int is_32_bits;
	char out[MOST_ARGUMENT];
} call;

static struct file *files;
static struct wait *waits;
static int bells = -1, folder_bells[MOST_ADAPTERS];
static volatile sig_atomic_t is_over;
static struct timespec begun;

/* ------ what preload/line.c, node.c and frontend.c ask for, in the preload of its other parts */

int high(int fd) { return fd; }
void let_go(int fd) { fd < 0 ? 0 : close(fd); }
int is_object(int fd, ino_t ino) { return fd >= 0 && ino; }
void watch_changed(void) {}
void watch_stopped(void) {}
void inherit(void) {}
void ring(struct at at) { (void)at; }
void devices_found(struct line *line, const struct request *asked, const struct reply *told)
{
	(void)line, (void)asked, (void)told;
}

/* of programs of 32 bits: a list of properties, and a property, which is as of 64 bits up to a pointer that nobody reads */
struct list_32 {
	uint32_t num, props;
};
struct property_32 {
	char head[offsetof(struct dtv_property, u.buffer.reserved2)];
	uint32_t reserved;
	int result;
} __attribute__((packed));

/* bytes of the program's memory, to here or from here */
static int copied(long number, const void *here, const void *there, size_t count)
{
	struct iovec own = { (void *)here, count }, other = { (void *)there, count };
	return syscall(number, call.pid, &own, 1, &other, 1, 0) == (long)count;
}

static int copied_32(long number, struct dtv_property *all, const struct property_32 *there, size_t count)
{
	struct property_32 some[DTV_IOCTL_MAX_MSGS];
	if (count > DTV_IOCTL_MAX_MSGS)
		return 0;
	for (size_t i = 0; i < count; i++) {
		memcpy(some[i].head, &all[i], sizeof some[i].head);
		some[i].result = all[i].result;
	}
	if (!copied(number, some, there, count * sizeof *some))
		return 0;
	for (size_t i = 0; i < count; i++) {
		memcpy(&all[i], some[i].head, sizeof some[i].head);
		all[i].result = some[i].result;
	}
	return 1;
}

/* the list that an argument of 32 bits says */
static int list_32(struct dtv_properties *into)
{
	struct list_32 list;
	if (!copied(SYS_process_vm_readv, &list, call.argument, sizeof list))
		return 0;
	*into = (struct dtv_properties){ list.num, (struct dtv_property *)(uintptr_t)list.props };
	memcpy(call.out, &list, sizeof list);
	return 1;
}

int is_readable(const void *from, void *into, size_t count)
{
	int is_argument = from == call.argument;
	if (is_argument && call.is_32_bits && count == sizeof(struct dtv_properties))
		return list_32(into);
	if (!is_argument && call.is_32_bits)
		return copied_32(SYS_process_vm_readv, into, from, count / sizeof(struct dtv_property));
	if (is_argument && count <= call.in_size)
		memcpy(into, call.in, count);
	else if (!copied(SYS_process_vm_readv, into, from, count))
		return 0;
	if (is_argument && count <= call.out_size)
		memcpy(call.out, into, count);
	return 1;
}

int is_writable(void *to, const void *from, size_t count)
{
	if (to == call.argument && count <= call.out_size)
		return memcpy(call.out, from, count) != NULL;
	if (call.is_32_bits)
		return copied_32(SYS_process_vm_writev, (struct dtv_property *)from, to, count / sizeof(struct dtv_property));
	return copied(SYS_process_vm_writev, from, to, count);
}

/* ------ programs */

/* fills in what a file of /proc tells of a process, as text */
void read_of(pid_t process, const char *name, char *into, size_t room)
{
	char path[64];
	snprintf(path, sizeof path, "/proc/%d/%s", process, name);
	int fd = open(path, O_RDONLY | O_CLOEXEC);
	ssize_t n = fd < 0 ? 0 : read(fd, into, room - 1);
	into[n < 0 ? 0 : n] = 0;
	let_go(fd);
}

/* the process of a thread */
static pid_t process_of(pid_t thread)
{
	char told[TOLD];
	int process = thread;
	read_of(thread, "status", told, sizeof told);
	const char *at = strstr(told, "\nTgid:");
	return at && sscanf(at, "\nTgid: %d", &process) == 1 ? process : thread;
}

/* the parent of a process that was forked, and has become no other program since; 0 of any other */
static pid_t parent_of(pid_t process)
{
	char told[TOLD];
	unsigned flags = 0;
	int parent = 0;
	read_of(process, "stat", told, sizeof told);
	const char *at = strrchr(told, ')');
	return at && sscanf(at, ") %*c %d %*d %*d %*d %*d %u", &parent, &flags) == 2 && flags & FORKED ? parent : 0;
}

static struct traced asker_of(fuse_req_t request)
{
	pid_t thread = fuse_req_ctx(request)->pid;
	struct traced who = { process_of(thread), thread, "" };
	read_of(who.process, "comm", who.name, sizeof who.name);
	who.name[strcspn(who.name, "\n")] = 0;
	return who;
}

/* whose call is told from now on, where calls are told */
static void called_by(fuse_req_t request)
{
	if (!traces())
		return;
	wait_left(fuse_req_ctx(request)->pid);
	traced = asker_of(request);
}

static void end_program(struct program *program)
{
	struct line *line = &program->line;
	line_lost(line);
	unlink(program->ask);
	unlink(program->tell);
	munmap(line->table, sizeof *line->table);
	let_go(line->memory);
	let_go(program->pidfd);
	program->is_used = 0;
}

/* A program knocks: the seat that it gets will answer a request of no node. */
static int comes(struct program *program, pid_t pid, int adapter)
{
	static const struct request first = { .verb = POLL, .node = NO_NODE };
	*program = (struct program){ .pid = pid, .is_used = 1, .adapter = adapter, .until = milliseconds() + SEAT_MS };
	program->pidfd = (int)syscall(SYS_pidfd_open, pid, 0);
	/* (whose end can't be seen, as it is, or the system is too old, ends with the last of its files) */
	program->has_ended = program->pidfd < 0;
	if (line_made(&program->line, adapter)) {
		program->is_used = 0;
		return -1;
	}
	if (!line_comes(&program->line, program->ask, program->tell) &&
	    write(program->line.ask, &first, sizeof first) == sizeof first)
		return 0;
	end_program(program);
	return -1;
}

/* the program of a process that is there, or NULL */
static struct program *known(pid_t process, int adapter)
{
	for (struct program *program = programs; process && program < &programs[MOST_PROGRAMS]; program++) {
		int is_its = program->is_used && program->pid == process && program->adapter == adapter;
		if (is_its && (!program->has_ended || program->pidfd < 0) && !program->line.table->is_gone)
			return program;
	}
	return NULL;
}

/* the program of a thread: a forked child has its parent's, or that one's, where there is one; else it comes in */
static struct program *program_of(pid_t thread, int adapter)
{
	pid_t own = process_of(thread), process = own;
	struct program *program = known(process, adapter), *unused = programs;
	for (int i = 0; i < MOST_PARENTS && !program && (process = parent_of(process)); i++)
		program = known(process, adapter);
	while (!program && unused < &programs[MOST_PROGRAMS] && unused->is_used)
		unused++;
	if (!program && unused < &programs[MOST_PROGRAMS] && !comes(unused, own, adapter))
		program = unused;
	return program;
}

/* ------ answers */

static struct file *file_of(const struct fuse_file_info *info) { return (struct file *)(uintptr_t)info->fh; }

static void let_wait_go(struct wait **at)
{
	struct wait *wait = *at;
	*at = wait->next;
	free(wait->bytes);
	free(wait);
}

/* a read has ended, with an error or the bytes that it has */
static void end_read(struct wait *wait, int error)
{
	struct wait **at = &waits;
	error = wait->done ? 0 : error;
	traced = wait->who;
	trace(READ, wait->file->adapter, wait->file->device.node, (uint32_t)wait->size, NULL, 0,
	      error ? error : (long)wait->done);
	if (error)
		fuse_reply_err(wait->request, -error);
	else
		fuse_reply_buf(wait->request, wait->bytes, wait->done);
	while (*at != wait)
		at = &(*at)->next;
	let_wait_go(at);
}

/* A read goes on behind a reply. A section filter gives one section; any other node is read until all bytes are there, where the
 * read waits. */
static void read_on(struct wait *wait, int error, uint32_t length)
{
	struct device *device = &wait->file->device;
	int waits_on = !(wait->info.flags & O_NONBLOCK), is_empty = error == -EAGAIN;
	wait->done += length;
	int is_whole = device->section || !length || wait->done == wait->room || (length < wait->most && !waits_on);
	wait->state = is_empty && !wait->has_rung ? SLEEPS : DUE;
	device->state = is_empty && !wait->has_rung ? QUIET : UNKNOWN;
	if (is_empty ? !waits_on : error || is_whole)
		return end_read(wait, error);
	if (wait->is_over)
		return end_read(wait, -EINTR);
	traced = wait->who;
	if (is_empty)
		trace(READ, wait->file->adapter, device->node, (uint32_t)wait->size, NULL, 0, TRACE_WAITS);
}

/* takes the reply to the read that a program's server was asked for */
static void take_asked(struct program *program)
{
	struct wait *wait = program->asked;
	struct reply reply = { 0 };
	if (!wait)
		return;
	program->asked = NULL;
	int error = take_read(&program->line, &reply, wait->bytes + wait->done, wait->most);
	read_on(wait, error, error ? 0 : reply.length);
}

/* asks for a program's next read that is due, unless one is asked for already */
static void ask_next(struct program *program)
{
	for (struct wait *wait = waits, *next; wait && !program->asked; wait = next) {
		next = wait->next;
		if (wait->verb != READ || wait->state != DUE || wait->file->program != program)
			continue;
		wait->most = wait->room - wait->done < MOST_READ ? (uint32_t)(wait->room - wait->done) : MOST_READ;
		wait->has_rung = 0;
		if (ask_read(&program->line, wait->file->device.node, wait->most)) {
			end_read(wait, -EIO);
		} else {
			wait->state = ASKED;
			program->asked = wait;
		}
	}
}

/* a request of another kind, behind the read that its server was asked for */
static int ask_node(struct file *file, uint32_t verb, uint32_t number, const void *argument, uint32_t length, struct reply *reply)
{
	take_asked(file->program);
	return ask(&file->program->line, verb, file->device.node, number, argument, length, reply, NULL);
}

/* whether something is there, by what is known, or by a request */
static void look_at(struct file *file)
{
	struct device *device = &file->device;
	struct reply reply = { 0 };
	if (device->kind == FRONTEND)
		device->found = frontend_event(file->adapter) ? READABLE : 0;
	else if (device->state == UNKNOWN)
		device->found = ask_node(file, POLL, 0, NULL, 0, &reply) ? OVERFLOW : reply.value;
	else if (device->state == QUIET)
		device->found = 0;
	device->state = device->found & SOMETHING ? READY : QUIET;
}

static void forget(struct file *file)
{
	struct reply reply;
	struct file **at = &files;
	struct program *program = file->program;
	while (*at && *at != file)
		at = &(*at)->next;
	if (*at)
		*at = file->next;
	if (program && file->device.node != NO_NODE && !program->line.table->is_gone)
		ask_node(file, CLOSE, 0, NULL, 0, &reply);
	else if (file->device.kind == FRONTEND)
		trace(TRACE_CLOSE, file->adapter, NO_NODE, 0, NULL, 0, 0);
	if (program && !--program->files && program->has_ended)
		end_program(program);
	if (file->poll)
		fuse_pollhandle_destroy(file->poll);
	let_go(file->lock);
	free(file);
}

/* opens the node of a device, whose program has a seat; an open that a signal has ended isn't closed by the kernel */
static void finish_open(fuse_req_t request, struct file *file, struct fuse_file_info *info)
{
	struct reply reply = { 0 };
	int kind = file->device.kind, error = 0;
	traced = file->who;
	if (kind == FRONTEND)
		trace(TRACE_OPEN, file->adapter, NO_NODE, 0, NULL, 0, 0);
	else
		error = ask_node(file, kind == DEMUX ? OPEN_DEMUX : OPEN_DVR, 0, NULL, 0, &reply);
	if (!error && kind != FRONTEND)
		file->device.node = kind == DVR ? DVR_NODE : reply.value;
	info->fh = (uint64_t)(uintptr_t)file;
	info->direct_io = 1;
	if (error)
		fuse_reply_err(request, -error);
	if (error || fuse_reply_open(request, info))
		forget(file);
}

/* goes on with FE_GET_EVENT: whether it has ended */
static int event_on(struct wait *wait)
{
	int waits_on = !(wait->file->flags & O_NONBLOCK);
	call = (struct call){ .out_size = sizeof(struct dvb_frontend_event) };
	traced = wait->who;
	traced_waits = waits_on;
	int error = frontend_ioctl(wait->file->adapter, wait->file->device.access, FE_GET_EVENT, (void *)call.argument);
	if (error == -EAGAIN && waits_on)
		return 0;
	if (error)
		fuse_reply_err(wait->request, -error);
	else
		fuse_reply_ioctl(wait->request, 0, call.out, call.out_size);
	return 1;
}

/* ends a call that no reply is waited for */
static void end_early(struct wait **at)
{
	struct wait *wait = *at;
	if (wait->verb == READ)
		return end_read(wait, -EINTR);
	fuse_reply_err(wait->request, EINTR);
	if (wait->verb == OPEN_DEMUX)
		forget(wait->file);
	let_wait_go(at);
}

static void interrupted(fuse_req_t request, void *wait)
{
	(void)request;
	((struct wait *)wait)->is_over = 1;
}

/* a call waits, behind all others: 0, or -1 where there is no memory for it */
static int keep_waiting(struct wait kept)
{
	struct wait **at = &waits, *wait = malloc(sizeof *wait);
	if (!wait)
		return -1;
	while (*at)
		at = &(*at)->next;
	*wait = kept;
	*at = wait;
	fuse_req_interrupt_func(wait->request, interrupted, wait);
	return 0;
}

static void end_interrupted(void)
{
	for (struct wait **at = &waits; *at;) {
		if ((*at)->is_over && (*at)->state != ASKED)
			end_early(at);
		else
			at = &(*at)->next;
	}
}

/* goes on with the calls that wait for a device which may have something */
static void wake(struct file *file)
{
	for (struct wait **at = &waits; *at;) {
		struct wait *wait = *at;
		wait->has_rung |= wait->file == file;
		if (wait->file == file && wait->verb == READ && wait->state == SLEEPS)
			wait->state = DUE;
		if (wait->file == file && wait->verb == IOCTL && event_on(wait))
			let_wait_go(at);
		else
			at = &wait->next;
	}
	if (file->program)
		ask_next(file->program);
}

/* a device may have something: the calls that wait for it go on, and who polls it is told, where something is there */
static void heard(struct file *file)
{
	wake(file);
	if (file->device.kind != FRONTEND && file->device.state == READY)
		return;
	file->device.state = UNKNOWN;
	if (!file->poll)
		return;
	look_at(file);
	if (file->device.state == READY) {
		fuse_lowlevel_notify_poll(file->poll);
		fuse_pollhandle_destroy(file->poll);
		file->poll = NULL;
	}
}

/* ------ the calls, as libfuse has them */

/* a number says what it is: the root, a folder of an adapter, or a device in it */
enum { ROOT = FUSE_ROOT_ID, EACH = 16 };
static const char *const names[] = { [FRONTEND] = "frontend0", [DEMUX] = "demux0", [DVR] = "dvr0" };

static fuse_ino_t number_of(int adapter, int kind) { return (fuse_ino_t)(adapter + 1) * EACH + (fuse_ino_t)kind; }

static void tell(fuse_ino_t number, struct stat *told)
{
	int is_file = number != ROOT && number % EACH;
	*told = (struct stat){ .st_ino = number,
			       .st_nlink = is_file ? 1 : 2,
			       .st_uid = getuid(),
			       .st_gid = getgid(),
			       .st_atim = begun,
			       .st_mtim = begun,
			       .st_ctim = begun };
	told->st_mode = is_file ? S_IFREG | FREE_FOR_ALL : S_IFDIR | READ_ONLY_DIRECTORY;
}

static void do_getattr(fuse_req_t request, fuse_ino_t number, struct fuse_file_info *info)
{
	struct stat told;
	(void)info;
	tell(number, &told);
	fuse_reply_attr(request, &told, FOR_EVER);
}

/* the entry of a folder at this place, with the names of itself and the one above first: its number, or 0 behind the last */
static fuse_ino_t entry_at(fuse_ino_t folder, off_t place, char *name)
{
	int is_root = folder == ROOT, there = (int)place - 2;
	if (place < 2) {
		strcpy(name, place ? ".." : ".");
		return place ? ROOT : folder;
	}
	if (there >= (is_root ? adapters : DVR))
		return 0;
	if (is_root)
		sprintf(name, "adapter%d", there);
	else
		strcpy(name, names[there + 1]);
	return is_root ? number_of(there, NONE) : folder + (fuse_ino_t)there + 1;
}

static void do_lookup(fuse_req_t request, fuse_ino_t folder, const char *wanted)
{
	struct fuse_entry_param entry = { .attr_timeout = FOR_EVER, .entry_timeout = FOR_EVER };
	char name[32];
	for (off_t place = 2; (entry.ino = entry_at(folder, place, name)) && strcmp(name, wanted); place++)
		;
	tell(entry.ino, &entry.attr);
	if (entry.ino)
		fuse_reply_entry(request, &entry);
	else
		fuse_reply_err(request, ENOENT);
}

static void do_readdir(fuse_req_t request, fuse_ino_t folder, size_t size, off_t place, struct fuse_file_info *info)
{
	char all[1024], name[32];
	size_t done = 0, room = size < sizeof all ? size : sizeof all, more = 0;
	struct stat told = { 0 };
	(void)info;
	while (done + more <= room && (told.st_ino = entry_at(folder, place, name))) {
		tell(told.st_ino, &told);
		more = fuse_add_direntry(request, all + done, room - done, name, &told, ++place);
		done += done + more <= room ? more : 0;
		more = fuse_add_direntry(request, NULL, 0, "adapter0", NULL, 0);
	}
	fuse_reply_buf(request, all, done);
}

static void do_open(fuse_req_t request, fuse_ino_t number, struct fuse_file_info *info)
{
	int adapter = (int)(number / EACH) - 1, kind = (int)(number % EACH), access = info->flags & O_ACCMODE;
	int lock = kind == FRONTEND && access != O_RDONLY ? frontend_lock(adapter) : -1;
	called_by(request);
	struct program *program = kind == FRONTEND ? NULL : program_of(fuse_req_ctx(request)->pid, adapter);
	struct file *file = lock < -1 || (kind != FRONTEND && !program) ? NULL : malloc(sizeof *file);
	if (!file) {
		int error = lock < -1 ? -lock : EIO;
		trace(kind == FRONTEND ? TRACE_OPEN : kind == DVR ? OPEN_DVR : OPEN_DEMUX, adapter, NO_NODE, 0, NULL, 0, -error);
		let_go(lock);
		fuse_reply_err(request, error);
		return;
	}
	*file = (struct file){ .device = { .kind = kind, .access = access, .node = NO_NODE, .state = UNKNOWN },
			       .program = program,
			       .adapter = adapter,
			       .flags = info->flags,
			       .lock = lock,
			       .who = traced,
			       .next = files };
	files = file;
	if (program)
		program->files++;
	if (!program || !program->until) {
		finish_open(request, file, info);
	} else if (keep_waiting((struct wait){ .request = request, .file = file, .verb = OPEN_DEMUX, .info = *info })) {
		fuse_reply_err(request, ENOMEM);
		forget(file);
	}
}

/* a device as preload/wait.c tells it */
static uint32_t word_of(const struct file *file)
{
	return (uint32_t)(file->adapter << 16 | file->device.kind << 8) | file->device.node;
}

static void do_release(fuse_req_t request, fuse_ino_t number, struct fuse_file_info *info)
{
	(void)number;
	/* (of a close isn't told who makes it) */
	if (traces())
		wait_closed(word_of(file_of(info)));
	traced = file_of(info)->who;
	forget(file_of(info));
	fuse_reply_err(request, 0);
}

static void do_read(fuse_req_t request, fuse_ino_t number, size_t size, off_t place, struct fuse_file_info *info)
{
	struct file *file = file_of(info);
	struct wait wait = { .request = request, .file = file, .verb = READ, .info = *info, .size = size };
	(void)number, (void)place;
	called_by(request);
	file->who = wait.who = traced;
	wait.room = file->device.section && size > MOST_READ ? MOST_READ : size;
	wait.bytes = file->device.kind == FRONTEND ? NULL : malloc(wait.room);
	if (wait.bytes && !keep_waiting(wait))
		return ask_next(file->program);
	int error = file->device.kind == FRONTEND ? EINVAL : ENOMEM;
	trace(READ, file->adapter, file->device.node, (uint32_t)size, NULL, 0, -error);
	fuse_reply_err(request, error);
	free(wait.bytes);
}

/* (a kernel's demux and frontend have no write) */
static void do_write(fuse_req_t request, fuse_ino_t number, const char *bytes, size_t size, off_t place,
		     struct fuse_file_info *info)
{
	(void)number, (void)bytes, (void)size, (void)place, (void)info;
	fuse_reply_err(request, EINVAL);
}

/* (for which `ls -l` asks: there are none) */
static void do_getxattr(fuse_req_t request, fuse_ino_t number, const char *name, size_t size)
{
	(void)number, (void)name, (void)size;
	fuse_reply_err(request, ENODATA);
}

static void do_listxattr(fuse_req_t request, fuse_ino_t number, size_t size)
{
	(void)number;
	if (size)
		fuse_reply_buf(request, NULL, 0);
	else
		fuse_reply_xattr(request, 0);
}

static int node_ioctl(struct file *file, uint32_t number)
{
	char bytes[ARGUMENT] = { 0 };
	struct reply reply;
	int length = node_bytes(&file->device, number, call.argument, bytes);
	int error = length < 0 ? length : ask_node(file, IOCTL, number, bytes, (uint32_t)length, &reply);
	if (!error)
		node_changed(&file->device, number, bytes);
	return error;
}

static void do_ioctl(fuse_req_t request, fuse_ino_t inode, unsigned number, void *argument, struct fuse_file_info *info,
		     unsigned flags, const void *in, size_t in_size, size_t out_size)
{
	struct file *file = file_of(info);
	int is_set = number == _IOW('o', _IOC_NR(FE_SET_PROPERTY), struct list_32);
	int is_list = is_set || number == _IOR('o', _IOC_NR(FE_GET_PROPERTY), struct list_32);
	(void)inode;
	called_by(request);
	file->who = traced;
	call = (struct call){ fuse_req_ctx(request)->pid,	    argument, in, in_size, out_size,
			      flags & FUSE_IOCTL_COMPAT && is_list, "" };
	if (call.is_32_bits)
		number = is_set ? FE_SET_PROPERTY : FE_GET_PROPERTY;
	if (file->device.kind == FRONTEND && number == FE_GET_EVENT) {
		struct wait wait = { .request = request, .file = file, .verb = IOCTL, .who = traced };
		if (!event_on(&wait) && keep_waiting(wait))
			fuse_reply_err(request, ENOMEM);
		return;
	}
	int error = file->device.kind == FRONTEND ? frontend_ioctl(file->adapter, file->device.access, number, argument)
						  : node_ioctl(file, number);
	if (error)
		fuse_reply_err(request, -error);
	else
		fuse_reply_ioctl(request, 0, call.out, out_size);
}

static void tell_poll(fuse_req_t request, struct file *file)
{
	file->who = asker_of(request);
	waited_for(&file->who, word_of(file), file->device.state == READY);
}

static void do_poll(fuse_req_t request, fuse_ino_t number, struct fuse_file_info *info, struct fuse_pollhandle *poll)
{
	struct file *file = file_of(info);
	(void)number;
	look_at(file);
	if (poll) {
		if (file->poll)
			fuse_pollhandle_destroy(file->poll);
		file->poll = poll;
	}
	int is_lost = file->device.found & (OVERFLOW | TIMED_OUT);
	if (traces())
		tell_poll(request, file);
	fuse_reply_poll(request, file->device.state == READY ? EVENTS | (is_lost ? POLLERR : 0) : 0);
}

static void do_init(void *none, struct fuse_conn_info *connection)
{
	(void)none;
	/* (so many closes may be on their way: an open comes behind them) */
	connection->max_background = MOST_BACKGROUND;
	/* (as mounted: a kernel would hold a megabyte of the program's memory for a read of that size, which takes its time) */
	connection->max_read = MOST_READ;
}

/* ------ what happens elsewhere */

/* a seat has answered, or none has in time: the opens of this program go on, or end */
static void seated(struct program *program)
{
	struct reply first;
	int is_in = read(program->line.tell, &first, sizeof first) == sizeof first && !line_sits(&program->line, program->tell);
	program->until = 0;
	unlink(program->ask);
	unlink(program->tell);
	if (!is_in)
		line_lost(&program->line);
	for (struct wait **at = &waits; *at;) {
		struct wait *wait = *at;
		if (wait->verb != OPEN_DEMUX || wait->file->program != program) {
			at = &wait->next;
			continue;
		}
		finish_open(wait->request, wait->file, &wait->info);
		let_wait_go(at);
	}
}

/* that a program finds none is told once */
static void no_seat(struct program *program)
{
	int is_told = 0;
	for (struct program *other = programs; other < &programs[MOST_PROGRAMS]; other++)
		is_told |= other->is_used && other != program && other->pid == program->pid && other->adapter == program->adapter;
	if (!is_told)
		frontend_seatless(program->adapter);
	line_lost(&program->line);
	seated(program);
}

/* the devices of a node whose bell has rung, or of all */
static void rang(int adapter, const char *name)
{
	unsigned node = NO_NODE;
	int is_front = adapter != ALL && !strcmp(name, "front");
	if (adapter != ALL && !is_front && sscanf(name, "bell.%u", &node) != 1)
		return;
	for (struct file *file = files, *next; file; file = next) {
		next = file->next;
		int is_its = file->device.kind == FRONTEND ? is_front : file->device.node == node;
		if (adapter == ALL || (file->adapter == adapter && is_its))
			heard(file);
	}
}

static void hear(void)
{
	char told[TOLD] __attribute__((aligned(8)));
	long n;
	while ((n = read(bells, told, sizeof told)) > 0) {
		for (long at = 0; at < n;) {
			const struct inotify_event *event = (const void *)&told[at];
			int adapter = 0;
			while (adapter < adapters && folder_bells[adapter] != event->wd)
				adapter++;
			rang(adapter < adapters ? adapter : ALL, event->len ? event->name : "");
			at += (long)(sizeof *event + event->len);
		}
	}
}

/* does what is due, and says how many milliseconds are left until the next */
static long done_until_next(void)
{
	long now = milliseconds(), next = bells < 0 ? now + PAUSE_MS : LONG_MAX;
	for (struct program *program = programs; program < &programs[MOST_PROGRAMS]; program++) {
		if (program->is_used && program->until && program->until <= now)
			no_seat(program);
		if (program->is_used && program->until && program->until < next)
			next = program->until;
	}
	for (struct file *file = files; file; file = file->next) {
		if (file->device.due && file->device.due <= now) {
			file->device.due = 0;
			heard(file);
		}
		if (file->device.due && file->device.due < next)
			next = file->device.due;
	}
	if (bells < 0)
		rang(ALL, "");
	if (files && traces())
		next = waits_seen(now, next);
	return next == LONG_MAX ? -1 : next - now;
}

/* its server has gone */
static void lose_program(struct program *program)
{
	line_lost(&program->line);
	take_asked(program);
	rang(ALL, "");
}

/* a program's process or its server has ended, or a seat has answered it */
static void look_at_program(struct program *program, int process, int line)
{
	if (process & (POLLIN | POLLERR))
		program->has_ended = 1;
	if (program->until && line)
		seated(program);
	else if (line & POLLIN)
		take_asked(program);
	else if (line)
		lose_program(program);
	if (program->is_used && program->has_ended && !program->files)
		end_program(program);
}

/* waits until something has happened, or SIGTERM comes, and does what is to be done; calls of programs are done by the caller */
static void wait_and_see(int calls, const sigset_t *signals)
{
	struct pollfd all[2 + 2 * MOST_PROGRAMS] = { { calls, POLLIN, 0 }, { bells, POLLIN, 0 } };
	struct program *whose[MOST_PROGRAMS];
	int count = 0;
	long left = done_until_next();
	struct timespec most = { left / 1000, left % 1000 * 1000000 };
	for (struct program *program = programs; program < &programs[MOST_PROGRAMS]; program++) {
		if (!program->is_used)
			continue;
		ask_next(program);
		all[2 + 2 * count] = (struct pollfd){ program->has_ended ? -1 : program->pidfd, POLLIN, 0 };
		all[3 + 2 * count] = (struct pollfd){ program->line.tell, program->until || program->asked ? POLLIN : 0, 0 };
		whose[count++] = program;
	}
	if (ppoll(all, (nfds_t)(2 + 2 * count), left < 0 ? NULL : &most, signals) < 1)
		return;
	if (all[1].revents)
		hear();
	for (int i = 0; i < count; i++)
		if (all[2 + 2 * i].revents || all[3 + 2 * i].revents)
			look_at_program(whose[i], all[2 + 2 * i].revents, all[3 + 2 * i].revents);
}

static void ends(int number)
{
	(void)number;
	is_over = 1;
}

struct fuse_session *devices_mount(const char *on)
{
	static const struct fuse_lowlevel_ops calls = { .init = do_init,
							.lookup = do_lookup,
							.getattr = do_getattr,
							.readdir = do_readdir,
							.open = do_open,
							.release = do_release,
							.read = do_read,
							.write = do_write,
							.ioctl = do_ioctl,
							.poll = do_poll,
							.getxattr = do_getxattr,
							.listxattr = do_listxattr };
	char *words[] = { "dvbemu", "-o", "allow_other,default_permissions,fsname=dvbemu,max_read=65536", NULL };
	struct fuse_args args = FUSE_ARGS_INIT(3, words);
	struct fuse_session *session = fuse_session_new(&args, &calls, sizeof calls, NULL);
	return session && !fuse_session_mount(session, on) ? session : NULL;
}

void devices_serve(struct fuse_session *session)
{
	struct fuse_buf call_of = { 0 };
	sigset_t one, before;
	int fd = fuse_session_fd(session);
	clock_gettime(CLOCK_REALTIME, &begun);
	bells = inotify_init1(IN_NONBLOCK | IN_CLOEXEC);
	for (int i = 0; i < adapters; i++)
		folder_bells[i] = inotify_add_watch(bells, folders[i], IN_MODIFY | IN_EXCL_UNLINK);
	fcntl(fd, F_SETFL, O_NONBLOCK);
	sigemptyset(&one);
	sigaddset(&one, SIGTERM);
	sigprocmask(SIG_BLOCK, &one, &before);
	signal(SIGTERM, ends);
	while (!fuse_session_exited(session)) {
		/* (what was told before the end is done) */
		int is_last = is_over;
		while (fuse_session_receive_buf(session, &call_of) > 0) {
			fuse_session_process_buf(session, &call_of);
			end_interrupted();
		}
		if (is_last)
			break;
		if (!is_over)
			wait_and_see(fd, &before);
	}
}
