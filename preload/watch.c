/*
 * The watcher: a thread of each process that has devices. It waits for the bells of their nodes, and where one rings it looks at
 * the node and makes the device's descriptors readable, so that no wait of the program has to be taken over. dvb_serve writes the
 * file bell.N where packets that node N was asked for have passed since its last read or poll, and inotify tells of it; `front`
 * is the frontend's. A node's is made by whoever comes first behind its open: the program that has it, or dvb_serve. The watcher
 * also sees the ends of filters' timeouts, that of the server, and devices of which no descriptor is left.
 */
#define _GNU_SOURCE
#include <fcntl.h>
#include <limits.h>
#include <semaphore.h>
#include <stdio.h>
#include <sys/inotify.h>
#include <sys/stat.h>
#include <sys/syscall.h>
#include <unistd.h>

#include "preload.h"

enum { STACK = 256 << 10, PAUSE_MS = 10, OTHERS_MS = 200, TOLD = 4096, ALL = -2 };

/* the pipe that wakes the watcher, and the bells: inotify has the inode of all that have none of their own */
static int wake[2] = { -1, -1 }, bells = -1;
static ino_t wake_ino, bells_ino;
/* which watcher is this process's; 0: none, and none any more where it ends */
static int runs, count_of_watchers, is_ending;
/* whether devices were open before: a bell that nobody has heard since doesn't ring again until the device is looked at */
static int is_late;
/* whether other processes of a line have devices that this one hasn't, of which no pipe tells when those are killed */
static int has_others;
/* the watcher that begins has come */
static sem_t has_come;

/* whether it can be woken: somebody may have closed its pipe past the preload */
static int is_whole(void) { return is_object(wake[0], wake_ino) && is_object(wake[1], wake_ino); }

int watch_runs(void) { return (__atomic_load_n(&runs, __ATOMIC_SEQ_CST) && is_whole()) || is_ending || getpid() != self; }

/* The file of a bell, as inotify names it; -1 where there is none, and then the device is looked at from time to time. */
int bell_of(struct at at)
{
	const char *folder = folders[at.line->table->adapter];
	char front[PATH], path[PATH];
	struct device *device = device_at(at);
	if (bells < 0)
		return -1;
	snprintf(front, sizeof front, "%s/front", folder);
	snprintf(path, sizeof path, "%s/bell.%u", folder, device->node);
	/* (in a folder that somebody has emptied nobody rings) */
	if (device->kind != FRONTEND && !syscall(SYS_faccessat, AT_FDCWD, front, F_OK))
		syscall(SYS_mknodat, AT_FDCWD, path, S_IFREG | 0600, 0);
	return inotify_add_watch(bells, device->kind == FRONTEND ? front : path, IN_MODIFY);
}

/* a bell that no other device of this process has */
void bell_done(struct at at)
{
	int bell = at.line->mine[at.place].bell, count = 0;
	for (struct line *line = lines; line < &lines[MOST_LINES]; line++)
		for (int i = 0; line->table && i < MOST_DEVICES; i++)
			count += line->mine[i].rings >= 0 && line->mine[i].bell == bell;
	if (bell >= 0 && count == 1)
		inotify_rm_watch(bells, bell);
}

/* a device's bell has rung, or it is looked at as if it had */
static void rang(struct at at)
{
	struct device *device = device_at(at);
	HOLD_LINE(at.line);
	if (!device->kind || device->ino != at.line->mine[at.place].ino)
		return;
	if (device->readers && !device->in_set && device->kind != FRONTEND) {
		wake_readers(at);
		device->state = UNKNOWN;
	} else if (device->state != READY) {
		look(at, -1);
	}
}

/* looks at the devices of this bell, or at all of them */
static void look_at(int bell)
{
	for (struct line *line = lines; line < &lines[MOST_LINES]; line++)
		for (int i = 0; line->table && i < MOST_DEVICES; i++)
			if (line->mine[i].rings >= 0 && (bell == ALL || line->mine[i].bell == bell))
				rang((struct at){ line, i });
}

/* whether this is still the inotify that was made */
static int has_bells(void)
{
	struct stat now;
	return bells >= 0 && !syscall(SYS_fstat, bells, &now) && now.st_ino == bells_ino && !S_ISREG(now.st_mode);
}

static void hear(void)
{
	char told[TOLD] __attribute__((aligned(8)));
	long n = has_bells() ? syscall(SYS_read, bells, told, sizeof told) : 0;
	for (long at = 0; at < n;) {
		const struct inotify_event *event = (const void *)&told[at];
		look_at(event->wd < 0 ? ALL : event->wd);
		at += (long)(sizeof *event + event->len);
	}
}

/* timeouts that are over, devices without a bell, and servers that may have gone */
static void look_round(int may_be_gone)
{
	long now = milliseconds();
	for (struct line *line = lines; line < &lines[MOST_LINES]; line++) {
		struct pollfd tell = { line->tell, 0, 0 };
		if (!line->table)
			continue;
		if (may_be_gone && line->tell >= 0 && wait_raw(&tell, 1, 0) > 0 && tell.revents & (POLLHUP | POLLNVAL)) {
			HOLD_LINE(line);
			line_lost(line);
		}
		for (int i = 0; i < MOST_DEVICES; i++) {
			struct device *device = &line->table->devices[i];
			if (line->mine[i].rings < 0 || !device->kind ||
			    (line->mine[i].bell >= 0 && !(device->due && device->due <= now)))
				continue;
			device->due = device->due <= now ? 0 : device->due;
			rang((struct at){ line, i });
		}
	}
}

/* all that the watcher waits for, and for how long: -1 has no end */
static nfds_t gather(struct pollfd *all, long *time)
{
	nfds_t count = 0;
	has_others = 0;
	all[count++] = (struct pollfd){ wake[0], POLLIN, 0 };
	all[count++] = (struct pollfd){ bells, POLLIN, 0 };
	*time = -1;
	for (struct line *line = lines; line < &lines[MOST_LINES]; line++) {
		if (!line->table)
			continue;
		all[count++] = (struct pollfd){ line->tell, 0, 0 };
		for (int i = 0; i < MOST_DEVICES; i++) {
			long due = line->table->devices[i].due, left = due ? due - milliseconds() : -1;
			has_others |= is_others(line, i);
			if (line->mine[i].rings < 0)
				continue;
			all[count++] = (struct pollfd){ line->mine[i].rings, 0, 0 };
			left = line->mine[i].bell < 0 ? PAUSE_MS : due && left < 0 ? 0 : left;
			*time = left >= 0 && (*time < 0 || left < *time) ? left : *time;
		}
	}
	*time = has_others && (*time < 0 || *time > OTHERS_MS) ? OTHERS_MS : *time;
	return count;
}

/* whether something else than bells and a time was told by a wait: then all is looked at */
static int is_more(int told, const struct pollfd *all, nfds_t count)
{
	for (nfds_t i = 0; i < count; i++)
		if (all[i].revents && all[i].fd != bells)
			return 1;
	return told < 0 || !count;
}

/* one turn of a watcher: 0 where it is to end */
static int turn(int number, int told, struct pollfd *all, nfds_t *count, long *time)
{
	char bytes[64];
	HOLD_OWN();
	if (runs != number)
		return 0;
	if (!is_whole()) {
		/* (the next call on a device begins anew) */
		watch_stopped();
		return 0;
	}
	int more = is_more(told, all, *count);
	while (more && syscall(SYS_read, wake[0], bytes, sizeof bytes) > 0)
		;
	if (more || has_others)
		sweep_all();
	if (is_late)
		look_at(ALL);
	is_late = 0;
	hear();
	look_round(more);
	*count = gather(all, time);
	return 1;
}

static void *run(void *number)
{
	struct pollfd all[2 + MOST_LINES * (1 + MOST_DEVICES)];
	long time = 0;
	nfds_t count = 0;
	int told;
	hold_for_good();
	sem_post(&has_come);
	do
		told = wait_raw(all, count, time);
	while (turn((int)(intptr_t)number, told, all, &count, &time));
	return NULL;
}

/* Inside of HOLD_OWN: there is no watcher any more, as in a forked child; one that runs ends, and isn't within a request. */
void watch_stopped(void)
{
	watch_changed();
	if (runs && is_object(wake[0], wake_ino))
		let_go(wake[0]);
	if (runs && is_object(wake[1], wake_ino))
		let_go(wake[1]);
	if (has_bells())
		let_go(bells);
	wake[0] = wake[1] = bells = -1;
	is_late = 1;
	__atomic_store_n(&runs, 0, __ATOMIC_SEQ_CST);
}

/* a program wants this number */
void watch_moved(int wanted)
{
	wake[0] = moved(wake[0], wanted);
	wake[1] = moved(wake[1], wanted);
	bells = moved(bells, wanted);
	watch_changed();
}

static void make_bells(void)
{
	struct stat made;
	bells = high((int)syscall(SYS_inotify_init1, IN_NONBLOCK | IN_CLOEXEC));
	bells_ino = bells < 0 || syscall(SYS_fstat, bells, &made) ? 0 : made.st_ino;
	for (struct line *line = lines; line < &lines[MOST_LINES]; line++)
		for (int i = 0; line->table && i < MOST_DEVICES; i++)
			if (line->mine[i].rings >= 0)
				line->mine[i].bell = bell_of((struct at){ line, i });
}

/*
 * Begins to watch, where nobody does: 0 where it can't. A thread that begins may hold locks of libraries, as of a sanitizer's; a
 * child that is forked meanwhile would find them held for ever, and its own watcher would never come. So no call comes back
 * before the thread has come.
 */
static int begin(void)
{
	struct stat made;
	pthread_t thread;
	pthread_attr_t small;
	if (syscall(SYS_pipe2, wake, O_NONBLOCK | O_CLOEXEC))
		return 0;
	wake[0] = high(wake[0]);
	wake[1] = high(wake[1]);
	wake_ino = syscall(SYS_fstat, wake[0], &made) ? 0 : made.st_ino;
	make_bells();
	pthread_attr_init(&small);
	pthread_attr_setdetachstate(&small, PTHREAD_CREATE_DETACHED);
	pthread_attr_setstacksize(&small, STACK);
	runs = ++count_of_watchers;
	sem_init(&has_come, 0, 0);
	if (pthread_create(&thread, &small, run, (void *)(intptr_t)runs)) {
		watch_stopped();
	} else {
		pthread_setname_np(thread, "dvbemu");
		sem_wait(&has_come);
	}
	pthread_attr_destroy(&small);
	return runs;
}

/* makes sure that the watching thread runs, and that it notices what has changed */
void watch(void)
{
	HOLD_OWN();
	if (runs && getpid() == self && (!is_whole() || (bells >= 0 && !has_bells())))
		watch_stopped();
	if (runs || (getpid() == self && !is_ending && begin()))
		watch_changed();
}

/* In front of an exec, and of the process's end, the watcher ends: so it is never ended within a request. */
void watch_ends(int for_ever)
{
	if (getpid() != self)
		return;
	HOLD_OWN();
	watch_stopped();
	is_ending = for_ever;
}

void watch_changed(void)
{
	if (is_object(wake[1], wake_ino))
		syscall(SYS_write, wake[1], "", 1);
}
