/*
 * The C library's calls that wait for descriptors. The system waits, for the pipes of devices as for all others; in front of that
 * only those devices are looked at of which nothing is known, since they were read or set. What a pipe can't tell stands behind
 * it: POLLPRI, which comes with data, and POLLERR, with which an overflow or a timeout comes.
 */
#define _GNU_SOURCE
#include <errno.h>
#include <stdio.h>
#include <string.h>
#include <sys/epoll.h>
#include <sys/select.h>
#include <unistd.h>

#include "preload.h"

/* ------ what is told of a wait: its name, and the devices that it waits for, as far as there is room */

enum { MOST_TOLD = 32, MOST_NAME = 16 };
static __thread struct {
	char name[MOST_NAME];
	uint32_t devices[MOST_TOLD];
} waited __attribute__((tls_model("initial-exec")));
static __thread size_t count_of_waited __attribute__((tls_model("initial-exec")));

static void note(struct at at)
{
	struct device *device = device_at(at);
	if (traces() && count_of_waited < MOST_TOLD)
		waited.devices[count_of_waited++] = (uint32_t)(at.line->table->adapter << 16 | device->kind << 8) | device->node;
}

static void tell_wait(const char *name, long time, long result)
{
	if (!traces() || !count_of_waited)
		return;
	memset(waited.name, 0, MOST_NAME);
	snprintf(waited.name, MOST_NAME, "%s", name);
	trace(TRACE_WAIT, 0, NO_NODE, (uint32_t)time, &waited, MOST_NAME + count_of_waited * sizeof *waited.devices, result);
}

/* milliseconds of a wait's time, -1 where it has no end */
static long of_int(int time) { return time; }
static long of_spec(const struct timespec *time) { return time ? time->tv_sec * 1000 + time->tv_nsec / 1000000 : -1; }
static long of_value(const struct timeval *time) { return time ? time->tv_sec * 1000 + time->tv_usec / 1000 : -1; }
#define MS_OF(time) _Generic((time), int : of_int, const struct timespec * : of_spec, struct timeval * : of_value)(time)

/* a call that waits, from its beginning to its end */
#define TOLD(call, time, wait)                                           \
	({                                                               \
		long time_ = MS_OF(time); /* (which select changes) */   \
		tell_wait(#call, time_, TRACE_WAITS);                    \
		int result_ = wait;                                      \
		tell_wait(#call, time_, result_ < 0 ? -errno : result_); \
		result_;                                                 \
	})

/* looks at a device where nothing is known of it; whether it is one */
static int refresh(int fd, struct at *at)
{
	if (!find(fd, at))
		return 0;
	HOLD_OWN();
	HOLD_LINE(at->line);
	struct device *device = device_at(*at);
	device->in_set = 1;
	note(*at);
	if (device->state == UNKNOWN && device->kind)
		look(*at, fd);
	return 1;
}

/* ------ poll */

/* Whether one of these is a device. One that is waited for by POLLPRI alone is waited for by POLLIN, and POLLMSG is its mark. */
static int prepare(struct pollfd *all, nfds_t count)
{
	int is_any = 0;
	struct at at;
	for (nfds_t i = 0; i < count; i++) {
		if (!is_marked(all[i].fd) || !refresh(all[i].fd, &at))
			continue;
		is_any = 1;
		if ((all[i].events & (POLLIN | POLLPRI)) == POLLPRI)
			all[i].events |= POLLIN | POLLMSG;
	}
	return is_any;
}

static void tell(struct pollfd *all, nfds_t count)
{
	struct at at;
	for (nfds_t i = 0; i < count; i++) {
		if (!is_marked(all[i].fd) || !find(all[i].fd, &at))
			continue;
		int is_there = all[i].revents & POLLIN, is_lost = device_at(at)->found & (OVERFLOW | TIMED_OUT);
		if (all[i].events & POLLMSG)
			all[i].events &= (short)~(POLLIN | POLLMSG);
		all[i].revents &= (short)~(POLLIN | POLLHUP);
		if (is_there)
			all[i].revents |= (short)((all[i].events & (POLLIN | POLLPRI | POLLRDNORM)) | (is_lost ? POLLERR : 0));
	}
}

#define POLLS(call, params, ...)                                                              \
	EXPORT int call params                                                                \
	{                                                                                     \
		init();                                                                       \
		count_of_waited = 0;                                                          \
		int is_any = adapters && prepare(all, count);                                 \
		int n = TOLD(call, time, NEXT(call)(all, count, __VA_ARGS__)), saved = errno; \
		if (is_any)                                                                   \
			tell(all, count);                                                     \
		errno = saved;                                                                \
		return n;                                                                     \
	}
POLLS(poll, (struct pollfd * all, nfds_t count, int time), time)
POLLS(ppoll, (struct pollfd * all, nfds_t count, const struct timespec *time, const sigset_t *signals), time, signals)

/* ------ select: a device is waited for by reads and by exceptions alike */

static int is_in(int fd, const fd_set *set) { return set && FD_ISSET(fd, set); }

/* puts the devices of the third set into the first one, which may be none: whether there is one */
static int join(int count, fd_set *reads, const fd_set *others, fd_set *joined)
{
	int is_any = 0;
	struct at at;
	count_of_waited = 0;
	FD_ZERO(joined);
	for (int i = 0; i < count && i < FD_SETSIZE; i++) {
		int is_device = (is_in(i, reads) || is_in(i, others)) && refresh(i, &at);
		if (is_in(i, reads) || (is_device && is_in(i, others)))
			FD_SET(i, joined);
		is_any |= is_device && is_in(i, others);
	}
	return is_any;
}

/* of what can be read gives each set what it has asked for, and says how many */
static int part(int count, const fd_set *joined, const fd_set *asked, fd_set *reads, fd_set *others, int n)
{
	struct at at;
	for (int i = 0; i < count && i < FD_SETSIZE; i++) {
		if (!FD_ISSET(i, asked) || !find(i, &at))
			continue;
		if (FD_ISSET(i, joined)) {
			FD_SET(i, others);
			n += is_in(i, reads);
		}
	}
	for (int i = 0; reads && i < count && i < FD_SETSIZE; i++)
		if (FD_ISSET(i, reads) && !FD_ISSET(i, joined))
			FD_CLR(i, reads);
	return n;
}

#define SELECTS(call, params, ...)                                                                      \
	EXPORT int call params                                                                          \
	{                                                                                               \
		fd_set joined, asked;                                                                   \
		init();                                                                                 \
		if (!adapters)                                                                          \
			return NEXT(call)(count, reads, writes, others, __VA_ARGS__);                   \
		if (!join(count, reads, others, &joined))                                               \
			return TOLD(call, time, NEXT(call)(count, reads, writes, others, __VA_ARGS__)); \
		asked = *others;                                                                        \
		int n = TOLD(call, time, NEXT(call)(count, &joined, writes, others, __VA_ARGS__));      \
		return n < 0 ? n : part(count, &joined, &asked, reads, others, n);                      \
	}
SELECTS(select, (int count, fd_set *reads, fd_set *writes, fd_set *others, struct timeval *time), time)
SELECTS(pselect, (int count, fd_set *reads, fd_set *writes, fd_set *others, const struct timespec *time, const sigset_t *signals),
	time, signals)

/* ------ epoll */

/* looks at the devices that are in a set, where nothing is known of them */
static void refresh_sets(void)
{
	count_of_waited = 0;
	HOLD_OWN();
	for (struct line *line = lines; line < &lines[MOST_LINES]; line++)
		for (int i = 0; line->table && i < MOST_DEVICES; i++) {
			struct mine *mine = &line->mine[i];
			struct device *device = &line->table->devices[i];
			if (mine->known < 0)
				continue;
			HOLD_LINE(line);
			if (!device->kind || device->ino != mine->ino)
				continue;
			note((struct at){ line, i });
			if (device->state == UNKNOWN)
				look((struct at){ line, i }, mine->known);
		}
}

EXPORT int epoll_ctl(int set, int what, int fd, struct epoll_event *event)
{
	struct at at;
	struct epoll_event other;
	init();
	if (what == EPOLL_CTL_DEL || !event || !is_marked(fd) || !refresh(fd, &at))
		return NEXT(epoll_ctl)(set, what, fd, event);
	at.line->mine[at.place].known = fd;
	other = *event;
	other.events |= event->events & EPOLLPRI ? EPOLLIN : 0;
	return NEXT(epoll_ctl)(set, what, fd, &other);
}

#define WAITS(call, params, ...)                                                     \
	EXPORT int call params                                                       \
	{                                                                            \
		init();                                                              \
		if (!adapters)                                                       \
			return NEXT(call)(set, events, most, __VA_ARGS__);           \
		refresh_sets();                                                      \
		return TOLD(call, time, NEXT(call)(set, events, most, __VA_ARGS__)); \
	}
WAITS(epoll_wait, (int set, struct epoll_event *events, int most, int time), time)
WAITS(epoll_pwait, (int set, struct epoll_event *events, int most, int time, const sigset_t *signals), time, signals)
WAITS(epoll_pwait2, (int set, struct epoll_event *events, int most, const struct timespec *time, const sigset_t *signals), time,
      signals)

/* ------ other names */

CHECKED(poll, ppoll)
