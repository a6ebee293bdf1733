/*
 * What --trace tells of poll, select and epoll_wait. A kernel asks for a device's state alone: the call that it does so in stands
 * in /proc beside the thread, which is looked at until it has left the call. What that has given is known where all its
 * descriptors are devices. An epoll_wait whose devices have nothing asks for no state: the threads of a program that has put a
 * device into a set are looked at from time to time.
 */
#define _GNU_SOURCE
#include <dirent.h>
#include <errno.h>
#include <stdio.h>
#include <stdlib.h>
#include <string.h>
#include <sys/epoll.h>
#include <sys/syscall.h>
#include <sys/uio.h>
#include <time.h>
#include <unistd.h>

#include "fuse.h"

enum { MOST_WAITS = 64, MOST_SETS = 64, MOST_TOLD = 32, MOST_NAME = 16, MOST_COUNTED = 1024 };
enum { LOOKS_MS = 10, TRIES = 40, TRY_US = 50, WORDS = 6, UNKNOWN_COUNT = -1 };

/* The calls: which argument has the descriptors or the set, and which the time, in milliseconds, or a structure. */
enum { POLLS = 1, SELECTS, EPOLLS };
enum { IN_MS, IN_SPEC, IN_VALUE };
static const struct known {
	long number;
	const char *name;
	int kind, time, time_is;
} all_known[] = {
#ifdef SYS_poll
	{ SYS_poll, "poll", POLLS, 2, IN_MS },
	{ SYS_select, "select", SELECTS, 4, IN_VALUE },
	{ SYS_epoll_wait, "epoll_wait", EPOLLS, 3, IN_MS },
#endif
	{ SYS_ppoll, "ppoll", POLLS, 2, IN_SPEC },
	{ SYS_pselect6, "pselect", SELECTS, 4, IN_SPEC },
	{ SYS_epoll_pwait, "epoll_pwait", EPOLLS, 3, IN_MS },
	{ SYS_epoll_pwait2, "epoll_pwait2", EPOLLS, 3, IN_SPEC },
};

/* a call as /proc tells it: its number, its arguments, and where the thread stands */
struct syscall {
	long number;
	unsigned long words[WORDS + 2];
};

/*
 * A call that waits: since when and for how long at most, -1 without end; how many descriptors it waits for; its devices, and
 * which of them have something, or were polled once more at the end of the time; and whether it was told that it waits.
 */
static struct waiting {
	struct traced who;
	struct syscall at;
	const struct known *known;
	long begun, time;
	int count, is_told;
	size_t devices;
	uint32_t device[MOST_TOLD];
	char is_ready[MOST_TOLD], is_last[MOST_TOLD];
} waiting[MOST_WAITS];

/* a device that a program has put into a set of epoll */
static struct member {
	struct traced who;
	int set;
	uint32_t device;
} members[MOST_SETS];

/* what a thread's call is: whether it is in one and that is known */
static int syscall_of(pid_t thread, struct syscall *at)
{
	char told[256];
	*at = (struct syscall){ .number = -1 };
	read_of(thread, "syscall", told, sizeof told);
	return sscanf(told, "%ld %lx %lx %lx %lx %lx %lx %lx %lx", &at->number, &at->words[0], &at->words[1], &at->words[2],
		      &at->words[3], &at->words[4], &at->words[5], &at->words[6], &at->words[7]) == WORDS + 3;
}

static int is_same(const struct syscall *one, const struct syscall *other) { return !memcmp(one, other, sizeof *one); }

static const struct known *known_as(const struct syscall *at)
{
	for (size_t i = 0; i < sizeof all_known / sizeof *all_known; i++)
		if (all_known[i].number == at->number)
			return &all_known[i];
	return NULL;
}

/* (the C library's select is a pselect without signals) */
static const char *name_of(const struct waiting *one)
{
	return one->at.number == SYS_pselect6 && !one->at.words[5] ? "select" : one->known->name;
}

static int read_from(pid_t thread, unsigned long there, void *into, size_t count)
{
	struct iovec own = { into, count }, other = { (void *)there, count };
	return syscall(SYS_process_vm_readv, thread, &own, 1, &other, 1, 0) == (long)count;
}

static long time_of(const struct waiting *one)
{
	unsigned long word = one->at.words[one->known->time];
	long parts[2];
	if (one->known->time_is == IN_MS)
		return (int)word;
	if (!word || !read_from(one->who.thread, word, parts, sizeof parts))
		return -1;
	return parts[0] * 1000 + parts[1] / (one->known->time_is == IN_SPEC ? 1000000 : 1000);
}

static int count_of_polls(const struct waiting *one)
{
	struct pollfd all[MOST_COUNTED];
	size_t wanted = one->at.words[1], count = 0;
	if (wanted > MOST_COUNTED || !read_from(one->who.thread, one->at.words[0], all, wanted * sizeof *all))
		return UNKNOWN_COUNT;
	for (size_t i = 0; i < wanted; i++)
		count += all[i].fd >= 0;
	return (int)count;
}

static int count_of_selects(const struct waiting *one)
{
	unsigned long set[MOST_COUNTED / 8 / sizeof(long)];
	size_t bits = one->at.words[0], words = (bits + 8 * sizeof *set - 1) / (8 * sizeof *set);
	int count = 0;
	for (int i = 1; i < 4; i++) {
		if (!one->at.words[i])
			continue;
		if (bits > MOST_COUNTED || !read_from(one->who.thread, one->at.words[i], set, words * sizeof *set))
			return UNKNOWN_COUNT;
		for (size_t bit = 0; bit < bits; bit++)
			count += set[bit / (8 * sizeof *set)] >> bit % (8 * sizeof *set) & 1;
	}
	return count;
}

static int count_of_set(const struct waiting *one)
{
	char name[64], told[8192];
	int count = 0;
	snprintf(name, sizeof name, "fdinfo/%d", (int)one->at.words[0]);
	read_of(one->who.process, name, told, sizeof told);
	for (const char *at = told; (at = strstr(at, "tfd:")); at++)
		count++;
	return count;
}

/* a call begins to wait, or waits since a moment ago */
static struct waiting *begin(const struct traced *who, const struct syscall *at, const struct known *known)
{
	static int (*const counts[])(const struct waiting *) = { NULL, count_of_polls, count_of_selects, count_of_set };
	struct waiting *one = waiting;
	while (one < &waiting[MOST_WAITS] && one->known)
		one++;
	if (one == &waiting[MOST_WAITS])
		return NULL;
	*one = (struct waiting){ .who = *who, .at = *at, .known = known, .begun = milliseconds() };
	one->time = time_of(one);
	one->count = counts[known->kind](one);
	return one;
}

static void add(struct waiting *one, uint32_t device, int is_ready)
{
	size_t i = 0;
	while (i < one->devices && one->device[i] != device)
		i++;
	if (i == MOST_TOLD)
		return;
	one->device[i] = device;
	one->is_ready[i] = (char)is_ready;
	one->devices += i == one->devices;
}

static void tell(const struct waiting *one, long result)
{
	struct {
		char name[MOST_NAME];
		uint32_t devices[MOST_TOLD];
	} told = { 0 };
	snprintf(told.name, MOST_NAME, "%s", name_of(one));
	memcpy(told.devices, one->device, sizeof told.devices);
	traced = one->who;
	trace(TRACE_WAIT, 0, NO_NODE, (uint32_t)one->time, &told, MOST_NAME + one->devices * sizeof *told.devices, result);
}

static int ready_of(const struct waiting *one)
{
	int count = 0;
	for (size_t i = 0; i < one->devices; i++)
		count += one->is_ready[i];
	return count;
}

/* whether its time is over, or nearly so: it has begun before it was seen, on a busy machine long before */
static int is_over(const struct waiting *one)
{
	return one->time >= 0 && milliseconds() - one->begun + LOOKS_MS + one->time / 5 >= one->time;
}

/* a call has ended: what it has given, as far as that is known */
static void end(struct waiting *one)
{
	int ready = ready_of(one);
	int has_others = one->count != (int)one->devices;
	long result = ready ? ready : is_over(one) ? 0 : -EINTR;
	tell(one, has_others && (ready || !is_over(one)) ? TRACE_ENDS : result);
	one->known = NULL;
}

/* Whether a call isn't the one in which a device is polled now, as that had something before, or was polled behind the time. */
static int has_ended(struct waiting *one, const struct syscall *at, uint32_t device)
{
	int is_late = is_over(one);
	if (!is_same(&one->at, at) || (is_late && one->known->kind == EPOLLS))
		return 1;
	for (size_t i = 0; i < one->devices; i++) {
		if (one->device[i] != device)
			continue;
		if (one->is_ready[i] || one->is_last[i])
			return 1;
		one->is_last[i] = (char)is_late;
	}
	return 0;
}

/* the call of a thread in which a device is polled */
static struct waiting *call_of(const struct traced *who, const struct syscall *at, const struct known *known, uint32_t device)
{
	for (struct waiting *one = waiting; one < &waiting[MOST_WAITS]; one++) {
		if (!one->known || one->who.thread != who->thread)
			continue;
		if (!has_ended(one, at, device))
			return one;
		end(one);
	}
	return begin(who, at, known);
}

static void note_member(const struct traced *who, int set, uint32_t device)
{
	for (struct member *one = members; one < &members[MOST_SETS]; one++)
		if (!one->device || (one->who.process == who->process && one->set == set && one->device == device)) {
			*one = (struct member){ *who, set, device };
			return;
		}
}

void waited_for(const struct traced *who, uint32_t device, int is_ready)
{
	struct syscall at;
	for (int i = 0; i < TRIES && !syscall_of(who->thread, &at); i++)
		usleep(TRY_US);
	const struct known *known = known_as(&at);
	if (at.number == SYS_epoll_ctl && at.words[1] == EPOLL_CTL_ADD)
		note_member(who, (int)at.words[0], device);
	struct waiting *one = known ? call_of(who, &at, known, device) : NULL;
	if (one)
		add(one, device, is_ready);
}

void wait_left(pid_t thread)
{
	for (struct waiting *one = waiting; one < &waiting[MOST_WAITS]; one++)
		if (one->known && one->who.thread == thread)
			end(one);
}

/* a call that hasn't ended by then has no end: its program was killed in it */
static void end_or_forget(struct waiting *one)
{
	if (ready_of(one) || is_over(one))
		end(one);
	one->known = NULL;
}

void wait_closed(uint32_t device)
{
	for (struct waiting *one = waiting; one < &waiting[MOST_WAITS]; one++)
		for (size_t i = 0; one->known && i < one->devices; i++)
			if (one->device[i] == device)
				end_or_forget(one);
	for (struct member *one = members; one < &members[MOST_SETS]; one++)
		if (one->device == device)
			one->device = 0;
}

/* a thread waits in a set, or not */
static void look_at_thread(const struct member *member, pid_t thread)
{
	struct syscall at;
	struct traced who = member->who;
	struct waiting *one = waiting;
	const struct known *known = syscall_of(thread, &at) ? known_as(&at) : NULL;
	if (!known || known->kind != EPOLLS || (int)at.words[0] != member->set)
		return;
	who.thread = thread;
	while (one < &waiting[MOST_WAITS] && !(one->known && one->who.thread == thread))
		one++;
	if (one < &waiting[MOST_WAITS] || !(one = begin(&who, &at, known)))
		return;
	for (const struct member *other = members; other < &members[MOST_SETS]; other++)
		if (other->device && other->who.process == who.process && other->set == member->set)
			add(one, other->device, 0);
}

static void look_at_threads(const struct member *member)
{
	char path[64];
	struct dirent *entry;
	snprintf(path, sizeof path, "/proc/%d/task", member->who.process);
	DIR *all = opendir(path);
	while (all && (entry = readdir(all)))
		if (atoi(entry->d_name))
			look_at_thread(member, atoi(entry->d_name));
	if (all)
		closedir(all);
}

/* looks at a call that waits: one that sleeps in another call has ended it; of one that runs, or wants to, that isn't known */
static void look_at(struct waiting *one)
{
	struct syscall at;
	if (!syscall_of(one->who.thread, &at))
		return;
	if (!is_same(&at, &one->at))
		return end(one);
	if (one->is_told || ready_of(one))
		return;
	one->is_told = 1;
	tell(one, TRACE_WAITS);
}

long waits_seen(long now, long next)
{
	static long due;
	int are_any = 0;
	if (now < due)
		return due < next ? due : next;
	for (struct waiting *one = waiting; one < &waiting[MOST_WAITS]; one++) {
		are_any |= one->known != NULL;
		if (one->known)
			look_at(one);
	}
	for (const struct member *one = members; one < &members[MOST_SETS]; one++) {
		are_any |= one->device != 0;
		if (one->device)
			look_at_threads(one);
	}
	due = are_any ? now + LOOKS_MS : 0;
	return are_any && due < next ? due : next;
}
