/*
 * What `serve --trace` is told: a record for each call, written at once into the pipe `trace` of the first adapter's folder,
 * which is there only where calls are to be told. The pipe is opened for each record, so that nothing is inherited, kept or
 * closed by the program; what it has no room for after a moment is left out, and counted in the next record.
 * python/src/dvbemu/server/trace.py has the layout too.
 */
#define _GNU_SOURCE
#include <errno.h>
#include <fcntl.h>
#include <stdio.h>
#include <string.h>
#include <sys/syscall.h>
#include <time.h>
#include <unistd.h>

#include "preload.h"

enum { WAIT_MS = 100, ROOM = 256 };

struct record {
	uint64_t nanoseconds;
	uint32_t pid, thread, lost;
	int32_t result;
	uint16_t call, adapter;
	uint32_t node, number, length;
	char name[TRACE_NAME], argument[ROOM];
};

/* whose calls are told, where they aren't this thread's, and whether the call that is made would wait */
struct traced traced;
__thread int traced_waits;

static uint32_t lost;
static int is_traced = -1;

static long open_pipe(int flags)
{
	char path[PATH];
	snprintf(path, sizeof path, "%s/trace", folders[0]);
	return syscall(SYS_openat, AT_FDCWD, path, flags | O_NONBLOCK | O_CLOEXEC);
}

/* whether calls are told */
int traces(void)
{
	if (is_traced < 0) {
		long fd = adapters ? open_pipe(O_WRONLY) : -1;
		is_traced = fd >= 0;
		if (fd >= 0)
			syscall(SYS_close, fd);
	}
	return is_traced;
}

/* puts a record into the pipe: 0 where there is no room for it; behind one that was lost no room is waited for */
static int put(const struct record *record)
{
	struct pollfd pipe = { (int)open_pipe(O_WRONLY), POLLOUT, 0 };
	long n = -1;
	if (pipe.fd < 0)
		return 0;
	while ((n = syscall(SYS_write, pipe.fd, record, sizeof *record)) < 0 && errno == EAGAIN && !record->lost)
		if (wait_raw(&pipe, 1, WAIT_MS) < 1)
			break;
	syscall(SYS_close, pipe.fd);
	return n == sizeof *record;
}

/* tells a call with its result, a negative error, or TRACE_WAITS where it waits */
void trace(int call, int adapter, uint32_t node, uint32_t number, const void *argument, size_t length, long result)
{
	struct record record = { .call = (uint16_t)call, .adapter = (uint16_t)adapter, .node = node, .number = number };
	struct timespec now;
	int saved = errno;
	if (!traces())
		return;
	clock_gettime(CLOCK_MONOTONIC, &now);
	record.nanoseconds = (uint64_t)now.tv_sec * 1000000000 + (uint64_t)now.tv_nsec;
	record.pid = (uint32_t)(traced.process ? traced.process : getpid());
	record.thread = (uint32_t)(traced.process ? traced.thread : syscall(SYS_gettid));
	record.length = (uint32_t)(length < ROOM ? length : ROOM);
	record.lost = __atomic_exchange_n(&lost, 0, __ATOMIC_SEQ_CST);
	record.result = (int32_t)result;
	snprintf(record.name, sizeof record.name, "%s", traced.process ? traced.name : program_invocation_short_name);
	if (record.length)
		memcpy(record.argument, argument, record.length);
	if (!put(&record))
		__atomic_add_fetch(&lost, record.lost + 1, __ATOMIC_SEQ_CST);
	errno = saved;
}
