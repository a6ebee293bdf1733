/*
 * Preloaded by test_faults.py: what fails, or takes little, is said by words of the environment.
 *
 *   REFUSE=N      the allocation N is refused, counted from 1
 *   FAIL_READ=N   the read N of standard input fails, and FAIL_WRITE=N the write N to standard output
 *   FAIL_ABOVE=N  each of them fails that is of more than N bytes
 *   INTERRUPT=1   a signal seems to interrupt every other one
 *   SHORTEN=N     each takes at most N bytes of those that are offered
 *   NO_THREAD=1   no thread can be made
 *
 * Each that is refused or fails writes a byte to descriptor 9.
 */
#define _GNU_SOURCE
#include <dlfcn.h>
#include <errno.h>
#include <limits.h>
#include <pthread.h>
#include <stdatomic.h>
#include <stdlib.h>
#include <unistd.h>

#define NEXT(name)                                                         \
	({                                                                 \
		static __typeof__(&name) next;                             \
		if (!next)                                                 \
			next = (__typeof__(&name))dlsym(RTLD_NEXT, #name); \
		next;                                                      \
	})

static long number(const char *name, long otherwise)
{
	const char *text = getenv(name);
	return text ? atol(text) : otherwise;
}

static void tell(void)
{
	if (NEXT(write)(9, "r", 1) < 0) { /* nobody asks */
	}
}

/* how many bytes a call takes, or -1 */
static ssize_t taken(const char *name, long *calls, size_t most)
{
	size_t few = (size_t)number("SHORTEN", LONG_MAX);
	++*calls;
	if (*calls == number(name, 0) || most > (size_t)number("FAIL_ABOVE", LONG_MAX)) {
		tell();
		errno = EIO;
		return -1;
	}
	if (number("INTERRUPT", 0) && *calls % 2) {
		errno = EINTR;
		return -1;
	}
	return (ssize_t)(most < few ? most : few);
}

ssize_t read(int from, void *into, size_t most)
{
	static long calls;
	ssize_t count = from == STDIN_FILENO ? taken("FAIL_READ", &calls, most) : (ssize_t)most;
	return count < 0 ? -1 : NEXT(read)(from, into, (size_t)count);
}

ssize_t write(int to, const void *piece, size_t most)
{
	static long calls;
	ssize_t count = to == STDOUT_FILENO ? taken("FAIL_WRITE", &calls, most) : (ssize_t)most;
	return count < 0 ? -1 : NEXT(write)(to, piece, (size_t)count);
}

static int refused(void)
{
	static atomic_long asked;
	static long wanted = -1;
	if (wanted < 0)
		wanted = number("REFUSE", 0);
	if (atomic_fetch_add(&asked, 1) + 1 != wanted)
		return 0;
	tell();
	return 1;
}

void *malloc(size_t size) { return refused() ? NULL : NEXT(malloc)(size); }
void *realloc(void *old, size_t size) { return refused() ? NULL : NEXT(realloc)(old, size); }
void *aligned_alloc(size_t alignment, size_t size) { return refused() ? NULL : NEXT(aligned_alloc)(alignment, size); }
int posix_memalign(void **place, size_t alignment, size_t size)
{
	return refused() ? ENOMEM : NEXT(posix_memalign)(place, alignment, size);
}

int pthread_create(pthread_t *thread, const pthread_attr_t *how, void *(*work)(void *), void *with)
{
	if (!number("NO_THREAD", 0))
		return NEXT(pthread_create)(thread, how, work, with);
	tell();
	return EAGAIN;
}
