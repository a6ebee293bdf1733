/*
 * A program of gcc's sanitizer whose threads begin late, and hold a lock meanwhile, as the sanitizer's own locks may be
 * held. Whoever forks then has a child in which that lock is held for ever.
 */
#define _GNU_SOURCE
#include <dlfcn.h>
#include <pthread.h>
#include <unistd.h>

enum { LATE_US = 100000 };

static pthread_mutex_t one = PTHREAD_MUTEX_INITIALIZER;

/* (what the sanitizer asks in each thread that begins) */
int pthread_getattr_np(pthread_t thread, pthread_attr_t *attributes)
{
	int (*next)(pthread_t, pthread_attr_t *) = (int (*)(pthread_t, pthread_attr_t *))dlsym(RTLD_NEXT, "pthread_getattr_np");
	pthread_mutex_lock(&one);
	if (gettid() != getpid()) {
		usleep(LATE_US);
		if (write(1, "late\n", 5) != 5)
			_exit(2);
	}
	int result = next(thread, attributes);
	pthread_mutex_unlock(&one);
	return result;
}
