/*
 * Gives a program the devices /dev/dvb/adapterN/{frontend0,demux0,dvr0} without a kernel driver (LD_PRELOAD; dvbemu-serve sets
 * it): these are the C library's calls on descriptors. What is asked of demux0 and dvr0 goes to dvb_serve (line.c, device.c);
 * frontend.c answers for the frontend, tree.c for the folder /dev/dvb, udev.c for libudev. Nothing of this is proved.
 *
 * A program that is linked statically, or that calls the kernel past the C library, isn't seen.
 */
#define _GNU_SOURCE
#include <errno.h>
#include <fcntl.h>
#include <stdarg.h>
#include <stdio.h>
#include <stdlib.h>
#include <string.h>
#include <sys/ioctl.h>
#include <sys/sendfile.h>
#include <sys/syscall.h>
#include <sys/uio.h>
#include <unistd.h>

#include "preload.h"

enum { MOST_STREAMS = 32 };

/* a result below 0 as an error */
static long told(long result)
{
	if (result >= 0)
		return result;
	errno = (int)-result;
	return -1;
}

static int is_device(int fd) { return find(fd, &(struct at){ NULL, 0 }); }

/* ------ open and close */

/* whether a program may open a device so: one that has given up root's rights may not, as of a kernel's */
static int may_open(const char *place, int flags)
{
	int access = flags & O_ACCMODE, mode = access == O_RDONLY ? R_OK : access == O_WRONLY ? W_OK : R_OK | W_OK;
	return !NEXT(faccessat)(AT_FDCWD, place, mode, AT_EACCESS) || errno != EACCES;
}

static int open_led(const char *place, int flags, mode_t mode)
{
	int adapter, kind = kind_of(place, &adapter);
	if (!kind || flags & O_PATH)
		return NEXT(openat)(AT_FDCWD, place, flags, mode);
	if ((flags & (O_CREAT | O_EXCL)) == (O_CREAT | O_EXCL) || flags & O_DIRECTORY)
		return (int)told(flags & O_DIRECTORY ? -ENOTDIR : -EEXIST);
	return (int)told(may_open(place, flags) ? device_open(adapter, kind, flags) : -EACCES);
}

static int open_at(int there, const char *path, int flags, va_list list)
{
	char into[PATH];
	mode_t mode = flags & (O_CREAT | __O_TMPFILE) ? va_arg(list, mode_t) : 0;
	init();
	if ((flags & O_NOFOLLOW ? led : leads)(there, path, into))
		return open_led(into, flags, mode);
	return there == AT_FDCWD ? NEXT(open)(path, flags, mode) : NEXT(openat)(there, path, flags, mode);
}

#define OPENS(call, there, ...)                             \
	EXPORT int call(__VA_ARGS__, int flags, ...)        \
	{                                                   \
		va_list list;                               \
		va_start(list, flags);                      \
		int fd = open_at(there, path, flags, list); \
		va_end(list);                               \
		return fd;                                  \
	}
OPENS(open, AT_FDCWD, const char *path)
OPENS(openat, there, int there, const char *path)

/* What the preload has itself stays open, and isn't there for the program. Behind a device's last descriptor its node is closed.
 */
EXPORT int close(int fd)
{
	init();
	if (is_own(fd))
		return (int)told(-EBADF);
	/* (the mark goes first: as soon as the descriptor is closed another thread may open a device in its place) */
	int was = is_marked(fd);
	if (was)
		unmark(fd);
	int result = NEXT(close)(fd), saved = errno;
	if (was)
		sweep();
	errno = saved;
	return result;
}

/* closes what lies between the preload's own */
EXPORT int close_range(unsigned first, unsigned last, int flags)
{
	int saved = errno, end = marks_end();
	init();
	for (int fd = (int)first; fd < end && (unsigned)fd <= last && !flags; fd++)
		unmark(fd);
	for (unsigned from = first; from <= last;) {
		unsigned to = from;
		while (to < last && to < (unsigned)sysconf(_SC_OPEN_MAX) && !is_own((int)to + 1))
			to++;
		to = to >= (unsigned)sysconf(_SC_OPEN_MAX) ? last : to;
		if (!is_own((int)from) && syscall(SYS_close_range, from, to, flags))
			return -1;
		from = to + 1 + (to < last);
		if (to == last)
			break;
	}
	sweep();
	errno = saved;
	return 0;
}

EXPORT void closefrom(int first) { close_range(first < 0 ? 0 : (unsigned)first, ~0U, 0); }

EXPORT int dup(int fd)
{
	init();
	int other = is_own(fd) ? (int)told(-EBADF) : NEXT(dup)(fd);
	if (other >= 0 && is_marked(fd))
		mark(other);
	return other;
}

/* another descriptor of a device, which is found by it; what was there before is closed */
static int doubled(int fd, int wanted, int result)
{
	int saved = errno, was = is_marked(wanted);
	if (result >= 0 && is_marked(fd))
		mark(result);
	if (result >= 0 && was && fd != wanted)
		sweep();
	errno = saved;
	return result;
}

#define DOUBLES(call, params, ...)                                                              \
	EXPORT int call params                                                                  \
	{                                                                                       \
		init();                                                                         \
		int error = is_own(fd) ? -EBADF : give_way(wanted);                             \
		return error ? (int)told(error) : doubled(fd, wanted, NEXT(call)(__VA_ARGS__)); \
	}
DOUBLES(dup2, (int fd, int wanted), fd, wanted)
DOUBLES(dup3, (int fd, int wanted, int flags), fd, wanted, flags)

/* ------ reads, and what a device has no answer to */

EXPORT ssize_t read(int fd, void *into, size_t count)
{
	struct at at;
	init();
	return find(fd, &at) ? told(device_read(fd, at, into, count)) : NEXT(read)(fd, into, count);
}

/* a driver without an answer of its own to readv gets one read for each part */
EXPORT ssize_t readv(int fd, const struct iovec *parts, int count)
{
	struct at at;
	ssize_t all = 0;
	init();
	if (!find(fd, &at))
		return NEXT(readv)(fd, parts, count);
	for (int i = 0; i < count; i++) {
		ssize_t n = device_read(fd, at, parts[i].iov_base, parts[i].iov_len);
		if (n < 0)
			return all ? all : told(n);
		all += n;
		if ((size_t)n != parts[i].iov_len)
			break;
	}
	return all;
}

/* ------ reads at a place: a device keeps its place, and looks at none */

static off_t seek(struct device *device, off_t by, int whence)
{
	if (whence < SEEK_SET || whence > SEEK_HOLE)
		return -EINVAL;
	if (device->kind == FRONTEND)
		return 0;
	if (whence == SEEK_DATA || whence == SEEK_HOLE)
		return -ENXIO;
	off_t place = by + (whence == SEEK_CUR ? device->position : 0);
	return place < 0 ? -EINVAL : (device->position = place);
}

EXPORT off_t lseek(int fd, off_t by, int whence)
{
	struct at at;
	init();
	return find(fd, &at) ? told(seek(device_at(at), by, whence)) : NEXT(lseek)(fd, by, whence);
}

EXPORT ssize_t pread(int fd, void *into, size_t count, off_t from)
{
	init();
	return !is_device(fd) ? NEXT(pread)(fd, into, count, from) : from < 0 ? told(-EINVAL) : read(fd, into, count);
}

EXPORT ssize_t preadv2(int fd, const struct iovec *parts, int count, off_t from, int flags)
{
	init();
	if (!is_device(fd))
		return NEXT(preadv2)(fd, parts, count, from, flags);
	return flags & ~RWF_HIPRI ? told(-EOPNOTSUPP) : from < -1 ? told(-EINVAL) : readv(fd, parts, count);
}

EXPORT ssize_t preadv(int fd, const struct iovec *parts, int count, off_t from)
{
	init();
	return !is_device(fd) ? NEXT(preadv)(fd, parts, count, from) : from < 0 ? told(-EINVAL) : readv(fd, parts, count);
}

EXPORT ssize_t pwrite(int fd, const void *from, size_t count, off_t to)
{
	init();
	return is_device(fd) ? write(fd, from, count) : NEXT(pwrite)(fd, from, count, to);
}

EXPORT ssize_t write(int fd, const void *from, size_t count)
{
	struct at at;
	init();
	if (find(fd, &at))
		return told(device_at(at)->access == O_RDONLY ? -EBADF : -EINVAL);
	return NEXT(write)(fd, from, count);
}

/* a device gives no pages to pipes and files, and takes none */
#define MOVES(call, params, ...)                                                                   \
	EXPORT ssize_t call params                                                                 \
	{                                                                                          \
		init();                                                                            \
		return is_device(from) || is_device(to) ? told(-EINVAL) : NEXT(call)(__VA_ARGS__); \
	}
MOVES(splice, (int from, off64_t *at, int to, off64_t *there, size_t count, unsigned flags), from, at, to, there, count, flags)
MOVES(copy_file_range, (int from, off64_t *at, int to, off64_t *there, size_t count, unsigned flags), from, at, to, there, count,
      flags)
MOVES(tee, (int from, int to, size_t count, unsigned flags), from, to, count, flags)
MOVES(sendfile, (int to, int from, off_t *at, size_t count), to, from, at, count)

/* ------ ioctl and fcntl */

/* those that the system answers for any file */
static int is_general(unsigned long number)
{
	return number == FIONBIO || number == FIOASYNC || number == FIOCLEX || number == FIONCLEX;
}

EXPORT int ioctl(int fd, unsigned long number, ...)
{
	va_list list;
	struct at at;
	va_start(list, number);
	void *argument = va_arg(list, void *);
	va_end(list);
	init();
	if (!find(fd, &at) || is_general(number))
		return NEXT(ioctl)(fd, number, argument);
	return (int)told(device_ioctl(fd, at, (uint32_t)number, argument));
}

EXPORT int fcntl(int fd, int command, ...)
{
	va_list list;
	struct at at;
	va_start(list, command);
	long argument = va_arg(list, long);
	va_end(list);
	init();
	if (is_own(fd))
		return (int)told(-EBADF);
	int result = NEXT(fcntl)(fd, command, argument);
	if (result >= 0 && (command == F_DUPFD || command == F_DUPFD_CLOEXEC) && is_marked(fd))
		mark(result);
	if (result >= 0 && command == F_GETFL && find(fd, &at))
		return (result & ~O_ACCMODE) | device_at(at)->access;
	return result;
}

/* ------ streams of the C library, which reads past its own read: those over a device are of calls */

static struct stream {
	FILE *file;
	int fd;
} streams[MOST_STREAMS];

static struct stream *stream_of(const FILE *file)
{
	for (struct stream *one = streams; one < &streams[MOST_STREAMS]; one++)
		if (one->file == file)
			return one;
	return NULL;
}

static ssize_t stream_read(void *one, char *into, size_t count) { return read(((struct stream *)one)->fd, into, count); }
static ssize_t stream_write(void *one, const char *from, size_t count) { return write(((struct stream *)one)->fd, from, count); }

static int stream_close(void *one)
{
	int fd = ((struct stream *)one)->fd;
	((struct stream *)one)->file = NULL;
	return close(fd);
}

static FILE *stream_over(int fd, const char *mode)
{
	cookie_io_functions_t calls = { .read = stream_read, .write = stream_write, .close = stream_close };
	HOLD_OWN();
	struct stream *one = stream_of(NULL);
	if (one) {
		one->fd = fd;
		one->file = fopencookie(one, mode, calls);
	}
	if (!one)
		errno = EMFILE;
	return one ? one->file : NULL;
}

EXPORT FILE *fopen(const char *path, const char *mode)
{
	char into[PATH];
	int adapter, writes = strchr(mode, '+') ? O_RDWR : *mode == 'r' ? O_RDONLY : O_WRONLY;
	init();
	if (!leads(AT_FDCWD, path, into))
		return NEXT(fopen)(path, mode);
	if (!kind_of(into, &adapter))
		return NEXT(fopen)(into, mode);
	int fd = open_led(into, writes | (strchr(mode, 'e') ? O_CLOEXEC : 0), 0);
	FILE *file = fd < 0 ? NULL : stream_over(fd, mode);
	if (fd >= 0 && !file)
		close(fd);
	return file;
}

EXPORT FILE *fdopen(int fd, const char *mode)
{
	init();
	return is_device(fd) ? stream_over(fd, mode) : NEXT(fdopen)(fd, mode);
}

EXPORT int fileno(FILE *file)
{
	struct stream *one = stream_of(file);
	init();
	return one && file ? one->fd : NEXT(fileno)(file);
}

/* ------ other names */

SAME(open, __open_2, __open64_2)
SAME(openat, __openat_2, __openat64_2)
SAME(preadv2, preadv64v2)
SAME(fileno, fileno_unlocked)
SAME64(open, openat, lseek, pread, preadv, pwrite, sendfile, fcntl, fopen)
CHECKED(read, pread, pread64)
