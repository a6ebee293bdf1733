/*
 * Descriptors: those of the preload itself, which a program can't close or take by a number of its own choice, and those that may
 * be a device. A number alone is never believed: what stands behind it is compared, by its inode.
 */
#define _GNU_SOURCE
#include <errno.h>
#include <fcntl.h>
#include <stdlib.h>
#include <sys/resource.h>
#include <sys/stat.h>
#include <sys/syscall.h>
#include <sys/uio.h>
#include <unistd.h>

#include "preload.h"

enum { MOST_FILES = 1 << 20, FIRST_OWN = 900 };

static unsigned char owned[MOST_FILES / 8], marked[MOST_FILES / 8];
static int end_of_marks;

static int has(const unsigned char *bits, int fd) { return fd >= 0 && fd < MOST_FILES && bits[fd / 8] >> fd % 8 & 1; }

static void set(unsigned char *bits, int fd, int on)
{
	if (fd < 0 || fd >= MOST_FILES)
		return;
	if (on)
		__atomic_fetch_or(&bits[fd / 8], (unsigned char)(1 << fd % 8), __ATOMIC_RELAXED);
	else
		__atomic_fetch_and(&bits[fd / 8], (unsigned char)~(1 << fd % 8), __ATOMIC_RELAXED);
}

int is_own(int fd) { return has(owned, fd); }
int is_marked(int fd) { return has(marked, fd); }
int marks_end(void) { return end_of_marks; }

void mark(int fd)
{
	set(marked, fd, 1);
	if (fd >= end_of_marks)
		end_of_marks = fd + 1;
}

/* a child of vfork has its parent's memory, but not its descriptors */
void unmark(int fd)
{
	if (getpid() == self)
		set(marked, fd, 0);
}

/*
 * The inode of the pipe behind a descriptor; 0 where there is none. Its times aren't asked for: a system that was asked for those
 * of a named pipe notes new ones on the disk at the next write.
 */
ino_t pipe_of(int fd)
{
	struct statx now;
	struct stat all;
	if (fd < 0)
		return 0;
	if (!syscall(SYS_statx, fd, "", AT_EMPTY_PATH, STATX_TYPE | STATX_INO, &now))
		return S_ISFIFO(now.stx_mode) ? now.stx_ino : 0;
	/* (an old system, or a sandbox, that doesn't know this call) */
	return errno != EBADF && !syscall(SYS_fstat, fd, &all) && S_ISFIFO(all.st_mode) ? all.st_ino : 0;
}

/* whether this is still the pipe of this inode */
int is_object(int fd, ino_t ino) { return ino && pipe_of(fd) == ino; }

/* the first number of the preload's own descriptors: a high one, which programs that close all low ones leave alone */
static int first_own(void)
{
	struct rlimit limit;
	int most = getrlimit(RLIMIT_NOFILE, &limit) || limit.rlim_cur > 4 * FIRST_OWN ? 4 * FIRST_OWN : (int)limit.rlim_cur;
	return most > FIRST_OWN + 100 ? FIRST_OWN : most - most / 4;
}

/* the same file behind a high descriptor, or as it is where no higher one is free; it is closed by exec */
int high(int fd)
{
	if (fd < 0)
		return -1;
	int other = (int)syscall(SYS_fcntl, fd, F_DUPFD_CLOEXEC, first_own());
	if (other >= 0)
		syscall(SYS_close, fd);
	else if (syscall(SYS_fcntl, other = fd, F_SETFD, FD_CLOEXEC))
		return -1;
	set(owned, other, 1);
	return other;
}

void let_go(int fd)
{
	if (fd < 0)
		return;
	set(owned, fd, 0);
	syscall(SYS_close, fd);
}

/* A program wants this number: the preload's own file moves to another. It answers that, or the number where it isn't one. */
int moved(int fd, int wanted)
{
	if (fd != wanted || fd < 0)
		return fd;
	int other = (int)syscall(SYS_fcntl, fd, F_DUPFD_CLOEXEC, fd + 1);
	if (other < 0)
		other = (int)syscall(SYS_fcntl, fd, F_DUPFD_CLOEXEC, 3);
	if (other < 0)
		return fd;
	set(owned, fd, 0);
	set(owned, other, 1);
	return other;
}

static void move_all(int fd)
{
	watch_moved(fd);
	for (struct line *line = lines; line < &lines[MOST_LINES]; line++) {
		line->memory = moved(line->memory, fd);
		line->ask = moved(line->ask, fd);
		line->tell = moved(line->tell, fd);
		for (struct mine *mine = line->mine; mine < &line->mine[MOST_DEVICES]; mine++) {
			mine->rings = moved(mine->rings, fd);
			mine->lock = moved(mine->lock, fd);
			mine->life = moved(mine->life, fd);
		}
	}
}

/* makes a number free that a program wants: 0, or -EBUSY where it can't be, as in a child of vfork */
int give_way(int fd)
{
	if (is_own(fd) && getpid() == self) {
		HOLD_OWN();
		move_all(fd);
	}
	return is_own(fd) ? -EBUSY : 0;
}

static int move(const void *mine, const void *other, size_t count, long number)
{
	struct iovec here = { (void *)mine, count }, there = { (void *)other, count };
	return syscall(number, getpid(), &here, 1, &there, 1, 0) == (long)count || (errno != EFAULT && errno != EIO);
}

/* Copies from or to where a program points, and says whether it may: false where a kernel's call would tell EFAULT. */
int is_readable(const void *from, void *into, size_t count)
{
	if (!count || move(into, from, count, SYS_process_vm_readv) == 0)
		return !count;
	__builtin_memcpy(into, from, count);
	return 1;
}

int is_writable(void *to, const void *from, size_t count)
{
	if (!count || move(from, to, count, SYS_process_vm_writev) == 0)
		return !count;
	__builtin_memcpy(to, from, count);
	return 1;
}
