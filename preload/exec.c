/*
 * Exec: a program that is begun in the place of another, or behind a fork, has the devices that the other one leaves open, as
 * `cat < dvr0` of a shell. With them it has the line and its table; it finds them at its start by what they are.
 */
#define _GNU_SOURCE
#include <dirent.h>
#include <errno.h>
#include <fcntl.h>
#include <spawn.h>
#include <stdarg.h>
#include <stdio.h>
#include <stdlib.h>
#include <string.h>
#include <sys/mman.h>
#include <sys/stat.h>
#include <sys/syscall.h>
#include <unistd.h>

#include "preload.h"

static const char memory[] = "/memfd:dvbemu (deleted)";
enum { MOST_INHERITED = 1024 };

/* ------ what is left open */

static void keep(int fd, int keeps)
{
	if (fd >= 0)
		syscall(SYS_fcntl, fd, F_SETFD, keeps ? 0 : FD_CLOEXEC);
}

/* the line of a device that exec leaves open; NULL where this descriptor is none */
static struct line *line_left(int fd)
{
	struct at at;
	return is_marked(fd) && syscall(SYS_fcntl, fd, F_GETFD) == 0 && found(fd, &at) ? at.line : NULL;
}

/* Lets the lines of devices that exec leaves open be open too, or not any more, where exec has failed. */
static void keep_lines(int keeps)
{
	for (int fd = 0; fd < marks_end(); fd++) {
		struct line *line = line_left(fd);
		if (!line)
			continue;
		keep(line->memory, keeps);
		keep(line->ask, keeps);
		keep(line->tell, keeps);
		for (struct mine *mine = line->mine; mine < &line->mine[MOST_DEVICES]; mine++)
			keep(mine->rings, keeps), keep(mine->lock, keeps), keep(mine->life, keeps);
	}
}

/* in front of an exec */
static void prepare(void)
{
	init();
	keep_lines(1);
	watch_ends(0);
}

/* an exec has failed, or another process has begun: the lines are this one's alone again */
static int done(int result)
{
	int saved = errno;
	keep_lines(0);
	errno = saved;
	return result;
}

/* ------ what is found */

/* all descriptors, as far as there is room */
static int descriptors(int *fds)
{
	int count = 0, there = (int)syscall(SYS_openat, AT_FDCWD, "/proc/self/fd", O_RDONLY | O_DIRECTORY | O_CLOEXEC);
	char bytes[4096] __attribute__((aligned(8)));
	long n;
	while (there >= 0 && (n = syscall(SYS_getdents64, there, bytes, sizeof bytes)) > 0)
		for (long at = 0; at < n && count < MOST_INHERITED;) {
			const struct dirent64 *entry = (const void *)&bytes[at];
			if (*entry->d_name != '.' && atoi(entry->d_name) != there)
				fds[count++] = atoi(entry->d_name);
			at += entry->d_reclen;
		}
	if (there >= 0)
		syscall(SYS_close, there);
	return count;
}

static int is_table(int fd)
{
	char link[64], name[64];
	snprintf(link, sizeof link, "/proc/self/fd/%d", fd);
	long n = syscall(SYS_readlinkat, AT_FDCWD, link, name, sizeof name);
	return n == (long)sizeof memory - 1 && !memcmp(name, memory, sizeof memory - 1);
}

/* Where it stands: the table at its beginning, and the lock of an open at its byte; -1 where it is neither. */
static long stands_at(int fd) { return is_table(fd) ? syscall(SYS_lseek, fd, 0, SEEK_CUR) : -1; }

/* a pipe of the line is the line's own, the other end of a device, or a device */
static void inherit_pipe(struct line *line, int fd)
{
	if (is_object(fd, line->table->ask_ino))
		line->ask = high(fd);
	else if (is_object(fd, line->table->tell_ino))
		line->tell = high(fd);
	for (int i = 0; i < MOST_DEVICES; i++) {
		struct device *device = &line->table->devices[i];
		if (!device->kind || !is_object(fd, device->ino))
			continue;
		if ((syscall(SYS_fcntl, fd, F_GETFL) & O_ACCMODE) == O_WRONLY)
			device_begin(line, i, high(fd), -1);
		else
			mark(fd);
	}
}

static int is_of(const struct line *line, int fd)
{
	struct stat now;
	return !syscall(SYS_fstat, fd, &now) && now.st_ino == line->table->own_ino;
}

/* a lock is that of a device which has come too, or it is of no use here */
static void inherit_lock(int fd, int tables)
{
	for (struct line *line = lines; line < &lines[tables]; line++)
		for (int i = 0; i < MOST_DEVICES; i++)
			if (line->mine[i].rings >= 0 && line->table->devices[i].open == stands_at(fd) && is_of(line, fd)) {
				line->mine[i].life = high(fd);
				return;
			}
	syscall(SYS_close, fd);
}

/* finds the lines and devices that were left open */
void inherit(void)
{
	int fds[MOST_INHERITED], count = descriptors(fds), tables = 0;
	for (int i = 0; i < count; i++) {
		struct stat now;
		struct line *line = &lines[tables];
		if (tables == MOST_LINES || stands_at(fds[i]) || syscall(SYS_fstat, fds[i], &now) ||
		    now.st_size != sizeof *line->table)
			continue;
		void *there = mmap(NULL, sizeof *line->table, PROT_READ | PROT_WRITE, MAP_SHARED, fds[i], 0);
		if (there == MAP_FAILED)
			continue;
		line->table = there;
		line->memory = high(fds[i]);
		tables++;
	}
	if (tables)
		watch_stopped();
	for (int t = 0; t < tables; t++)
		for (int i = 0; i < count; i++)
			inherit_pipe(&lines[t], fds[i]);
	for (int i = 0; tables && i < count; i++)
		if (stands_at(fds[i]) > 0)
			inherit_lock(fds[i], tables);
}

/* ------ the C library's calls */

#define BECOMES(call, type, what)                                          \
	EXPORT int call(type what, char *const words[], char *const env[]) \
	{                                                                  \
		prepare();                                                 \
		return done(NEXT(call)(what, words, env));                 \
	}
BECOMES(execve, const char *, path)
BECOMES(execvpe, const char *, file)
BECOMES(fexecve, int, fd)

EXPORT int execv(const char *path, char *const words[]) { return execve(path, words, environ); }
EXPORT int execvp(const char *file, char *const words[]) { return execvpe(file, words, environ); }

/* how many words a list has up to its null pointer, that one too */
static size_t count_of(const char *first, va_list list)
{
	size_t count = 1;
	for (const char *word = first; word; word = va_arg(list, char *))
		count++;
	return count;
}

/* the words of a list up to a null pointer, behind which the environment may stand */
static char **words_in(const char *first, va_list list, char **into, int has_env)
{
	for (const char *word = first; word; word = va_arg(list, char *))
		*into++ = (char *)word;
	*into = NULL;
	return has_env ? va_arg(list, char **) : environ;
}

/* a call of a list of words, as one of an array of them, which is as long as the list */
#define BY_LIST(call, has_env)                              \
	va_list list, counted;                              \
	va_start(list, first);                              \
	va_copy(counted, list);                             \
	char *words[count_of(first, counted)];              \
	va_end(counted);                                    \
	char **env = words_in(first, list, words, has_env); \
	va_end(list);                                       \
	return call(path, words, env)

EXPORT int execl(const char *path, const char *first, ...) { BY_LIST(execve, 0); }
EXPORT int execlp(const char *path, const char *first, ...) { BY_LIST(execvpe, 0); }
EXPORT int execle(const char *path, const char *first, ...) { BY_LIST(execve, 1); }

/* (the library begins a program by these, and the shell of those below, by none of the calls above; while that begins the line
 * stays open) */
#define BEGINS(call)                                                                               \
	EXPORT int call(pid_t *child, const char *path, const posix_spawn_file_actions_t *actions, \
			const posix_spawnattr_t *with, char *const words[], char *const env[])     \
	{                                                                                          \
		init();                                                                            \
		keep_lines(1);                                                                     \
		return done(NEXT(call)(child, path, actions, with, words, env));                   \
	}
BEGINS(posix_spawn)
BEGINS(posix_spawnp)

EXPORT int system(const char *command)
{
	init();
	keep_lines(1);
	return done(NEXT(system)(command));
}

EXPORT FILE *popen(const char *command, const char *mode)
{
	init();
	keep_lines(1);
	FILE *file = NEXT(popen)(command, mode);
	done(0);
	return file;
}

/* ------ the end: as with a kernel all is closed when the process has gone, and not a moment later */

static void close_all(void)
{
	for (int fd = 0; fd < marks_end(); fd++)
		if (is_marked(fd))
			close(fd);
}

__attribute__((destructor)) static void finish(void)
{
	close_all();
	watch_ends(1);
}

EXPORT void _exit(int status)
{
	init();
	finish();
	NEXT(_exit)(status);
	__builtin_unreachable();
}

SAME(_exit, _Exit)
