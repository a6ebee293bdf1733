/*
 * The folder /dev/dvb: a tree of empty files in the folder of the first server stands for it. A path that lies there, also a
 * relative one and one by links, is led into the tree, and the files of devices are told as character devices.
 */
#define _GNU_SOURCE
#include <dirent.h>
#include <errno.h>
#include <fcntl.h>
#include <glob.h>
#include <limits.h>
#include <stdio.h>
#include <stdlib.h>
#include <string.h>
#include <sys/stat.h>
#include <sys/syscall.h>
#include <sys/sysmacros.h>
#include <sys/xattr.h>
#include <unistd.h>

#include "preload.h"

enum { MOST_LINKS = 16, MAJOR = 212 };

static const char dev[] = "/dev/dvb";
enum { DEV = sizeof dev - 1 };

/* how much of this path is that of the tree's top, or 0 */
static size_t tree_in(const char *path)
{
	size_t length = strlen(folders[0]);
	return !strncmp(path, folders[0], length) && !strncmp(path + length, dev, DEV) ? length : 0;
}

static int is_below(const char *path) { return !strncmp(path, dev, DEV) && (!path[DEV] || path[DEV] == '/'); }

/* A path from the root on without empty parts, `.` and `..`; 0 where it has no room. */
static int plain(const char *path, char *into)
{
	char *to = into;
	while (*path) {
		size_t length = strcspn(path, "/");
		if (length == 2 && !strncmp(path, "..", 2)) {
			while (to > into && *--to != '/')
				;
		} else if (length && !(length == 1 && *path == '.')) {
			if (to + length + 2 > into + PATH)
				return 0;
			*to++ = '/';
			memcpy(to, path, length);
			to += length;
		}
		path += length + (path[length] == '/');
	}
	*to = 0;
	return 1;
}

/* where a relative path begins */
static int base_of(int there, char *into)
{
	char link[64];
	snprintf(link, sizeof link, there == AT_FDCWD ? "/proc/self/cwd" : "/proc/self/fd/%d", there);
	long n = syscall(SYS_readlinkat, AT_FDCWD, link, into, PATH - 1);
	into[n < 0 ? 0 : n] = 0;
	return n > 0 && n < PATH - 1 && *into == '/';
}

static int in_tree(const char *path, char *into)
{
	if (!is_below(path))
		return 0;
	return snprintf(into, PATH, "%s%s", folders[0], path) < PATH;
}

/* The place in the tree of a path below /dev/dvb; 0 where it is none, as far as its words say. */
int led(int there, const char *path, char *into)
{
	char base[PATH], whole[PATH], clean[PATH];
	if (!adapters || !path || !*path)
		return 0;
	if (*path == '/')
		return (is_below(path) || strstr(path, "dvb")) && strlen(path) < PATH && plain(path, clean) &&
		       in_tree(clean, into);
	if (!base_of(there, base) || !tree_in(base))
		return 0;
	int length = snprintf(whole, sizeof whole, "%s/%s", base + tree_in(base), path);
	return length < PATH && plain(whole, clean) && in_tree(clean, into);
}

/* puts the file of a link in the place of its name, where a path up to `end` is one: whether it was */
static int follow(char *path, size_t end)
{
	char link[PATH], rest[PATH], head = path[end];
	path[end] = 0;
	long n = syscall(SYS_readlinkat, AT_FDCWD, path, link, sizeof link - 1);
	path[end] = head;
	if (n <= 0)
		return 0;
	link[n] = 0;
	snprintf(rest, sizeof rest, "%s", path + end);
	while (*link != '/' && end > 0 && path[end - 1] != '/')
		end--;
	return snprintf(path + (*link == '/' ? 0 : end), PATH - end, "%s%s", link, rest) < (int)(PATH - end);
}

/* The same by links, which are followed one by one until the path lies below /dev/dvb. */
static int led_by_links(int there, const char *path, char *into)
{
	char whole[PATH], base[PATH] = "";
	if (!adapters || !path || !*path || (*path != '/' && !base_of(there, base)))
		return 0;
	if (snprintf(whole, sizeof whole, "%s%s%s", base, *base ? "/" : "", path) >= PATH)
		return 0;
	for (int links = 0; links < MOST_LINKS; links++) {
		size_t end = 1;
		int is_link = 0;
		while (!is_link) {
			end += strcspn(whole + end, "/");
			is_link = follow(whole, end);
			if (!whole[end++])
				break;
		}
		if (!is_link)
			return 0;
		if (led(AT_FDCWD, whole, into))
			return 1;
	}
	return 0;
}

/* The place in the tree of a path: by its words, or by links, where nothing else or a device of DVB stands there. */
int leads(int there, const char *path, char *into)
{
	struct stat now;
	int saved = errno;
	int is_led = led(there, path, into);
	if (!is_led && adapters && path && *path &&
	    (syscall(SYS_newfstatat, there, path, &now, 0) ? errno == ENOENT
							   : S_ISCHR(now.st_mode) && major(now.st_rdev) == MAJOR))
		is_led = led_by_links(there, path, into);
	errno = saved;
	return is_led;
}

/* which device a place in the tree is: NONE where it is none */
int kind_of(const char *place, int *adapter)
{
	static const struct {
		const char *form;
		int kind;
	} all[] = { { "/dev/dvb/adapter%d/frontend0%n", FRONTEND },
		    { "/dev/dvb/adapter%d/demux0%n", DEMUX },
		    { "/dev/dvb/adapter%d/dvr0%n", DVR } };
	place += strlen(folders[0]);
	for (size_t i = 0; i < sizeof all / sizeof *all; i++) {
		int end = 0;
		if (sscanf(place, all[i].form, adapter, &end) == 1 && end && !place[end] && *adapter >= 0 && *adapter < adapters)
			return all[i].kind;
	}
	return NONE;
}

/* the place in the tree of a device */
void place_of(struct at at, char *into)
{
	static const char *const names[] = { [FRONTEND] = "frontend0", [DEMUX] = "demux0", [DVR] = "dvr0" };
	snprintf(into, PATH, "%s/dev/dvb/adapter%d/%s", folders[0], at.line->table->adapter, names[device_at(at)->kind]);
}

/* ------ the C library's calls */

/* the number of a device, as a kernel gives them: 64 minors for each adapter */
static unsigned minor_of(int adapter, int kind)
{
	return (unsigned)(adapter * 64 + (kind == FRONTEND ? 3 : kind == DEMUX ? 4 : 5));
}

static void tell(struct stat *told, int adapter, int kind)
{
	told->st_mode = S_IFCHR | 0660;
	told->st_rdev = makedev(MAJOR, minor_of(adapter, kind));
	told->st_size = told->st_blocks = 0;
}

/* what stat tells of a path; links are followed where the call does that */
static int stat_in(int there, const char *path, struct stat *told, int flags)
{
	char into[PATH];
	int adapter, kind;
	if (!(flags & AT_SYMLINK_NOFOLLOW ? led : leads)(there, path, into))
		return NEXT(fstatat)(there, path, told, flags);
	int result = NEXT(fstatat)(AT_FDCWD, into, told, flags);
	if (!result && (kind = kind_of(into, &adapter)))
		tell(told, adapter, kind);
	return result;
}

/* a descriptor of a device is told as its path is, or where that has gone by its pipe */
EXPORT int fstat(int fd, struct stat *told)
{
	char into[PATH];
	struct at at;
	init();
	if (!find(fd, &at))
		return NEXT(fstat)(fd, told);
	place_of(at, into);
	if (NEXT(fstatat)(AT_FDCWD, into, told, 0) && NEXT(fstat)(fd, told))
		return -1;
	tell(told, at.line->table->adapter, device_at(at)->kind);
	return 0;
}

EXPORT int fstatat(int there, const char *path, struct stat *told, int flags)
{
	init();
	return !*path && flags & AT_EMPTY_PATH ? fstat(there, told) : stat_in(there, path, told, flags);
}

EXPORT int stat(const char *path, struct stat *told)
{
	init();
	return stat_in(AT_FDCWD, path, told, 0);
}

EXPORT int lstat(const char *path, struct stat *told)
{
	init();
	return stat_in(AT_FDCWD, path, told, AT_SYMLINK_NOFOLLOW);
}

/* the names that these have in programs of a C library before 2.33 */
#define OLDER(call, name, type, where)                         \
	EXPORT int call(int version, type, struct stat *told); \
	EXPORT int call(int version, type, struct stat *told) { return (void)version, name(where, told); }
OLDER(__xstat, stat, const char *path, path)
OLDER(__lxstat, lstat, const char *path, path)
OLDER(__fxstat, fstat, int fd, fd)
EXPORT int __fxstatat(int version, int there, const char *path, struct stat *told, int flags);
EXPORT int __fxstatat(int version, int there, const char *path, struct stat *told, int flags)
{
	return (void)version, fstatat(there, path, told, flags);
}

EXPORT int statx(int there, const char *restrict path, int flags, unsigned int mask, struct statx *restrict told)
{
	char into[PATH];
	int adapter = 0, kind = NONE;
	struct at at;
	init();
	int is_own = !*path && flags & AT_EMPTY_PATH && find(there, &at);
	int is_led = is_own || (flags & AT_SYMLINK_NOFOLLOW ? led : leads)(there, path, into);
	if (is_own)
		place_of(at, into);
	int result = NEXT(statx)(is_led ? AT_FDCWD : there, is_led ? into : path, flags, mask, told);
	if (is_own && result)
		result = NEXT(statx)(there, "", flags, mask, told);
	if (is_led)
		kind = kind_of(into, &adapter);
	if (!result && kind) {
		told->stx_mode = S_IFCHR | 0660;
		told->stx_rdev_major = MAJOR;
		told->stx_rdev_minor = minor_of(adapter, kind);
		told->stx_size = told->stx_blocks = 0;
	}
	return result;
}

EXPORT int faccessat(int there, const char *path, int mode, int flags)
{
	char into[PATH];
	init();
	/* (the tree's files are their owner's, and nobody runs them: as the devices') */
	return leads(there, path, into) ? NEXT(faccessat)(AT_FDCWD, into, mode, flags)
					: NEXT(faccessat)(there, path, mode, flags);
}

EXPORT int access(const char *path, int mode) { return faccessat(AT_FDCWD, path, mode, 0); }
EXPORT int euidaccess(const char *path, int mode) { return faccessat(AT_FDCWD, path, mode, AT_EACCESS); }

/* calls of a path, which is led by its words alone, or by links too */
#define OF_PATH(type, call, led_by, params, ...)                                                          \
	EXPORT type call params                                                                           \
	{                                                                                                 \
		char into[PATH];                                                                          \
		init();                                                                                   \
		return NEXT(call)(led_by(AT_FDCWD, path, into) ? into : path __VA_OPT__(, ) __VA_ARGS__); \
	}
OF_PATH(DIR *, opendir, leads, (const char *path))
OF_PATH(int, chdir, leads, (const char *path))
OF_PATH(int, scandir, leads,
	(const char *path, struct dirent ***names, int (*wanted)(const struct dirent *),
	 int (*order)(const struct dirent **, const struct dirent **)),
	names, wanted, order)
/* (extended attributes, for which `ls -l` asks) */
OF_PATH(ssize_t, getxattr, leads, (const char *path, const char *name, void *value, size_t room), name, value, room)
OF_PATH(ssize_t, lgetxattr, led, (const char *path, const char *name, void *value, size_t room), name, value, room)
OF_PATH(ssize_t, listxattr, leads, (const char *path, char *names, size_t room), names, room)
OF_PATH(ssize_t, llistxattr, led, (const char *path, char *names, size_t room), names, room)

static void closes(void *folder) { closedir(folder); }

/* (the library looks for names by calls that are its own, but where it is given others) */
EXPORT int glob(const char *restrict form, int flags, int (*failed)(const char *, int), glob_t *restrict names)
{
	init();
	if (adapters && !(flags & GLOB_ALTDIRFUNC)) {
		flags |= GLOB_ALTDIRFUNC;
		names->gl_opendir = (void *(*)(const char *))opendir;
		names->gl_readdir = (struct dirent * (*)(void *)) readdir;
		names->gl_closedir = closes;
		names->gl_stat = stat;
		names->gl_lstat = lstat;
	}
	return NEXT(glob)(form, flags, failed, names);
}

/* a path in the tree is told as that of /dev/dvb */
static char *told(char *path)
{
	size_t length = path && adapters ? tree_in(path) : 0;
	if (length)
		memmove(path, path + length, strlen(path + length) + 1);
	return path;
}

EXPORT char *getcwd(char *into, size_t room)
{
	init();
	return told(NEXT(getcwd)(into, room));
}

EXPORT char *realpath(const char *restrict path, char *restrict into)
{
	char place[PATH];
	init();
	if (!leads(AT_FDCWD, path, place))
		return NEXT(realpath)(path, into);
	char *real = told(NEXT(realpath)(place, NULL));
	if (!real || !into)
		return real;
	strcpy(into, real);
	free(real);
	return into;
}

EXPORT ssize_t readlinkat(int there, const char *restrict path, char *restrict into, size_t room)
{
	char place[PATH];
	init();
	int is_led = led(there, path, place);
	return NEXT(readlinkat)(is_led ? AT_FDCWD : there, is_led ? place : path, into, room);
}

EXPORT ssize_t readlink(const char *restrict path, char *restrict into, size_t room)
{
	return readlinkat(AT_FDCWD, path, into, room);
}
EXPORT char *canonicalize_file_name(const char *path) { return realpath(path, NULL); }

/* ------ other names */

SAME(euidaccess, eaccess)
SAME64(stat, lstat, fstat, fstatat, __xstat, __lxstat, __fxstat, __fxstatat, scandir, glob)
CHECKED(readlink, readlinkat, realpath, getcwd)
