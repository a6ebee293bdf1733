/*
 * Where programs see the devices: a mount namespace with /dev/dvb by FUSE, and in /sys what libudev asks for. Root has no
 * user namespace beside it, where the system lets it mount; anybody else has one, in which he stays who he is. With the last
 * process in it all has gone.
 *
 *   dvbemu-fuse serve PARENT PLACE FOLDER ..
 *       mounts the devices of the servers of these folders, by way of an empty folder, says `ready` on standard output, and
 *       answers calls until SIGTERM comes, or PARENT has ended
 *   dvbemu-fuse enter PROCESS COMMAND ..
 *       runs a command where that process is
 */
#define _GNU_SOURCE
#include <dirent.h>
#include <errno.h>
#include <fcntl.h>
#include <sched.h>
#include <signal.h>
#include <stdarg.h>
#include <stdio.h>
#include <stdlib.h>
#include <string.h>
#include <sys/mount.h>
#include <sys/prctl.h>
#include <sys/stat.h>
#include <unistd.h>

#include "../preload/preload.h"
#include "fuse.h"

enum { NOT_THERE = 127, MAJOR = 212, MINORS = 64, FIRST_MINOR = 3 };

static void stops(const char *what) __attribute__((noreturn));
static void stops(const char *what)
{
	fprintf(stderr, "%s: %s\n", what, strerror(errno));
	exit(1);
}

static void write_file(const char *path, const char *form, ...)
{
	va_list words;
	FILE *file = fopen(path, "we");
	va_start(words, form);
	if (!file || vfprintf(file, form, words) < 0 || fclose(file))
		stops(path);
	va_end(words);
}

/* ------ the namespaces */

/* the user has the number that he has outside, and no other */
static void begin_user(void)
{
	uid_t uid = geteuid();
	gid_t gid = getegid();
	if (unshare(CLONE_NEWUSER | CLONE_NEWNS))
		stops("user namespaces aren't allowed here");
	write_file("/proc/self/setgroups", "deny");
	write_file("/proc/self/uid_map", "%d %d 1", uid, uid);
	write_file("/proc/self/gid_map", "%d %d 1", gid, gid);
}

static void begin_space(void)
{
	if (geteuid() || unshare(CLONE_NEWNS))
		begin_user();
	if (mount(NULL, "/", NULL, MS_REC | MS_PRIVATE, NULL))
		stops("no mounts of its own");
}

static void make_folder(const char *path)
{
	if (mkdir(path, 0755) && errno != EEXIST)
		stops(path);
}

/* shows what stands at a path at another one too; what can't be is left out */
static void show(const char *path, const char *at)
{
	char link[PATH];
	struct stat there;
	ssize_t n = readlink(path, link, sizeof link - 1);
	if (n >= 0) {
		link[n] = 0;
		if (symlink(link, at))
			stops(at);
	} else if (!stat(path, &there)) {
		int fd = S_ISDIR(there.st_mode) ? mkdir(at, 0755) : open(at, O_CREAT | O_WRONLY | O_CLOEXEC, 0644);
		let_go(fd > 0 ? fd : -1);
		if (fd < 0 || mount(path, at, NULL, MS_BIND | MS_REC, NULL))
			fprintf(stderr, "%s: %s\n", path, strerror(errno));
	}
}

/* shows what is in a folder in another one too, but for two names */
static void show_all(const char *folder, const char *in, const char *skip, const char *skip_too)
{
	DIR *all = opendir(folder);
	make_folder(in);
	for (struct dirent *one; all && (one = readdir(all));) {
		char path[PATH], at[PATH];
		const char *name = one->d_name;
		int has_room = snprintf(path, PATH, "%s/%s", folder, name) < PATH && snprintf(at, PATH, "%s/%s", in, name) < PATH;
		if (has_room && strcmp(name, ".") && strcmp(name, "..") && strcmp(name, skip) && strcmp(name, skip_too))
			show(path, at);
	}
	if (all)
		closedir(all);
}

/* an empty folder in memory, which then takes another one's place */
static void make_empty(const char *place)
{
	if (mount("dvbemu", place, "tmpfs", 0, "mode=755"))
		stops(place);
}

static void put(const char *place, const char *at)
{
	if (mount(place, at, NULL, MS_MOVE, NULL))
		stops(at);
}

/* ------ /dev and /sys */

static struct fuse_session *begin_devices(const char *place)
{
	char path[PATH];
	struct stat there;
	int is_there = !stat("/dev/dvb", &there) && S_ISDIR(there.st_mode);
	if (!is_there) {
		make_empty(place);
		show_all("/dev", place, "dvb", "dvb");
	}
	snprintf(path, sizeof path, "%s/dvb", is_there ? "/dev" : place);
	make_folder(path);
	struct fuse_session *session = devices_mount(path);
	if (!session)
		stops("FUSE can't be mounted here");
	if (!is_there)
		put(place, "/dev");
	return session;
}

/* a device, as udev finds it: its folder has its uevent, the link to its class, and one from there */
static void tell_device(const char *place, int adapter, const char *type, int minor)
{
	char folder[PATH], path[PATH + 16], target[PATH];
	snprintf(folder, sizeof folder, "%s/devices/dvbemu%d/dvb%d.%s0", place, adapter, adapter, type);
	make_folder(folder);
	snprintf(path, sizeof path, "%s/uevent", folder);
	write_file(path,
		   "MAJOR=%d\nMINOR=%d\nDEVNAME=dvb/adapter%d/%s0\nDVB_ADAPTER_NUM=%d\nDVB_DEVICE_TYPE=%s\nDVB_DEVICE_NUM=0\n",
		   MAJOR, minor, adapter, type, adapter, type);
	snprintf(path, sizeof path, "%s/dev", folder);
	write_file(path, "%d:%d\n", MAJOR, minor);
	snprintf(path, sizeof path, "%s/subsystem", folder);
	if (symlink("../../../class/dvb", path))
		stops(path);
	snprintf(target, sizeof target, "../../devices/dvbemu%d/dvb%d.%s0", adapter, adapter, type);
	snprintf(path, sizeof path, "%s/class/dvb/dvb%d.%s0", place, adapter, type);
	if (symlink(target, path))
		stops(path);
}

static void tell_adapter(const char *place, int adapter)
{
	static const char *const types[] = { "frontend", "demux", "dvr" };
	char path[PATH];
	snprintf(path, sizeof path, "%s/devices/dvbemu%d", place, adapter);
	make_folder(path);
	for (int i = 0; i < 3; i++)
		tell_device(place, adapter, types[i], adapter * MINORS + FIRST_MINOR + i);
	snprintf(path, sizeof path, "%s/devices/dvbemu%d/uevent", place, adapter);
	write_file(path, "DRIVER=dvbemu\n");
	snprintf(path, sizeof path, "%s/devices/dvbemu%d/subsystem", place, adapter);
	if (symlink("../../bus/pci", path))
		stops(path);
}

static void begin_sys(const char *place)
{
	char path[PATH];
	if (access("/sys/class", F_OK))
		return;
	make_empty(place);
	show_all("/sys", place, "class", "devices");
	snprintf(path, sizeof path, "%s/devices", place);
	show_all("/sys/devices", path, "", "");
	snprintf(path, sizeof path, "%s/class", place);
	show_all("/sys/class", path, "dvb", "dvb");
	snprintf(path, sizeof path, "%s/class/dvb", place);
	make_folder(path);
	for (int i = 0; i < adapters; i++)
		tell_adapter(place, i);
	put(place, "/sys");
}

/* ------ the two words */

static int serve(pid_t parent, const char *place, char **all)
{
	for (; *all && adapters < MOST_ADAPTERS; all++)
		snprintf(folders[adapters++], FOLDER, "%s", *all);
	int fd = open("/dev/fuse", O_RDWR | O_CLOEXEC);
	if (fd < 0)
		stops("/dev/fuse");
	close(fd);
	begin_space();
	/* (behind the change of rights, which forgets it) */
	prctl(PR_SET_PDEATHSIG, SIGKILL, 0, 0, 0);
	if (getppid() != parent)
		return 1;
	struct fuse_session *session = begin_devices(place);
	begin_sys(place);
	int nowhere = open("/dev/null", O_RDWR | O_CLOEXEC);
	if (nowhere < 0 || write(STDOUT_FILENO, "ready\n", 6) != 6 || dup2(nowhere, STDOUT_FILENO) < 0 ||
	    dup2(nowhere, STDERR_FILENO) < 0)
		stops("standard output");
	devices_serve(session);
	return 0;
}

static int open_of(const char *process, const char *what, int flags)
{
	char path[64];
	snprintf(path, sizeof path, "/proc/%s/%s", process, what);
	int fd = open(path, flags | O_CLOEXEC);
	if (fd < 0)
		stops(path);
	return fd;
}

static int is_same(int fd, const char *path)
{
	struct stat one, other;
	return !fstat(fd, &one) && !stat(path, &other) && one.st_ino == other.st_ino;
}

static int enter(const char *process, char **command)
{
	int user = open_of(process, "ns/user", O_RDONLY), mounts = open_of(process, "ns/mnt", O_RDONLY);
	int root = open_of(process, "root", O_RDONLY | O_DIRECTORY), here = open(".", O_PATH | O_CLOEXEC);
	char *path = getcwd(NULL, 0);
	if ((!is_same(user, "/proc/self/ns/user") && setns(user, CLONE_NEWUSER)) || setns(mounts, CLONE_NEWNS) || fchdir(root) ||
	    chroot("."))
		stops("dvbemu serve: the namespaces can't be entered");
	/* (a folder that has been removed has no path) */
	if ((!path || chdir(path)) && fchdir(here))
		stops("dvbemu serve: the folder can't be entered");
	execvp(*command, command);
	fprintf(stderr, "dvbemu serve: %s: %s\n", *command, strerror(errno));
	return NOT_THERE;
}

int main(int count, char **words)
{
	if (count > 4 && !strcmp(words[1], "serve"))
		return serve(atoi(words[2]), words[3], words + 4);
	if (count > 3 && !strcmp(words[1], "enter"))
		return enter(words[2], words + 3);
	fprintf(stderr, "dvbemu-fuse is started by dvbemu serve\n");
	return 2;
}
