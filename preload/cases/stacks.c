/* Threads whose stack is as small as may be: each call that the preload takes over finds room there, also where it is the first.
 */
#define _GNU_SOURCE
#include <dirent.h>
#include <glob.h>
#include <limits.h>
#include <spawn.h>
#include <sys/epoll.h>
#include <sys/stat.h>
#include <sys/xattr.h>

#include "cases.h"

static int demuxes[2], ears;

static int opens(void) { return (demuxes[0] = open(DEMUX, O_RDWR)) >= 0 && open("/etc/passwd", O_RDONLY) >= 0; }
static int opens_at(void) { return (demuxes[1] = openat(AT_FDCWD, DEMUX, O_RDWR | O_NONBLOCK)) >= 0; }
static int opens_stream(void) { return fopen("/etc/passwd", "r") && fopen64(TUNER, "r"); }
static int opens_folder(void) { return opendir("/dev/dvb") && opendir("/etc"); }
static int is_told(void)
{
	struct stat told;
	return !stat("/etc/passwd", &told) && !lstat(TUNER, &told) && !fstatat(AT_FDCWD, DEMUX, &told, 0) &&
	       !fstat(demuxes[0], &told);
}

static int is_told_more(void)
{
	struct statx told;
	return !statx(AT_FDCWD, DEMUX, 0, STATX_BASIC_STATS, &told) && !statx(AT_FDCWD, "/etc", 0, STATX_BASIC_STATS, &told);
}

static int is_absent(void) { return access("nowhere/x", F_OK) && errno == ENOENT; }
static int is_accessible(void)
{
	return !access("/etc/passwd", R_OK) && !faccessat(AT_FDCWD, DEMUX, R_OK, 0) && !euidaccess(RECORDER, R_OK);
}

static int has_names(void)
{
	struct dirent **names;
	struct dirent64 **names64;
	return scandir("/dev/dvb", &names, NULL, alphasort) == 3 && scandir64("/dev/dvb", &names64, NULL, alphasort64) == 3;
}

static int has_attributes(void) { return getxattr(DEMUX, "user.x", bytes, 8) < 0 && llistxattr(DEMUX, (char *)bytes, 0) >= 0; }

static int is_real(void)
{
	char *real = realpath(DEMUX, NULL), *other = realpath("/etc", NULL);
	return real && !strcmp(real, DEMUX) && other && readlink(DEMUX, (char *)bytes, 9) < 0 &&
	       readlink("/proc/self/exe", (char *)bytes, 9) > 0;
}

static int is_link(void)
{
	char folder[] = "/tmp/stacks.XXXXXX", link[64];
	struct stat told;
	int holds = mkdtemp(folder) && snprintf(link, sizeof link, "%s/link", folder) > 0 && !symlink(DEMUX, link) &&
		    !stat(link, &told);
	unlink(link);
	rmdir(folder);
	return holds && S_ISCHR(told.st_mode);
}

static int goes(void)
{
	return !chdir("/dev/dvb") && !access("adapter0/demux0", F_OK) && getcwd((char *)bytes, PATH_MAX) && !chdir("/");
}

static int filters(void)
{
	set_section(demuxes[0], 0);
	return is_pat(demuxes[0]);
}

static int is_woken(void)
{
	struct pollfd all[] = { { demuxes[0], POLLIN, 0 }, { demuxes[1], POLLIN, 0 } };
	struct epoll_event event = { .events = EPOLLIN };
	fd_set set;
	FD_ZERO(&set);
	FD_SET(demuxes[0], &set);
	ears = epoll_create1(0);
	return poll(all, 2, LATE_MS) == 1 && select(demuxes[0] + 1, &set, NULL, NULL, NULL) == 1 &&
	       !epoll_ctl(ears, EPOLL_CTL_ADD, demuxes[0], &event) && epoll_wait(ears, &event, 1, LATE_MS) == 1;
}

static int tunes(void)
{
	struct dtv_property all[64] = { { .cmd = DTV_API_VERSION } };
	struct dtv_properties asked = { 1, all };
	int fd = open(TUNER, O_RDONLY);
	return fd >= 0 && !ioctl(fd, FE_GET_PROPERTY, &asked) && all[0].u.data >= 0x500 && !close(fd);
}

static int status_of(pid_t pid)
{
	int status = -1;
	return pid > 0 && waitpid(pid, &status, 0) == pid && WIFEXITED(status) ? WEXITSTATUS(status) : -1;
}

static int begins(void)
{
	pid_t pid = fork();
	if (!pid) {
		execl("/bin/sh", "sh", "-c", "exit $#", "sh", "1", "2", NULL);
		_exit(99);
	}
	return status_of(pid) == 2;
}

static int begins_with(void)
{
	char *env[] = { "A=5", NULL };
	pid_t pid = vfork();
	if (!pid) {
		execle("/bin/sh", "sh", "-c", "exit $A", NULL, env);
		_exit(99);
	}
	return status_of(pid) == 5;
}

static int spawns(void)
{
	char *words[] = { "true", NULL };
	pid_t pid;
	return !posix_spawn(&pid, "/bin/true", NULL, NULL, words, environ) && !status_of(pid);
}

static int closes(void) { return !close(demuxes[0]) && dup2(demuxes[1], 90) == 90 && !close(90) && !close(demuxes[1]); }

static const struct {
	const char *name;
	int (*does)(void);
} all[] = { { "open", opens },
	    { "openat", opens_at },
	    { "fopen", opens_stream },
	    { "opendir", opens_folder },
	    { "stat", is_told },
	    { "statx", is_told_more },
	    { "access of what isn't there", is_absent },
	    { "access", is_accessible },
	    { "scandir", has_names },
	    { "getxattr", has_attributes },
	    { "realpath", is_real },
	    { "a link", is_link },
	    { "chdir", goes },
	    { "ioctl, read", filters },
	    { "poll, select, epoll", is_woken },
	    { "FE_GET_PROPERTY", tunes },
	    { "execl", begins },
	    { "execle", begins_with },
	    { "posix_spawn", spawns },
	    { "close", closes } };

static void *in_thread(void *one)
{
	const typeof(*all) *asked = one;
	want(asked->does(), asked->name);
	return NULL;
}

CASE(small_stacks)
{
	pthread_attr_t attributes;
	pthread_t thread;
	pthread_attr_init(&attributes);
	want(!pthread_attr_setstacksize(&attributes, 16384), "a stack of 16 KiB");
	for (size_t i = 0; i < sizeof all / sizeof *all; i++)
		want(!pthread_create(&thread, &attributes, in_thread, (void *)&all[i]) && !pthread_join(thread, NULL),
		     all[i].name);
}
