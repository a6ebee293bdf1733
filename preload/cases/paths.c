/* The folder /dev/dvb: paths of it in each form, and what is told of them. */
#define _GNU_SOURCE
#include <dirent.h>
#include <dlfcn.h>
#include <glob.h>
#include <limits.h>
#include <sys/stat.h>
#include <sys/sysmacros.h>
#include <sys/xattr.h>

#include "cases.h"

CASE(stat_of_a_device)
{
	struct stat told;
	want(!stat(DEMUX, &told) && S_ISCHR(told.st_mode) && major(told.st_rdev) == 212, "stat of demux0");
	want(!lstat(RECORDER, &told) && S_ISCHR(told.st_mode), "lstat of dvr0");
	want(!fstatat(AT_FDCWD, TUNER, &told, 0) && S_ISCHR(told.st_mode), "fstatat of frontend0");
	want(!stat("/dev/dvb/adapter0", &told) && S_ISDIR(told.st_mode), "stat of adapter0");
	want(stat("/dev/dvb/adapter0/demux1", &told) && errno == ENOENT, "stat of demux1");
	want(stat("/dev/dvb/adapter9", &told) && errno == ENOENT, "stat of adapter9");
}

CASE(statx_of_a_device)
{
	struct statx told;
	int fd = demux(0);
	want(!statx(AT_FDCWD, DEMUX, 0, STATX_BASIC_STATS, &told) && S_ISCHR(told.stx_mode) && told.stx_rdev_major == 212,
	     "statx of demux0");
	want(!statx(fd, "", AT_EMPTY_PATH, STATX_BASIC_STATS, &told) && S_ISCHR(told.stx_mode), "statx of a descriptor");
}

CASE(fstat_of_a_device)
{
	struct stat told;
	want(!fstat(demux(0), &told) && S_ISCHR(told.st_mode) && major(told.st_rdev) == 212, "fstat of a demux");
	want(!fstat(open("/dev/null", O_RDONLY), &told) && major(told.st_rdev) == 1, "fstat of another");
}

/* cp and others see by these whether a path and a descriptor are the same file */
CASE(one_file_by_path_and_descriptor)
{
	static const char *const all[] = { DEMUX, RECORDER, TUNER };
	struct stat by_path, by_number, other;
	struct statx more, told;
	ino_t last = 0;
	for (int i = 0; i < 3; i++, last = by_path.st_ino) {
		int fd = i == 1 ? recorder(O_RDONLY) : open(all[i], O_RDONLY);
		want(!stat(all[i], &by_path) && !fstat(fd, &by_number), all[i]);
		want(by_path.st_dev == by_number.st_dev && by_path.st_ino == by_number.st_ino && by_path.st_ino != last,
		     "a device and an inode");
		want(by_path.st_rdev == by_number.st_rdev && by_path.st_mode == by_number.st_mode &&
			     by_path.st_nlink == by_number.st_nlink,
		     "the rest too");
		want(!statx(AT_FDCWD, all[i], 0, STATX_BASIC_STATS, &told) && told.stx_ino == by_path.st_ino, "statx by path");
		want(!statx(fd, "", AT_EMPTY_PATH, STATX_BASIC_STATS, &more) && more.stx_ino == told.stx_ino &&
			     more.stx_dev_major == told.stx_dev_major && more.stx_dev_minor == told.stx_dev_minor,
		     "and by descriptor");
		want(!fstatat(fd, "", &other, AT_EMPTY_PATH) && other.st_ino == by_path.st_ino && other.st_dev == by_path.st_dev,
		     "fstatat too");
	}
}

CASE(stat_by_its_older_names)
{
	int (*by_path)(int, const char *, struct stat *) = (__typeof__(by_path))dlsym(RTLD_DEFAULT, "__xstat64");
	int (*by_number)(int, int, struct stat *) = (__typeof__(by_number))dlsym(RTLD_DEFAULT, "__fxstat");
	struct stat told;
	want(by_path && !by_path(1, DEMUX, &told) && S_ISCHR(told.st_mode), "__xstat64 of demux0");
	want(by_path(1, "/dev/dvb/adapter9", &told) && errno == ENOENT, "of adapter9");
	want(by_number && !by_number(1, demux(0), &told) && S_ISCHR(told.st_mode), "__fxstat of a demux");
}

CASE(access_to_a_device)
{
	want(!access(DEMUX, R_OK | W_OK) && !access("/dev/dvb/adapter0", X_OK), "access");
	want(access(DEMUX "x", F_OK) && errno == ENOENT, "access to what isn't there");
	want(!faccessat(AT_FDCWD, RECORDER, R_OK, 0) && !euidaccess(TUNER, W_OK), "faccessat, euidaccess");
}

static int adapters_in(DIR *folder)
{
	int count = 0;
	for (struct dirent *entry; folder && (entry = readdir(folder));)
		count += !strncmp(entry->d_name, "adapter", 7);
	return count;
}

static int is_node(const struct dirent *entry) { return *entry->d_name != '.'; }

static int is_node64(const struct dirent64 *entry) { return *entry->d_name != '.'; }

CASE(folders_are_read)
{
	struct dirent **names;
	struct dirent64 **names64;
	want(scandir64("/dev/dvb", &names64, is_node64, alphasort64) == 1 && !strcmp(names64[0]->d_name, "adapter0"),
	     "scandir64 of /dev/dvb");
	want(adapters_in(opendir("/dev/dvb")) == 1, "opendir of /dev/dvb finds an adapter");
	want(adapters_in(opendir("/dev/dvb/")) == 1, "opendir with a slash behind it");
	want(scandir("/dev/dvb/adapter0", &names, is_node, alphasort) == 3 && !strcmp(names[0]->d_name, "demux0"),
	     "scandir of adapter0");
}

CASE(patterns)
{
	glob_t names;
	glob64_t names64;
	want(!glob("/dev/dvb/adapter[0-9]/d*0", 0, NULL, &names) && names.gl_pathc == 2, "glob");
	want(!strcmp(names.gl_pathv[0], DEMUX) && !strcmp(names.gl_pathv[1], RECORDER), "the names that it gives");
	globfree(&names);
	want(!glob64(TUNER, GLOB_MARK, NULL, &names64) && !strcmp(names64.gl_pathv[0], TUNER), "glob64 without a pattern");
	want(!glob("/et[c]", GLOB_ONLYDIR, NULL, &names) && names.gl_pathc == 1, "glob of another folder");
	want(glob("/dev/dvb/adapter7*", 0, NULL, &names) == GLOB_NOMATCH, "glob of no adapter");
}

CASE(attributes)
{
	want(lgetxattr(DEMUX, "user.none", bytes, 8) < 0 && errno != ENOENT, "lgetxattr");
	want(getxattr(DEMUX, "user.none", bytes, 8) < 0 && errno != ENOENT, "getxattr");
	want(llistxattr(DEMUX, (char *)bytes, 0) >= 0 && listxattr("/dev/dvb", (char *)bytes, 0) >= 0, "llistxattr, listxattr");
	want(getxattr("/dev/dvb/adapter9", "user.none", bytes, 8) < 0 && errno == ENOENT, "getxattr of what isn't there");
}

CASE(open_from_a_folder)
{
	int folder = open("/dev/dvb/adapter0", O_RDONLY | O_DIRECTORY), fd;
	struct stat told;
	want(folder >= 0, "open of adapter0");
	want((fd = openat(folder, "demux0", O_RDWR)) >= 0, "openat");
	set_section(fd, 0);
	want(is_pat(fd), "a read of it");
	want(!fstatat(folder, "dvr0", &told, 0) && S_ISCHR(told.st_mode), "fstatat from it");
	want(!faccessat(folder, "frontend0", R_OK, 0), "faccessat from it");
}

CASE(open_from_the_working_folder)
{
	char there[PATH_MAX];
	want(!chdir("/dev/dvb/adapter0") && getcwd(there, sizeof there) && !strcmp(there, "/dev/dvb/adapter0"), "chdir, getcwd");
	want(open("demux0", O_RDWR) >= 0 && open("../adapter0/./demux0", O_RDWR) >= 0, "relative paths");
	want(!access("dvr0", R_OK) && !chdir("..") && open("adapter0/demux0", O_RDWR) >= 0, "and from the folder above");
}

CASE(slashes_and_dots)
{
	want(open("/dev/dvb/adapter0//demux0", O_RDWR) >= 0, "two slashes");
	want(open("/dev/../dev/./dvb/adapter0/demux0", O_RDWR) >= 0, "dots");
	want(open("/dev/dvb/../dvb/adapter0/demux0", O_RDWR) >= 0, "dots behind it");
}

CASE(links)
{
	char folder[] = "/tmp/cases.XXXXXX", link[64], other[64], below[80], real[PATH_MAX];
	struct stat told;
	want(mkdtemp(folder) != NULL, "a folder");
	snprintf(link, sizeof link, "%s/link", folder);
	snprintf(other, sizeof other, "%s/adapter", folder);
	snprintf(below, sizeof below, "%s/demux0", other);
	want(!symlink(DEMUX, link) && !symlink("../../dev/dvb/adapter0", other), "links");
	int by_file = open(link, O_RDWR), by_folder = open(below, O_RDWR),
	    is_device = !stat(link, &told) && S_ISCHR(told.st_mode);
	int is_link = !lstat(link, &told) && S_ISLNK(told.st_mode), is_real = realpath(link, real) && !strcmp(real, DEMUX);
	unlink(link);
	unlink(other);
	rmdir(folder);
	want(by_file >= 0, "a link to a device");
	want(by_folder >= 0 || !access("/proc/1/root/dev/dvb", F_OK), "a link to its folder");
	want(is_device && is_link, "stat and lstat of a link");
	want(is_real, "realpath of a link");
}

CASE(real_paths)
{
	char real[PATH_MAX], *made = realpath("/dev//dvb/adapter0/./demux0", NULL);
	want(made && !strcmp(made, DEMUX), "realpath");
	want(realpath("/dev/dvb", real) && !strcmp(real, "/dev/dvb"), "realpath of the folder");
	want(!realpath("/dev/dvb/adapter0/demux7", real) && errno == ENOENT, "realpath of what isn't there");
	want(readlink("/dev/dvb", real, sizeof real) < 0 && errno == EINVAL, "readlink of the folder, which is no link");
	want(readlinkat(AT_FDCWD, DEMUX, real, sizeof real) < 0 && errno == EINVAL, "readlinkat of a device");
	want(readlink("/dev/dvb/adapter9", real, sizeof real) < 0 && errno == ENOENT, "readlink of what isn't there");
	want(readlink("/proc/self/exe", real, sizeof real) > 0, "readlink of a link");
}

CASE(flags_of_open)
{
	want(open(DEMUX, O_RDWR | O_CREAT | O_EXCL, 0600) < 0 && errno == EEXIST, "a new file is EEXIST");
	want(open(DEMUX, O_RDONLY | O_DIRECTORY) < 0 && errno == ENOTDIR, "a folder is ENOTDIR");
	want(open("/dev/dvb/adapter0/net0", O_RDWR) < 0 && errno == ENOENT, "no net0");
	want(open("/dev/dvb/adapter7/demux0", O_RDWR) < 0 && errno == ENOENT, "no adapter7");
	int fd = open(DEMUX, O_RDONLY);
	set_section(fd, 0);
	want(is_pat(fd), "a filter of a demux that is open to be read");
}

CASE(other_files)
{
	char name[] = "/tmp/cases.XXXXXX";
	int fd = mkstemp(name);
	unlink(name);
	want(write(fd, "abc", 3) == 3 && !lseek(fd, 0, SEEK_SET) && read(fd, bytes, 9) == 3, "a file is as ever");
	want(open("/nowhere/file", O_RDONLY) < 0 && errno == ENOENT, "and none is too");
	want(!chdir("/") && !access("etc", F_OK) && adapters_in(opendir("/tmp")) >= 0, "other folders too");
}
