/* Descriptors of a device: doubled, inherited, closed by each way, and with whatever number. */
#define _GNU_SOURCE
#include <fcntl.h>
#include <spawn.h>
#include <sys/mman.h>
#include <sys/resource.h>
#include <sys/sendfile.h>
#include <sys/syscall.h>

#include "cases.h"

CASE(doubled)
{
	int fd = pat(0), other = dup(fd), third = fcntl(fd, F_DUPFD_CLOEXEC, 50);
	want(other >= 0 && is_pat(other), "dup");
	want(third >= 50 && is_pat(third) && fcntl(third, F_GETFD) == FD_CLOEXEC, "F_DUPFD_CLOEXEC");
	want(!close(fd) && is_pat(other) && !close(other) && is_pat(third), "the others go on behind a close");
}

CASE(moved_to_a_number)
{
	int fd = pat(0);
	want(dup2(fd, 0) == 0 && !close(fd) && is_pat(0), "dup2 to 0");
	want(dup3(0, 77, O_CLOEXEC) == 77 && is_pat(77), "dup3");
}

CASE(replaced_by_dup2)
{
	int fd = pat(0), other = open("/etc/passwd", O_RDONLY);
	want(dup2(other, fd) == fd && read(fd, bytes, 4) == 4 && bytes[0] != 0, "a file over a device is that file");
}

CASE(closed_by_fclose)
{
	char name[] = "/tmp/cases.XXXXXX";
	int fd = pat(0), other = mkstemp(name);
	FILE *file = fdopen(fd, "r");
	want(write(other, "hello", 5) == 5 && file && !fclose(file), "fclose");
	int again = open(name, O_RDONLY);
	unlink(name);
	want(again == fd && read(again, bytes, 100) == 5 && !memcmp(bytes, "hello", 5),
	     "a file with the number of a device that fclose closed");
}

CASE(closed_past_the_library)
{
	int fd = pat(0), is_closed = !syscall(SYS_close, fd), other = open("/etc/passwd", O_RDONLY);
	want(is_closed && other == fd, "a number is another's");
	want(read(other, bytes, 4) == 4 && bytes[0] != 0, "and a read of it is a file's");
}

CASE(all_closed_past_the_library)
{
	for (int i = 0; i < 12; i++) {
		close(pat(0));
		want(!syscall(SYS_close_range, 3, ~0U, 0), "all are closed");
		struct pollfd one = { pat(0), POLLIN, 0 };
		want(poll(&one, 1, LATE_MS / 4) == 1 && is_pat(one.fd), "a device behind that is watched");
	}
}

ALONE(each_close_frees_the_node)
{
	int fds[MOST_NODES];
	want(nodes_free(fds) == 32 && errno == EMFILE, "32 nodes");
	for (int i = 0; i < 8; i++)
		close(fds[i]);
	for (int i = 8; i < 16; i++)
		fclose(fdopen(fds[i], "r"));
	for (int i = 16; i < 24; i++)
		dup2(0, fds[i]);
	close_range((unsigned)fds[24], (unsigned)fds[31], 0);
	want(nodes_free(fds) == 32, "and 32 again");
}

CASE(close_range_of_all)
{
	close(demux(0));
	want(!close_range(3, ~0U, 0) && is_pat(pat(0)), "an open behind close_range(3, ~0)");
	closefrom(3);
	want(is_pat(pat(0)), "and behind closefrom");
}

CASE(a_loop_of_closes)
{
	close(demux(0));
	for (int i = 3; i < 65536; i++)
		close(i);
	want(is_pat(pat(0)), "an open behind a loop of closes");
}

CASE(numbers_of_the_preload)
{
	int fd = pat(0), zero = open("/dev/null", O_RDONLY);
	for (int i = 100; i < 1024; i++)
		want(dup2(zero, i) == i, "each number can be had");
	want(is_pat(fd), "and the device is there still");
}

CASE(closed_twice)
{
	int fd = pat(0);
	struct pollfd one = { fd, POLLIN, 0 };
	want(!close(fd) && close(fd) < 0 && errno == EBADF, "a second close is EBADF");
	want(poll(&one, 1, 100) == 1 && one.revents == POLLNVAL, "poll of a closed one");
}

CASE(few_descriptors)
{
	struct rlimit few = { 64, 64 };
	want(!setrlimit(RLIMIT_NOFILE, &few), "64 descriptors at most");
	int first = pat(0), second = pat(O_NONBLOCK), fds[8];
	for (int i = 0; i < 8; i++)
		want((fds[i] = open(DEMUX, O_RDWR)) >= 0, "ten devices");
	want(is_pat(first) && second >= 0, "a read");
}

CASE(a_high_number)
{
	struct rlimit many;
	int zero = open("/dev/null", O_RDONLY), count = 0;
	want(!getrlimit(RLIMIT_NOFILE, &many), "a limit");
	many.rlim_cur = many.rlim_max;
	want(!setrlimit(RLIMIT_NOFILE, &many), "as many as there may be");
	while (count < 4200 && dup(zero) >= 0)
		count++;
	want(many.rlim_max < 6000 || is_pat(pat(0)), "a device with a number above 4096");
}

CASE(flags_of_descriptors)
{
	int fd = open(DEMUX, O_RDONLY | O_NONBLOCK | O_CLOEXEC), other = demux(0), one = 1;
	want((fcntl(fd, F_GETFL) & (O_ACCMODE | O_NONBLOCK)) == (O_RDONLY | O_NONBLOCK) && fcntl(fd, F_GETFD) == FD_CLOEXEC,
	     "as it was opened");
	want((fcntl(other, F_GETFL) & (O_ACCMODE | O_NONBLOCK)) == O_RDWR && !fcntl(other, F_GETFD), "and the other one");
	set_section(other, NEVER);
	want(!ioctl(other, FIONBIO, &one) && read(other, bytes, 10) < 0 && errno == EAGAIN, "FIONBIO");
	want(!fcntl(fd, F_SETFL, 0) && !(fcntl(fd, F_GETFL) & O_NONBLOCK), "F_SETFL");
}

static void read_pat(void *fd)
{
	if (!is_pat(*(int *)fd))
		_exit(1);
}

CASE(in_a_forked_child)
{
	int fd = pat(0);
	want(child(read_pat, &fd) == 0, "a child reads");
	want(is_pat(fd), "and then its parent");
}

static void closes_all(void *nothing)
{
	for (int i = 3; i < 1024; i++)
		want(!nothing && (!close(i) || errno == EBADF), "a close");
}

CASE(closed_by_a_child)
{
	int fd = pat(0);
	want(!child(closes_all, NULL) && !ioctl(fd, DMX_START) && is_pat(fd), "the node is still there behind a child's closes");
}

static void polls_and_reads(void *fd)
{
	struct pollfd one = { *(int *)fd, POLLIN, 0 };
	pause_for(300);
	if (poll(&one, 1, LATE_MS) != 1 || !is_pat(one.fd))
		_exit(1);
	close(one.fd);
	if (!is_pat(pat(0)))
		_exit(2);
}

CASE(in_a_daemon)
{
	int told[2], fd;
	char said = 0;
	want(!pipe(told), "a pipe");
	pid_t pid = fork();
	if (!pid) {
		fd = pat(0);
		if (fork())
			_exit(0);
		setsid();
		said = (char)('0' + child(polls_and_reads, &fd));
		_exit(write(told[1], &said, 1) != 1);
	}
	waitpid(pid, NULL, 0);
	close(told[1]);
	want(read(told[0], &said, 1) == 1 && said == '0' && !read(told[0], &said, 1), "a daemon has what its parent opened");
}

ALONE(a_daemons_close_frees)
{
	int told[2], fds[MOST_NODES];
	char said = 0;
	want(!pipe(told), "a pipe");
	pid_t pid = fork();
	if (!pid) {
		int count = nodes_free(fds);
		if (fork())
			_exit(0);
		pause_for(300);
		for (int i = 0; i < count; i++)
			close(fds[i]);
		said = (char)nodes_free(fds);
		_exit(write(told[1], &said, 1) != 1);
	}
	waitpid(pid, NULL, 0);
	close(told[1]);
	want(read(told[0], &said, 1) == 1 && said == 32 && !read(told[0], &said, 1),
	     "a daemon's closes free the nodes that its parent opened");
}

CASE(by_exec)
{
	char script[80];
	int all = recorder(O_RDONLY), fd = demux(0);
	record_all(fd);
	snprintf(script, sizeof script, "test \"$(head -c 18800 <&%d | wc -c)\" = 18800", all);
	pid_t pid = fork();
	if (!pid) {
		execl("/bin/sh", "sh", "-c", script, NULL);
		_exit(9);
	}
	int status = -1;
	waitpid(pid, &status, 0);
	want(status == 0, "a program that has inherited dvr0 reads it");
}

static int shell(const char *script)
{
	int status = -1;
	pid_t pid = fork();
	if (!pid) {
		execlp("sh", "sh", "-c", script, NULL);
		_exit(9);
	}
	waitpid(pid, &status, 0);
	return status;
}

ALONE(by_the_shell)
{
	int fd = demux(0);
	record_all(fd);
	close(recorder(O_RDONLY));
	want(!shell("test $(head -c 18800 < " RECORDER " | wc -c) = 18800"), "head < dvr0");
	close(recorder(O_RDONLY));
	want(!shell("test $(dd if=" RECORDER " bs=188 count=100 iflag=fullblock status=none | wc -c) = 18800"), "dd if=dvr0");
}

CASE(by_spawn)
{
	extern char **environ;
	char *words[] = { "sh", "-c", "test $(head -c 18800 | wc -c) = 18800", NULL };
	int all = recorder(O_RDONLY), fd = demux(0), status = -1;
	pid_t pid;
	posix_spawn_file_actions_t actions;
	record_all(fd);
	want(!posix_spawn_file_actions_init(&actions) && !posix_spawn_file_actions_adddup2(&actions, all, 0), "actions");
	want(!posix_spawnp(&pid, "sh", &actions, NULL, words, environ), "posix_spawnp");
	waitpid(pid, &status, 0);
	want(status == 0, "a program that was spawned reads it");
	want(is_pat(pat(0)), "and its parent has its own");
}

CASE(by_vfork)
{
	char *words[] = { "true", NULL };
	int fd = pat(0), status = -1;
	pid_t pid = vfork();
	if (!pid) {
		close(fd);
		execvp("true", words);
		_exit(9);
	}
	waitpid(pid, &status, 0);
	want(status == 0 && is_pat(fd), "what a child of vfork closes is its parent's still");
}

CASE(by_system_and_popen)
{
	char script[80];
	int all = recorder(O_RDONLY), fd = demux(0);
	record_all(fd);
	snprintf(script, sizeof script, "test $(head -c 18800 <&%d | wc -c) = 18800", all);
	want(!system(script), "a program of system() reads it");
	snprintf(script, sizeof script, "head -c 18800 <&%d", all);
	FILE *read_by = popen(script, "r");
	want(read_by && fread(bytes, PACKET, 101, read_by) == 100 && bytes[0] == 0x47 && !pclose(read_by), "and one of popen()");
	want(read(all, bytes, PACKET) == PACKET && is_pat(pat(0)), "and their parent has its own");
}

CASE(other_programs_beside)
{
	int fd = pat(0);
	for (int i = 0; i < 5; i++)
		want(!system("true") && is_pat(fd), "behind a program of system()");
}

CASE(streams)
{
	int fd = demux(0);
	record_all(fd);
	FILE *all = fdopen(recorder(O_RDONLY), "r"), *one = fopen(DEMUX, "r+");
	want(all && fread(bytes, PACKET, 100, all) == 100 && bytes[0] == 0x47 && bytes[PACKET] == 0x47, "fread of fdopen");
	want(one && fileno(one) >= 0, "fopen, fileno");
	set_section(fileno(one), 0);
	setvbuf(one, NULL, _IONBF, 0);
	want(fread(bytes, 1, 16, one) == 16 && bytes[0] == 0 && !fclose(one) && !fclose(all), "fread of fopen");
	want(!fopen("/dev/dvb/adapter0/demux5", "r") && errno == ENOENT, "fopen of what isn't there");
}

CASE(what_a_device_has_not)
{
	int ends[2], fd = pat(0);
	off_t at = 0;
	want(!pipe(ends), "a pipe");
	want(splice(fd, NULL, ends[1], NULL, 100, 0) < 0 && errno == EINVAL, "splice is EINVAL");
	want(tee(fd, ends[1], 100, 0) < 0 && errno == EINVAL && sendfile(ends[1], fd, &at, 100) < 0 && errno == EINVAL,
	     "tee and sendfile too");
	want(copy_file_range(fd, NULL, ends[1], NULL, 100, 0) < 0 && errno == EINVAL, "copy_file_range too");
	want(mmap(NULL, 4096, PROT_READ, MAP_SHARED, fd, 0) == MAP_FAILED && errno == ENODEV, "mmap is ENODEV");
	want(write(fd, bytes, 188) < 0 && errno == EINVAL, "write to a demux is EINVAL");
	want(write(open(DEMUX, O_RDONLY), bytes, 188) < 0 && errno == EBADF, "and EBADF where it is open to be read");
	want(is_pat(fd), "none of it takes anything away");
}
