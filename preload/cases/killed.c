/* Children that are killed, at whatever moment: what their parent has stays, and nothing of theirs is left open. */
#define _GNU_SOURCE
#include <sys/prctl.h>
#include <sys/syscall.h>

#include "cases.h"

/* how often each is tried; a tool that slows all down may want fewer, by ROUNDS in the environment */
enum { MOST_ROUNDS = 200, GROUP = 3 };

/* what a child does again and again */
static void opens(int fd)
{
	(void)fd;
	close(open(DEMUX, O_RDWR));
}

static void asks(int fd)
{
	static int own = -1;
	own = own < 0 ? pat(O_NONBLOCK) : own;
	ioctl(own, DMX_STOP);
	ioctl(own, DMX_START);
	want(read(own, bytes, 4096) >= 0 || errno != EIO, "a read of its own");
	(void)fd;
}

static void asks_for_both(int fd)
{
	ioctl(fd, DMX_STOP);
	ioctl(fd, DMX_START);
	want(read(fd, bytes, 4096) >= 0 || errno != EIO, "a read of its parent's");
}

static void does_all(int fd)
{
	opens(fd);
	asks_for_both(fd);
}

static pid_t begun(void (*does)(int), int fd, pid_t group)
{
	pid_t pid = fork();
	if (!pid)
		want(!setpgid(0, group) && !prctl(PR_SET_PDEATHSIG, SIGKILL), "a child");
	while (!pid)
		does(fd);
	setpgid(pid, group);
	return pid;
}

/* the parent's device is as it was, and another one can be had */
static void look_at(int fd)
{
	want(!ioctl(fd, DMX_START), "the parent's device is asked");
	want(read(fd, bytes, 4096) >= 0 || errno == EAGAIN || errno == EOVERFLOW, "and read");
	want(!close(demux(0)), "another one is opened");
}

static void rounds(void (*does)(int), int number, int count)
{
	int fd = pat(O_NONBLOCK), fds[MOST_NODES], count_of_rounds = getenv("ROUNDS") ? atoi(getenv("ROUNDS")) : MOST_ROUNDS;
	struct pollfd one = { fd, POLLIN, 0 };
	srand((unsigned)number);
	for (int i = 0; i < count_of_rounds; i++) {
		pid_t pids[GROUP] = { 0 };
		for (int k = 0; k < count; k++)
			pids[k] = begun(does, fd, pids[0]);
		usleep((useconds_t)(300 + rand() % 4000));
		want(!kill(-pids[0], number), "they are killed");
		for (int k = 0, status; k < count; k++)
			want(waitpid(pids[k], &status, 0) == pids[k] && WIFSIGNALED(status) && WTERMSIG(status) == number,
			     "and end by that");
		look_at(fd);
	}
	set_section(fd, 0);
	want(poll(&one, 1, LATE_MS) == 1 && is_pat(fd), "the parent's device goes on");
	want(nodes_free(fds) == 31 && !close(fd), "all others are free");
	for (int i = 0; i < 31; i++)
		close(fds[i]);
}

ALONE(killed_at_the_open)
{
	rounds(opens, SIGKILL, 1);
	rounds(opens, SIGTERM, 1);
}

ALONE(killed_within_a_request)
{
	rounds(asks, SIGKILL, 1);
	rounds(asks, SIGTERM, 1);
}

ALONE(killed_with_its_parents_device)
{
	rounds(asks_for_both, SIGKILL, 1);
	rounds(asks_for_both, SIGTERM, 1);
}

ALONE(several_are_killed_at_once)
{
	rounds(does_all, SIGKILL, GROUP);
	rounds(does_all, SIGTERM, GROUP);
}

static void held(const char *path, int flags)
{
	int told[2];
	want(!pipe(told), "a pipe");
	pid_t pid = fork();
	if (!pid) {
		want(open(path, flags) >= 0 && write(told[1], "", 1) == 1, path);
		pause();
	}
	want(read(told[0], bytes, 1) == 1 && !kill(pid, SIGKILL) && waitpid(pid, NULL, 0) == pid,
	     "a child that has opened it is killed");
	close(told[0]);
	close(told[1]);
}

ALONE(what_one_program_has_is_free)
{
	int fd = pat(0);
	close(recorder(O_RDONLY));
	held(RECORDER, O_RDONLY);
	int all = open(RECORDER, O_RDONLY);
	want(all >= 0 && !close(all), "dvr0 is free behind a child that is killed");
	held(RECORDER, O_RDONLY);
	want(!system("for i in $(seq 50); do (exec 3< " RECORDER ") 2> /dev/null && exit; sleep 0.1; done; exit 1"),
	     "also to another program, soon");
	for (int i = 0; i < 60; i++)
		held(TUNER, i % 2 ? O_RDWR : O_RDONLY);
	want(open(TUNER, O_RDWR) >= 0, "and so is the tuner");
	set_section(fd, 0);
	want(is_pat(fd), "and the parent's device goes on");
}

/* a child that closes all without a word to the library has lost its own, and its parent nothing */
static void closes_all(void *nothing)
{
	want(!nothing && !syscall(SYS_close_range, 3, ~0U, 0) && is_pat(pat(0)), "a child has its own");
}

CASE(a_child_closes_all_past_the_library)
{
	int fd = pat(0);
	for (int i = 0; i < 5; i++)
		want(!child(closes_all, NULL) && is_pat(fd), "the parent's device goes on");
}
