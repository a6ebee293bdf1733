/* Each way to wait for a device: the system wakes whoever waits, by whatever call. */
#define _GNU_SOURCE
#include <linux/io_uring.h>
#include <sys/epoll.h>
#include <sys/mman.h>
#include <sys/resource.h>
#include <sys/select.h>
#include <sys/syscall.h>
#include <sys/time.h>

#include "cases.h"

static int set_with(int fd, uint32_t events)
{
	struct epoll_event one = { events, { .fd = fd } };
	int set = epoll_create1(0);
	want(set >= 0 && !epoll_ctl(set, EPOLL_CTL_ADD, fd, &one), "a set of epoll");
	return set;
}

static int finds(int set, int milliseconds)
{
	struct epoll_event one;
	return epoll_wait(set, &one, 1, milliseconds);
}

static void read_all(int fd)
{
	while (read(fd, bytes, 4096) > 0 || errno == EOVERFLOW)
		;
	want(errno == EAGAIN, "a read of nothing is EAGAIN");
}

CASE(poll_of_two)
{
	int first = pat(O_NONBLOCK), second = demux(O_NONBLOCK), counts[2] = { 0, 0 };
	struct dmx_sct_filter_params params = { .pid = 17,
						.flags = DMX_IMMEDIATE_START,
						.filter = { .filter = { 0x42 }, .mask = { 0xff } } };
	struct pollfd both[2] = { { first, POLLIN, 0 }, { second, POLLIN | POLLPRI, 0 } };
	want(!ioctl(second, DMX_SET_FILTER, &params), "a filter on the SDT");
	while (counts[0] < 3 || counts[1] < 3) {
		want(poll(both, 2, LATE_MS) > 0, "poll finds one");
		for (int i = 0; i < 2; i++)
			if (both[i].revents & POLLIN) {
				want(read(both[i].fd, bytes, 4096) > 8 && bytes[0] == (i ? 0x42 : 0), "a section of its own");
				counts[i]++;
			}
	}
	want(both[1].revents == 0 || both[1].revents == (POLLIN | POLLPRI), "what poll tells");
}

/* packets of a PID that a running filter gets wake whoever waits, each time anew */
CASE(an_added_pid)
{
	int fd = demux(O_NONBLOCK);
	struct pollfd one = { fd, POLLIN, 0 };
	uint16_t pid = 256;
	want(!set_pes(fd, NEVER, DMX_OUT_TSDEMUX_TAP) && !poll(&one, 1, 50), "nothing comes of its own PID");
	want(!ioctl(fd, DMX_ADD_PID, &pid), "DMX_ADD_PID");
	for (int i = 0; i < 3; i++) {
		want(poll(&one, 1, LATE_MS) == 1 && one.revents & POLLIN, "a packet of the added PID");
		read_all(fd);
	}
}

CASE(poll_by_priority)
{
	struct pollfd one = { pat(0), POLLPRI, 0 };
	want(poll(&one, 1, LATE_MS) == 1 && one.revents == POLLPRI && one.events == POLLPRI, "POLLPRI alone");
}

CASE(poll_of_many)
{
	static struct pollfd many[3000];
	struct rlimit limit;
	int fd = pat(0);
	want(!getrlimit(RLIMIT_NOFILE, &limit), "a limit");
	limit.rlim_cur = limit.rlim_max < 4096 ? limit.rlim_max : 4096;
	want(!setrlimit(RLIMIT_NOFILE, &limit), "a higher one");
	for (int i = 0; i < 3000; i++)
		many[i].fd = -1;
	many[2999] = (struct pollfd){ fd, POLLIN, 0 };
	want(limit.rlim_cur < 3000 || poll(many, 3000, LATE_MS) == 1, "poll over 3000");
}

CASE(select_in_each_set)
{
	int fd = pat(0);
	fd_set reads, others;
	struct timeval most = { 8, 0 };
	struct timespec also = { 8, 0 };
	FD_ZERO(&reads);
	FD_SET(fd, &reads);
	want(select(fd + 1, &reads, NULL, NULL, NULL) == 1 && FD_ISSET(fd, &reads), "select without a time");
	FD_ZERO(&reads);
	FD_ZERO(&others);
	FD_SET(fd, &others);
	want(select(fd + 1, &reads, NULL, &others, &most) == 1 && FD_ISSET(fd, &others) && !FD_ISSET(fd, &reads),
	     "select of exceptions");
	FD_SET(fd, &reads);
	want(pselect(fd + 1, &reads, NULL, &others, &also, NULL) == 2 && FD_ISSET(fd, &others) && FD_ISSET(fd, &reads),
	     "pselect of both");
}

CASE(ends_by_its_time)
{
	int fd = silent(O_NONBLOCK);
	struct pollfd one = { fd, POLLIN, 0 };
	fd_set reads;
	struct timeval most = { 0, 50000 };
	FD_ZERO(&reads);
	FD_SET(fd, &reads);
	want(!poll(&one, 1, 50) && !select(fd + 1, &reads, NULL, NULL, &most) && !finds(set_with(fd, EPOLLIN), 50),
	     "nothing comes");
}

CASE(nothing_is_left)
{
	int fd = pat(O_NONBLOCK);
	struct pollfd one = { fd, POLLIN, 0 };
	want(poll(&one, 1, LATE_MS) == 1, "a section");
	want(!ioctl(fd, DMX_STOP), "a stop");
	read_all(fd);
	want(!poll(&one, 1, 50) && !finds(set_with(fd, EPOLLIN), 50), "no wait finds what was read");
}

CASE(by_level)
{
	int fd = pat(O_NONBLOCK), set = set_with(fd, EPOLLIN);
	want(finds(set, LATE_MS) == 1 && finds(set, 0) == 1, "epoll finds it until it is read");
	want(!ioctl(fd, DMX_STOP), "a stop");
	read_all(fd);
	want(!finds(set, 50), "and not behind that");
}

CASE(by_edge)
{
	int fd = pat(O_NONBLOCK), set = set_with(fd, EPOLLIN | EPOLLET);
	for (int i = 0; i < 4; i++) {
		want(finds(set, LATE_MS) == 1, "an edge");
		read_all(fd);
		pause_for(i * 100);
	}
}

CASE(by_edge_and_part)
{
	int fd = pat(O_NONBLOCK), set = set_with(fd, EPOLLIN | EPOLLET);
	for (int i = 0; i < 4; i++)
		want(finds(set, LATE_MS) == 1 && read(fd, bytes, 4) > 0, "an edge behind a read of a part");
}

CASE(once_at_a_time)
{
	int fd = pat(O_NONBLOCK), set = set_with(fd, EPOLLIN | EPOLLONESHOT);
	struct epoll_event one = { EPOLLIN | EPOLLONESHOT, { .fd = fd } };
	want(finds(set, LATE_MS) == 1 && !finds(set, 200), "once");
	want(!epoll_ctl(set, EPOLL_CTL_MOD, fd, &one) && finds(set, LATE_MS) == 1, "and again");
}

CASE(a_set_in_a_set)
{
	int inner = set_with(pat(O_NONBLOCK), EPOLLIN), outer = set_with(inner, EPOLLIN);
	struct pollfd one = { set_with(pat(O_NONBLOCK), EPOLLIN), POLLIN, 0 };
	want(finds(outer, LATE_MS) == 1, "a set in a set");
	want(poll(&one, 1, LATE_MS) == 1, "a set in poll");
}

CASE(by_each_wait)
{
	int set = set_with(pat(O_NONBLOCK), EPOLLIN | EPOLLPRI);
	struct epoll_event one;
	struct timespec most = { 8, 0 };
	want(epoll_pwait(set, &one, 1, LATE_MS, NULL) == 1, "epoll_pwait");
	want(epoll_pwait2(set, &one, 1, &most, NULL) == 1 || errno == ENOSYS, "epoll_pwait2");
}

struct two {
	int set, fd;
};

static void *adds(void *with)
{
	struct two *two = with;
	struct epoll_event one = { EPOLLIN | EPOLLET, { .fd = two->fd } };
	pause_for(200);
	epoll_ctl(two->set, EPOLL_CTL_ADD, two->fd, &one);
	return NULL;
}

static void *sets(void *with)
{
	pause_for(200);
	set_section(((struct two *)with)->fd, 0);
	return NULL;
}

CASE(as_a_reactor_does)
{
	struct two added = { epoll_create1(0), pat(O_NONBLOCK) };
	pthread_t thread;
	want(!pthread_create(&thread, NULL, adds, &added) && finds(added.set, LATE_MS) == 1, "a device that another thread adds");
	struct two set = { 0, demux(O_NONBLOCK) };
	set.set = set_with(set.fd, EPOLLIN | EPOLLET);
	want(!pthread_create(&thread, NULL, sets, &set) && finds(set.set, LATE_MS) == 1,
	     "and one of which another sets the filter");
}

CASE(set_while_one_waits)
{
	struct two two = { 0, demux(O_NONBLOCK) };
	struct pollfd one = { two.fd, POLLIN, 0 };
	fd_set reads;
	pthread_t thread;
	want(!pthread_create(&thread, NULL, sets, &two) && poll(&one, 1, LATE_MS) == 1, "poll");
	want(!pthread_join(thread, NULL) && !ioctl(two.fd, DMX_STOP), "a stop");
	FD_ZERO(&reads);
	FD_SET(two.fd, &reads);
	read_all(two.fd);
	want(!pthread_create(&thread, NULL, sets, &two) && select(two.fd + 1, &reads, NULL, NULL, NULL) == 1, "select");
}

CASE(by_io_uring)
{
	struct io_uring_params params = { 0 };
	int fd = pat(O_NONBLOCK), ring = (int)syscall(SYS_io_uring_setup, 4, &params);
	if (ring < 0) {
		printf("no io_uring here: not tried\n");
		return;
	}
	char *queue = mmap(NULL, 8192, PROT_READ | PROT_WRITE, MAP_SHARED | MAP_POPULATE, ring, IORING_OFF_SQ_RING);
	struct io_uring_sqe *asked = mmap(NULL, 4096, PROT_READ | PROT_WRITE, MAP_SHARED | MAP_POPULATE, ring, IORING_OFF_SQES);
	want(queue != MAP_FAILED && asked != MAP_FAILED, "its queues");
	*asked = (struct io_uring_sqe){ .opcode = IORING_OP_POLL_ADD, .fd = fd, .poll32_events = POLLIN };
	((unsigned *)(queue + params.sq_off.array))[0] = 0;
	*(unsigned *)(queue + params.sq_off.tail) = 1;
	want(syscall(SYS_io_uring_enter, ring, 1, 1, IORING_ENTER_GETEVENTS, NULL, 0) == 1, "a poll of io_uring");
	want(is_pat(fd), "finds a section");
}

static volatile sig_atomic_t rang;
static void note(int number) { rang += number > 0; }

static void rings_every(int milliseconds, int flags)
{
	struct sigaction action = { .sa_handler = note, .sa_flags = flags };
	struct itimerval time = { { 0, milliseconds * 1000 }, { 0, milliseconds * 1000 } };
	sigaction(SIGALRM, &action, NULL);
	setitimer(ITIMER_REAL, &time, NULL);
}

CASE(a_signal_ends_a_wait)
{
	struct pollfd one = { silent(0), POLLIN, 0 };
	rings_every(300, SA_RESTART);
	want(poll(&one, 1, LATE_MS) < 0 && errno == EINTR, "poll is EINTR by any handler");
	rings_every(300, 0);
	want(read(one.fd, bytes, 10) < 0 && errno == EINTR, "a read by one without SA_RESTART");
}

/* Again and again: one that comes while the handler of another runs, which begins the read again, ends nothing. */
static void *ends(void *of)
{
	pid_t pid = *(pid_t *)of;
	for (int i = 0; i < 20; i++) {
		pause_for(i ? 30 : 1000);
		kill(pid, SIGUSR1);
	}
	return NULL;
}

CASE(a_signal_begins_a_read_again)
{
	struct sigaction action = { .sa_handler = note };
	pthread_t thread;
	pid_t self = getpid();
	int fd = silent(0);
	sigset_t blocked;
	sigemptyset(&blocked);
	sigaddset(&blocked, SIGUSR1);
	sigaction(SIGUSR1, &action, NULL);
	rings_every(100, SA_RESTART);
	sigaddset(&blocked, SIGALRM);
	pthread_sigmask(SIG_BLOCK, &blocked, NULL);
	want(!pthread_create(&thread, NULL, ends, &self), "a thread");
	pthread_sigmask(SIG_UNBLOCK, &blocked, NULL);
	double begun = seconds();
	want(read(fd, bytes, 10) < 0 && errno == EINTR && seconds() - begun > 0.8 && rang > 3,
	     "a read goes on behind handlers with SA_RESTART");
}

CASE(a_signal_ends_a_read_in_part)
{
	int fd = demux(0), all = recorder(O_RDONLY);
	record_all(fd);
	rings_every(900, SA_RESTART);
	ssize_t n = read(all, bytes, sizeof bytes);
	want(n > 0 && n < (ssize_t)sizeof bytes, "a read that has some bytes ends by any handler");
}

CASE(many_signals)
{
	int fd = pat(0);
	rings_every(1, SA_RESTART);
	for (int i = 0; i < 10; i++)
		want(is_pat(fd), "reads with a signal each millisecond");
}

CASE(the_mask_of_a_wait)
{
	struct sigaction action = { .sa_handler = note };
	struct timespec most = { 8, 0 };
	struct pollfd one = { silent(0), POLLIN, 0 };
	sigset_t blocked, before;
	sigemptyset(&blocked);
	sigaddset(&blocked, SIGALRM);
	sigprocmask(SIG_BLOCK, &blocked, &before);
	sigaction(SIGALRM, &action, NULL);
	raise(SIGALRM);
	double begun = seconds();
	want(ppoll(&one, 1, &most, &before) < 0 && errno == EINTR && seconds() - begun < 5, "ppoll lets a signal in that waits");
}
