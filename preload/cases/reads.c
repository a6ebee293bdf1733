/* Reads and the requests of a demux and of the dvr device. */
#define _GNU_SOURCE
#include <sys/inotify.h>
#include <sys/uio.h>

#include "cases.h"

CASE(sections)
{
	int fd = pat(0);
	want(is_pat(fd) && read(fd, bytes, 0) == 0, "a section, and none of its bytes");
	want(read(fd, bytes, 10) == 10 && read(fd, bytes, 4096) > 0, "one in two reads");
}

CASE(nothing_waits) { want(read(silent(O_NONBLOCK), bytes, 100) < 0 && errno == EAGAIN, "EAGAIN"); }

CASE(before_a_filter) { want(read(demux(0), bytes, 100) == 0, "no bytes before any filter"); }

CASE(a_timeout)
{
	struct dmx_sct_filter_params params = { .pid = NEVER, .timeout = 300, .flags = DMX_IMMEDIATE_START };
	int fd = demux(0), other = demux(O_NONBLOCK);
	struct pollfd one = { other, POLLIN, 0 };
	double begun = seconds();
	want(!ioctl(fd, DMX_SET_FILTER, &params) && read(fd, bytes, 10) < 0 && errno == ETIMEDOUT && seconds() - begun > 0.29,
	     "ETIMEDOUT");
	want(!ioctl(other, DMX_SET_FILTER, &params) && poll(&one, 1, LATE_MS) == 1 && one.revents & POLLERR,
	     "poll tells it by POLLERR");
}

CASE(an_overflow)
{
	int fd = demux(O_NONBLOCK);
	struct pollfd one = { fd, POLLIN, 0 };
	want(!ioctl(fd, DMX_SET_BUFFER_SIZE, 1880) && !set_pes(fd, ALL_PIDS, DMX_OUT_TSDEMUX_TAP), "a small buffer");
	for (int i = 0; i < 100 && !(one.revents & POLLERR); i++) {
		pause_for(50);
		want(poll(&one, 1, LATE_MS) == 1, "poll");
	}
	want(one.revents & POLLERR && read(fd, bytes, PACKET) < 0 && errno == EOVERFLOW,
	     "an overflow is told by POLLERR and EOVERFLOW");
}

CASE(all_bytes_of_the_recorder)
{
	int fd = demux(0), all = recorder(O_RDONLY);
	record_all(fd);
	want(read(all, bytes, 1000 * PACKET) == 1000 * PACKET && bytes[0] == 0x47 && bytes[999 * PACKET] == 0x47,
	     "a read waits for all");
}

CASE(by_few_bytes)
{
	int fd = demux(0), all = recorder(O_RDONLY);
	record_all(fd);
	for (int i = 0; i < 2 * PACKET; i++)
		want(read(all, bytes + 7 * i, 7) == 7, "seven bytes");
	for (int i = 0; i < 14; i++)
		want(bytes[i * PACKET] == 0x47, "are packets together");
}

CASE(what_is_there)
{
	int fd = demux(0), all = recorder(O_RDONLY | O_NONBLOCK);
	struct pollfd one = { all, POLLIN, 0 };
	record_all(fd);
	want(poll(&one, 1, LATE_MS) == 1, "some");
	ssize_t n = read(all, bytes, sizeof bytes);
	want(n > 0 && n % PACKET == 0 && bytes[0] == 0x47, "a read that doesn't wait gives what is there");
}

CASE(in_parts)
{
	int fd = demux(0), all = recorder(O_RDONLY);
	struct iovec parts[3] = { { bytes, PACKET }, { bytes + PACKET, PACKET }, { bytes + 2 * PACKET, PACKET } };
	record_all(fd);
	want(readv(all, parts, 3) == 3 * PACKET && bytes[2 * PACKET] == 0x47, "readv");
}

/* A place in the file is kept and means nothing, as of a kernel's demux: default_llseek, and for a frontend noop_llseek. */
CASE(at_a_place)
{
	struct iovec parts[2] = { { bytes, 8 }, { bytes + 8, 4088 } };
	int fd = pat(0), tune = open(TUNER, O_RDONLY);
	want(lseek(fd, 0, SEEK_CUR) == 0 && lseek(fd, 5, SEEK_SET) == 5 && lseek(dup(fd), 2, SEEK_CUR) == 7 &&
		     lseek(fd, 0, SEEK_END) == 0,
	     "lseek");
	want(lseek(fd, -1, SEEK_SET) < 0 && errno == EINVAL && lseek(fd, 0, 77) < 0 && errno == EINVAL,
	     "EINVAL where there is no such place");
	want(lseek(fd, 0, SEEK_DATA) < 0 && errno == ENXIO && lseek(tune, 9, SEEK_SET) == 0,
	     "no data behind any, and none of a frontend");
	want(pread(fd, bytes, 4096, 700) > 8 && !bytes[0] && lseek(fd, 0, SEEK_CUR) == 0, "pread gives a section");
	want(preadv(fd, parts, 2, 700) >= 8 && !bytes[0] && is_pat(fd), "preadv");
	want(preadv2(fd, parts, 1, -1, 0) == 8 && !bytes[0], "preadv2");
	want(preadv2(fd, parts, 1, -1, RWF_NOWAIT) < 0 && errno == EOPNOTSUPP, "EOPNOTSUPP for a flag");
	want(pread(fd, bytes, 10, -1) < 0 && errno == EINVAL && preadv(fd, parts, 1, -1) < 0 && errno == EINVAL,
	     "EINVAL for a place below 0");
	want(pwrite(fd, bytes, 10, 0) < 0 && errno == EINVAL, "pwrite is EINVAL, as write is");
	want(pread(tune, bytes, 10, 0) < 0 && errno == EINVAL, "and all of a frontend");
}

CASE(one_recorder)
{
	int all = recorder(O_RDONLY), fd = demux(O_NONBLOCK);
	uint16_t pid = 256;
	record_all(fd);
	want(ioctl(fd, DMX_SET_BUFFER_SIZE, 100000) < 0 && errno == EBUSY, "another size while it runs is EBUSY");
	want(ioctl(fd, DMX_ADD_PID, &pid) < 0 && errno == EINVAL, "another PID of a filter that records is EINVAL");
	want(!close(fd) && !fcntl(all, F_SETFL, O_NONBLOCK), "it ends");
	while (read(all, bytes, sizeof bytes) > 0)
		;
	want(errno == EAGAIN || errno == EOVERFLOW, "and nothing is recorded any more");
	want(all >= 0 && open(RECORDER, O_RDONLY) < 0 && errno == EBUSY, "a second one is EBUSY");
	want(!close(all) && (all = recorder(O_RDONLY)) >= 0, "and behind a close isn't");
	want(!ioctl(all, DMX_SET_BUFFER_SIZE, 7700480), "a size of it");
}

CASE(payloads)
{
	int fd = demux(0);
	uint16_t pid = 257;
	want(!ioctl(fd, DMX_SET_BUFFER_SIZE, 1 << 20), "room for some batches");
	want(!set_pes(fd, 256, DMX_OUT_TAP) && read(fd, bytes, 1000) == 1000, "payloads of a PID");
	want(!set_pes(fd, 256, DMX_OUT_TSDEMUX_TAP) && read(fd, bytes, PACKET) == PACKET && bytes[0] == 0x47, "packets of it");
	want(!ioctl(fd, DMX_ADD_PID, &pid) && !ioctl(fd, DMX_REMOVE_PID, &pid), "DMX_ADD_PID, DMX_REMOVE_PID");
}

CASE(requests_that_it_has_not)
{
	uint16_t pids[5];
	struct dmx_requestbuffers buffers = { .count = 8, .size = 4096 };
	struct dmx_stc stc = { 0 };
	int fd = demux(0);
	want(ioctl(fd, DMX_GET_PES_PIDS, pids) < 0 && errno == EINVAL, "DMX_GET_PES_PIDS is EINVAL");
	want(ioctl(fd, DMX_REQBUFS, &buffers) < 0 && errno == ENOTTY, "DMX_REQBUFS is ENOTTY");
	want(ioctl(fd, DMX_GET_STC, &stc) < 0 && errno == EINVAL, "DMX_GET_STC is EINVAL");
	want(ioctl(fd, _IO('o', 200)) < 0 && errno == ENOTTY, "an unknown one is ENOTTY");
	want(ioctl(fd, DMX_SET_BUFFER_SIZE, 0) < 0 && errno == EINVAL, "a size of 0 is EINVAL");
	want(ioctl(recorder(O_RDONLY), DMX_START) < 0 && errno == EINVAL, "DMX_START of dvr0 is EINVAL");
}

CASE(bad_pointers)
{
	void *volatile nowhere = (void *)8;
	int fd = pat(0);
	want(ioctl(fd, DMX_SET_FILTER, nowhere) < 0 && errno == EFAULT, "an argument that is nowhere is EFAULT");
	want(read(fd, nowhere, 4096) < 0 && errno == EFAULT, "so is room for a section");
	want(is_pat(fd), "and the next one comes");
}

static void *reads_one(void *fd) { return (void *)(intptr_t)read(*(int *)fd, bytes, 4096); }

CASE(a_thread_is_cancelled)
{
	int fd = silent(0);
	pthread_t thread;
	void *how = NULL;
	want(!pthread_create(&thread, NULL, reads_one, &fd), "a thread");
	pause_for(200);
	want(!pthread_cancel(thread) && !pthread_join(thread, &how) && how == PTHREAD_CANCELED, "is cancelled as it reads");
	want(is_pat(pat(0)), "and others read");
}

CASE(closed_by_another_thread)
{
	int fd = silent(0);
	pthread_t thread;
	want(!pthread_create(&thread, NULL, reads_one, &fd), "a thread");
	pause_for(200);
	want(!close(fd) && is_pat(pat(0)), "a close while it reads");
}

static void *reads_many(void *pid)
{
	unsigned char own[4096];
	int fd = open(DEMUX, O_RDWR), bad = 0;
	set_section(fd, (int)(intptr_t)pid);
	for (int i = 0; i < 5; i++)
		bad += read(fd, own, sizeof own) < 8;
	close(fd);
	return (void *)(intptr_t)bad;
}

/* at most 16 threads side by side, each of which ends with NULL */
static void in_threads(int count, void *(*work)(void *), const char *what)
{
	pthread_t threads[16];
	void *bad;
	for (int i = 0; i < count; i++)
		want(!pthread_create(&threads[i], NULL, work, NULL), "threads");
	for (int i = 0; i < count; i++)
		want(!pthread_join(threads[i], &bad) && !bad, what);
}

CASE(many_threads) { in_threads(16, reads_many, "each reads its own sections"); }

static void *opens_many(void *nothing)
{
	for (int i = 0; i < 40; i++) {
		int fd = open(DEMUX, O_RDWR);
		if (fd < 0)
			return (void *)1;
		set_section(fd, 0);
		close(fd);
	}
	return nothing;
}

CASE(threads_that_open) { in_threads(4, opens_many, "open and close side by side"); }

ALONE(without_bells)
{
	for (int i = 0; i < 1000 && inotify_init1(0) >= 0; i++)
		;
	struct pollfd one = { pat(0), POLLIN, 0 };
	want(poll(&one, 1, LATE_MS) == 1 && is_pat(one.fd), "where no inotify is left");
}
