/* A small receiver, which makes each call on its two devices: for tests/test_calls.py. Its words are the paths that it opens. */
#include <fcntl.h>
#include <poll.h>
#include <pthread.h>
#include <string.h>
#include <sys/ioctl.h>
#include <sys/select.h>
#include <sys/wait.h>
#include <unistd.h>
#include <linux/dvb/dmx.h>

static void set_filters(int fd)
{
	struct dmx_sct_filter_params section;
	struct dmx_pes_filter_params pes;
	memset(&section, 0xa5, sizeof section), memset(&pes, 0xa5, sizeof pes);
	memset(&section.filter, 0, sizeof section.filter);
	section.pid = 17, section.timeout = 5000, section.flags = DMX_CHECK_CRC | DMX_IMMEDIATE_START;
	section.filter.filter[0] = 0x42, section.filter.mask[0] = 0xff, section.filter.mode[15] = 0x0a;
	ioctl(fd, DMX_SET_FILTER, &section);
	pes.pid = 256, pes.input = DMX_IN_FRONTEND, pes.output = DMX_OUT_TSDEMUX_TAP, pes.pes_type = DMX_PES_OTHER, pes.flags = 0;
	ioctl(fd, DMX_SET_PES_FILTER, &pes);
	pes.input = 7;
	ioctl(fd, DMX_SET_PES_FILTER, &pes);
}

static void *stops(void *fd)
{
	ioctl(*(int *)fd, DMX_STOP);
	return NULL;
}

static void waits(int fd)
{
	struct pollfd polled[2] = { { 0, POLLIN, 0 }, { fd, POLLIN | POLLPRI, 0 } };
	struct timeval now = { 0, 0 };
	fd_set set;
	FD_ZERO(&set);
	FD_SET(fd, &set);
	poll(polled, 2, 0);
	select(fd + 1, &set, NULL, NULL, &now);
}

int main(int count, char **words)
{
	static char bytes[100000];
	__u16 pid = 257, pids[5];
	struct dmx_stc stc = { 1, 0, 0 };
	pthread_t thread;
	int fd = open(words[1], O_RDWR | O_NONBLOCK), other = open(words[1], O_RDWR), dvr = open(words[2], O_RDONLY);
	int player, again;
	set_filters(fd);
	ioctl(other, DMX_SET_BUFFER_SIZE, 65536), ioctl(other, DMX_ADD_PID, &pid), ioctl(other, DMX_REMOVE_PID, &pid);
	ioctl(fd, DMX_START), ioctl(fd, DMX_GET_STC, &stc), ioctl(fd, DMX_GET_PES_PIDS, pids);
	read(fd, bytes, 188), read(other, bytes, 4096), read(dvr, bytes, sizeof bytes), read(0, bytes, 0);
	player = open(words[2], O_WRONLY), write(player, bytes, 12033), write(player, NULL, 5), write(fd, bytes, 1);
	close(player);
	waits(fd);
	again = dup(fd), close(fd);
	pthread_create(&thread, NULL, stops, &again), pthread_join(thread, NULL);
	if (fork() == 0) {
		close(other), read(again, bytes, 1);
		return 0;
	}
	wait(NULL);
	close(again);
	fd = open(words[1], O_RDWR);
	return count;
}
