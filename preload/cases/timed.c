/* What bench/bench measures, one word each: `cases +WORD NUMBER`. What was measured is all that is written. */
#define _GNU_SOURCE
#include <limits.h>
#include <sys/resource.h>

#include "cases.h"

/* the bytes of a request and of a reply, the buffers of the dvr node and of a section filter, the bytes of a read, and seconds */
enum { ASKED = 76, TOLD = 24, BUFFER = 16 << 20, SECTIONS = 256 << 10, PIECE = 65536, HOUR = 3600 };

/* so many ioctls on a demux node that do nothing: seconds */
void time_calls(int count)
{
	int fd = demux(0);
	double begun = seconds();
	for (int i = 0; i < count; i++)
		want(!ioctl(fd, DMX_STOP), "DMX_STOP");
	printf("%.6f\n", seconds() - begun);
}

/* so many requests to a process behind two pipes, and their replies, as long as the server's: seconds */
void time_pipes(int count)
{
	int ask[2], tell[2];
	want(!pipe(ask) && !pipe(tell), "pipes");
	if (!fork()) {
		close(ask[1]);
		while (read(ask[0], bytes, ASKED) == ASKED && write(tell[1], bytes, TOLD) == TOLD)
			;
		_exit(0);
	}
	double begun = seconds();
	for (int i = 0; i < count; i++)
		want(write(ask[1], bytes, ASKED) == ASKED && read(tell[0], bytes, TOLD) == TOLD, "a round trip");
	printf("%.6f\n", seconds() - begun);
}

/* reads sections of PID 0 for so many seconds, one at a time: how many, and its own seconds of processors */
void time_sections(int most)
{
	int fd = demux(0), count = 0;
	struct rusage used;
	want(!ioctl(fd, DMX_SET_BUFFER_SIZE, SECTIONS), "a buffer");
	set_section(fd, 0);
	for (double end = seconds() + most; seconds() < end; count++)
		want(read(fd, bytes, sizeof bytes) > 0, "a section");
	getrusage(RUSAGE_SELF, &used);
	printf("%d %.6f\n", count,
	       (double)(used.ru_utime.tv_sec + used.ru_stime.tv_sec) +
		       (double)(used.ru_utime.tv_usec + used.ru_stime.tv_usec) / 1e6);
}

/* reads the dvr node, to which all packets go, for so long or so many bytes: bytes, and how often some were lost */
static void record(double most, long most_bytes)
{
	int all = recorder(O_RDONLY), lost = 0;
	long got = 0;
	want(!ioctl(all, DMX_SET_BUFFER_SIZE, BUFFER), "a buffer");
	record_all(demux(0));
	for (double end = seconds() + most; seconds() < end && got < most_bytes;) {
		ssize_t n = read(all, bytes, PIECE);
		want(n >= 0 || errno == EOVERFLOW, "the dvr node");
		lost += n < 0;
		got += n < 0 ? 0 : n;
	}
	printf("%ld %d\n", got, lost);
}

void time_recording(int most) { record(most, LONG_MAX); }
void time_bytes(int most) { record(HOUR, most); }
