/*
 * A program that tunes and reads a PAT by system calls alone, linked to whatever C library, statically, or for 32 bits to none.
 * Its status is 0, or the number of the step that went wrong.
 */
#include <asm/ioctl.h>
#include <asm/unistd.h>
#include <linux/dvb/dmx.h>
#include <linux/dvb/frontend.h>

enum { RDWR = 2, POLL_IN = 1, LATE_MS = 30000, HZ = 474000000, TRANSPORT_STREAM_ID = 0x1234 };

static long call(long number, long one, long two, long three)
{
	long result;
#ifdef __i386__
	__asm__ volatile("int $0x80" : "=a"(result) : "0"(number), "b"(one), "c"(two), "d"(three) : "memory");
#else
	__asm__ volatile("syscall" : "=a"(result) : "0"(number), "D"(one), "S"(two), "d"(three) : "rcx", "r11", "memory");
#endif
	return result;
}

static void want(int holds, int step)
{
	if (!holds)
		call(__NR_exit_group, step, 0, 0);
}

static void tune(int tuner)
{
	struct dtv_property set[4] = { { .cmd = DTV_CLEAR },
				       { .cmd = DTV_DELIVERY_SYSTEM, .u.data = SYS_DVBT },
				       { .cmd = DTV_FREQUENCY, .u.data = HZ },
				       { .cmd = DTV_TUNE } };
	struct dtv_property told[3] = { { .cmd = DTV_FREQUENCY }, { .cmd = DTV_ENUM_DELSYS }, { .cmd = DTV_DELIVERY_SYSTEM } };
	struct dtv_properties all = { 4, set }, back = { 3, told };
	struct dvb_frontend_event event = { 0 };
	struct {
		int fd;
		short events, found;
	} poll = { tuner, POLL_IN, 0 };
	unsigned status = 0;
	want(call(__NR_ioctl, tuner, FE_SET_PROPERTY, (long)&all) == 0, 2);
	want(call(__NR_ioctl, tuner, FE_GET_PROPERTY, (long)&back) == 0, 3);
	want(told[0].u.data == HZ && told[1].u.buffer.len == 1 && told[1].u.buffer.data[0] == SYS_DVBT, 4);
	want(told[2].u.data == SYS_DVBT, 5);
	want(call(__NR_poll, (long)&poll, 1, LATE_MS) == 1 && poll.found & POLL_IN, 6);
	want(call(__NR_ioctl, tuner, FE_GET_EVENT, (long)&event) == 0 && event.parameters.frequency == HZ, 7);
	want(call(__NR_ioctl, tuner, FE_READ_STATUS, (long)&status) == 0 && status & FE_HAS_LOCK, 8);
}

static void read_table(int demux)
{
	static unsigned char section[4096];
	struct dmx_sct_filter_params pat = { .filter = { .mask = { 0xff } }, .flags = DMX_CHECK_CRC | DMX_IMMEDIATE_START };
	want(call(__NR_ioctl, demux, DMX_SET_FILTER, (long)&pat) == 0, 10);
	long size = call(__NR_read, demux, (long)section, sizeof section);
	want(size == 3 + ((section[1] & 0xf) << 8 | section[2]) && section[0] == 0, 11);
	want((section[3] << 8 | section[4]) == TRANSPORT_STREAM_ID, 12);
}

static void all(void)
{
	int tuner = (int)call(__NR_open, (long)"/dev/dvb/adapter0/frontend0", RDWR, 0);
	want(tuner >= 0, 1);
	tune(tuner);
	int demux = (int)call(__NR_open, (long)"/dev/dvb/adapter0/demux0", RDWR, 0);
	want(demux >= 0, 9);
	read_table(demux);
	call(__NR_exit_group, 0, 0, 0);
}

#ifdef __i386__
void _start(void) { all(); }
#else
int main(void)
{
	all();
	return 0;
}
#endif
