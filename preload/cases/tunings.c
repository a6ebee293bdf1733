/* The frontend, with one recording on every frequency. */
#include "cases.h"

static int set(int fd, uint32_t command, uint32_t value)
{
	struct dtv_property one = { .cmd = command, .u.data = value };
	struct dtv_properties all = { 1, &one };
	return ioctl(fd, FE_SET_PROPERTY, &all);
}

static struct dtv_property told(int fd, uint32_t command)
{
	struct dtv_property one = { .cmd = command };
	struct dtv_properties all = { 1, &one };
	want(!ioctl(fd, FE_GET_PROPERTY, &all), "FE_GET_PROPERTY");
	return one;
}

static int is_locked(int fd)
{
	fe_status_t status = 0;
	for (int i = 0; i < 1000 && !(status & FE_HAS_LOCK); i++) {
		want(!ioctl(fd, FE_READ_STATUS, &status), "FE_READ_STATUS");
		pause_for(5);
	}
	return status & FE_HAS_LOCK;
}

static int tuned(int flags)
{
	int fd = tuner(O_RDWR | flags);
	want(!set(fd, DTV_CLEAR, 0) && !set(fd, DTV_DELIVERY_SYSTEM, SYS_DVBT) && !set(fd, DTV_FREQUENCY, FREQUENCY),
	     "what is tuned to");
	want(!set(fd, DTV_TUNE, 0) && is_locked(fd), "a lock");
	return fd;
}

ALONE(one_may_tune)
{
	int first = tuner(O_RDWR), beside = open(TUNER, O_RDONLY);
	want(open(TUNER, O_RDWR) < 0 && errno == EBUSY, "a second one that may is EBUSY");
	want(beside >= 0 && open(TUNER, O_RDONLY) >= 0, "any number that look");
	close(first);
	want(open(TUNER, O_RDWR) >= 0, "behind its close another may");
}

CASE(who_looks_may_not_tune)
{
	struct dvb_frontend_event event;
	struct dvb_frontend_info info;
	int fd = open(TUNER, O_RDONLY);
	want(set(fd, DTV_CLEAR, 0) < 0 && errno == EPERM, "FE_SET_PROPERTY is EPERM");
	want(ioctl(fd, FE_GET_EVENT, &event) < 0 && errno == EPERM, "FE_GET_EVENT is EPERM");
	want(!ioctl(fd, FE_GET_INFO, &info) && info.type == FE_OFDM && !strcmp(info.name, "dvbemu"), "FE_GET_INFO");
	told(fd, DTV_API_VERSION);
}

CASE(another_process_sees_the_lock)
{
	int fd = tuned(0);
	pid_t pid = fork();
	if (!pid) {
		execl("/proc/self/exe", "cases", "+lock", NULL);
		_exit(9);
	}
	int status = -1;
	waitpid(pid, &status, 0);
	want(fd >= 0 && status == 0, "a program beside it has the lock too");
}

CASE(statistics_agree)
{
	int fd = tuned(0);
	uint16_t strength = 0, ratio = 0;
	uint32_t lost = 1;
	struct dtv_property now = told(fd, DTV_STAT_SIGNAL_STRENGTH);
	want(!ioctl(fd, FE_READ_SIGNAL_STRENGTH, &strength) && !ioctl(fd, FE_READ_SNR, &ratio), "the older calls");
	want(now.u.st.len == 1 && now.u.st.stat[0].scale == FE_SCALE_RELATIVE && now.u.st.stat[0].uvalue == strength && strength,
	     "a strength");
	now = told(fd, DTV_STAT_CNR);
	want(now.u.st.stat[0].uvalue == ratio && ratio, "a ratio");
	now = told(fd, DTV_STAT_ERROR_BLOCK_COUNT);
	want(!ioctl(fd, FE_READ_UNCORRECTED_BLOCKS, &lost) && !lost && now.u.st.stat[0].scale == FE_SCALE_COUNTER &&
		     !now.u.st.stat[0].uvalue,
	     "no lost blocks");
}

CASE(what_was_set_is_told)
{
	int fd = tuner(O_RDWR);
	struct dtv_property systems = told(fd, DTV_ENUM_DELSYS);
	want(systems.u.buffer.len == 1 && systems.u.buffer.data[0] == SYS_DVBT, "DTV_ENUM_DELSYS");
	want(set(fd, DTV_DELIVERY_SYSTEM, SYS_DVBS) < 0 && errno == EINVAL, "a system that it hasn't is EINVAL");
	want(!set(fd, DTV_DELIVERY_SYSTEM, SYS_DVBT) && !set(fd, DTV_BANDWIDTH_HZ, 7000000) && !set(fd, DTV_FREQUENCY, FREQUENCY),
	     "set");
	want(told(fd, DTV_DELIVERY_SYSTEM).u.data == SYS_DVBT && told(fd, DTV_BANDWIDTH_HZ).u.data == 7000000, "told");
	want(!set(fd, DTV_CLEAR, 0) && !told(fd, DTV_FREQUENCY).u.data && told(fd, DTV_MODULATION).u.data == QAM_AUTO, "cleared");
}

CASE(lists_of_properties)
{
	struct dtv_property many[65] = { { .cmd = DTV_API_VERSION } };
	struct dtv_properties none = { 0, many }, all = { 65, many }, nowhere = { 1, (void *)8 };
	int fd = open(TUNER, O_RDONLY);
	want(ioctl(fd, FE_GET_PROPERTY, &none) < 0 && errno == EINVAL, "none is EINVAL");
	want(ioctl(fd, FE_GET_PROPERTY, &all) < 0 && errno == EINVAL, "more than 64 are EINVAL");
	want(ioctl(fd, FE_GET_PROPERTY, &nowhere) < 0 && errno == EFAULT, "a list that is nowhere is EFAULT");
	want(ioctl(fd, FE_GET_PROPERTY, (void *)8) < 0 && errno == EFAULT, "so is an argument");
	want(ioctl(fd, FE_READ_STATUS, (void *)8) < 0 && errno == EFAULT, "and one that is written");
}

/* what lies outside of what FE_GET_INFO tells is EINVAL, and changes nothing */
CASE(frequencies_that_it_has_not)
{
	struct dvb_frontend_info info;
	fe_status_t status;
	int fd = tuned(0);
	want(!ioctl(fd, FE_GET_INFO, &info) && info.frequency_min > 1 && info.frequency_max < UINT32_MAX, "FE_GET_INFO");
	const uint32_t none[] = { 0, 474, 474000, info.frequency_min - 1, info.frequency_max + 1, 2147483648U, UINT32_MAX };
	for (size_t i = 0; i < sizeof none / sizeof *none; i++) {
		struct dvb_frontend_parameters asked = { .frequency = none[i] };
		want(!set(fd, DTV_FREQUENCY, none[i]) && set(fd, DTV_TUNE, 0) < 0 && errno == EINVAL, "DTV_TUNE is EINVAL");
		want(ioctl(fd, FE_SET_FRONTEND, &asked) < 0 && errno == EINVAL, "FE_SET_FRONTEND too");
		want(!ioctl(fd, FE_READ_STATUS, &status) && status & FE_HAS_LOCK, "and the lock stays");
	}
	want(!set(fd, DTV_FREQUENCY, info.frequency_min) && !set(fd, DTV_TUNE, 0), "the least");
	want(!set(fd, DTV_FREQUENCY, info.frequency_max) && !set(fd, DTV_TUNE, 0) && is_locked(fd), "and the greatest");
}

CASE(an_event)
{
	int fd = tuner(O_RDWR | O_NONBLOCK);
	struct dvb_frontend_parameters asked = { .frequency = FREQUENCY, .u.ofdm.bandwidth = BANDWIDTH_7_MHZ }, now;
	struct dvb_frontend_event event;
	struct pollfd one = { fd, POLLIN, 0 };
	want(!ioctl(fd, FE_SET_FRONTEND, &asked) && poll(&one, 1, LATE_MS) == 1 && one.revents & POLLIN, "poll finds an event");
	want(!ioctl(fd, FE_GET_EVENT, &event) && event.status & FE_HAS_LOCK && event.parameters.frequency == FREQUENCY,
	     "the event");
	want(ioctl(fd, FE_GET_EVENT, &event) < 0 && errno == EAGAIN && !poll(&one, 1, 50), "there is one alone");
	want(!ioctl(fd, FE_GET_FRONTEND, &now) && now.frequency == FREQUENCY && now.u.ofdm.bandwidth == BANDWIDTH_7_MHZ,
	     "FE_GET_FRONTEND");
}

CASE(an_old_event_is_not_told)
{
	struct dvb_frontend_event event;
	close(tuned(0));
	want(ioctl(tuner(O_RDWR | O_NONBLOCK), FE_GET_EVENT, &event) < 0 && errno == EAGAIN, "an event from before its open");
}

CASE(an_event_is_waited_for)
{
	int fd = tuner(O_RDWR);
	struct dvb_frontend_parameters asked = { .frequency = FREQUENCY };
	struct dvb_frontend_event event;
	want(!ioctl(fd, FE_SET_FRONTEND, &asked) && !ioctl(fd, FE_GET_EVENT, &event) && event.status & FE_HAS_LOCK,
	     "a call waits for it");
}

CASE(what_a_frontend_has_not)
{
	int fd = tuner(O_RDWR);
	want(ioctl(fd, _IO('o', 200)) < 0 && errno == ENOTTY, "an unknown ioctl is ENOTTY");
	want(ioctl(fd, DMX_START) < 0 && errno == ENOTTY, "one of a demux too");
	want(read(fd, bytes, 100) < 0 && errno == EINVAL && write(fd, bytes, 100) < 0 && errno == EINVAL,
	     "read and write are EINVAL");
	want(set(fd, DTV_MAX_COMMAND + 1, 0) < 0 && errno == EINVAL, "an unknown property is EINVAL");
}
