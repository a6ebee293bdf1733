/*
 * The frontend of an adapter: a stand-in. What it was asked for and what came of it stands in the file `front` of the server's
 * folder, which all programs and the wrapper share, as a card has one frontend: a program tunes by a count, and the wrapper
 * grants that tuning once the recording of that frequency passes, or says that there is none. Nothing of it is proved.
 *
 * Its answers are those of the Linux media API (Digital TV frontend), of a card that has the delivery systems of the recordings.
 */
#define _GNU_SOURCE
#include <errno.h>
#include <fcntl.h>
#include <linux/dvb/frontend.h>
#include <stdio.h>
#include <string.h>
#include <sys/ioctl.h>
#include <sys/mman.h>
#include <sys/syscall.h>
#include <unistd.h>

#include "preload.h"

enum { SYSTEMS = 8, COMMANDS = DTV_MAX_COMMAND + 1, MOST_PROPERTIES = 64, GOOD = 0xc000, PACKET_BITS = 188 * 8 };

/* What python/src/dvbemu/server/channels.py has too. All frequencies are in Hz, or in kHz behind a satellite's converter. */
struct front {
	uint32_t wanted, granted, status,
		taken; /* tunings: how many were asked for, done, with what status, and told as events */
	uint32_t frequency, system, voltage, tone, stream; /* what is tuned to; and what is on the cable */
	uint32_t seatless,
		ratio; /* how many programs have found no seat of the server; signal to noise in 0.1 dB, or 0: unknown */
	uint64_t packets;
	uint32_t systems[SYSTEMS]; /* which it has; behind the last a 0 */
	uint32_t asked[COMMANDS];  /* the properties, by their commands */
};

static struct front *fronts[MOST_ADAPTERS];

static int open_front(int adapter)
{
	char path[PATH];
	snprintf(path, sizeof path, "%s/front", folders[adapter]);
	return (int)syscall(SYS_openat, AT_FDCWD, path, O_RDWR | O_CLOEXEC);
}

/* the properties where a program has set none */
static void clear(struct front *front)
{
	uint32_t system = front->asked[DTV_DELIVERY_SYSTEM];
	memset(front->asked, 0, sizeof front->asked);
	front->asked[DTV_DELIVERY_SYSTEM] = system ? system : front->systems[0];
	front->asked[DTV_MODULATION] = QAM_AUTO;
	front->asked[DTV_INVERSION] = INVERSION_AUTO;
	front->asked[DTV_INNER_FEC] = front->asked[DTV_CODE_RATE_HP] = front->asked[DTV_CODE_RATE_LP] = FEC_AUTO;
	front->asked[DTV_GUARD_INTERVAL] = GUARD_INTERVAL_AUTO;
	front->asked[DTV_TRANSMISSION_MODE] = TRANSMISSION_MODE_AUTO;
	front->asked[DTV_HIERARCHY] = HIERARCHY_AUTO;
	front->asked[DTV_ROLLOFF] = ROLLOFF_AUTO;
	front->asked[DTV_VOLTAGE] = SEC_VOLTAGE_OFF;
	front->asked[DTV_TONE] = SEC_TONE_OFF;
	front->asked[DTV_STREAM_ID] = NO_STREAM_ID_FILTER;
}

/* nothing is on the cable before it is set, of which DTV_CLEAR takes nothing away */
static void free_cable(struct front *front)
{
	front->voltage = SEC_VOLTAGE_OFF;
	front->tone = SEC_TONE_OFF;
}

static struct front *front_of(int adapter)
{
	if (fronts[adapter])
		return fronts[adapter];
	int fd = open_front(adapter);
	void *there = fd < 0 ? MAP_FAILED : mmap(NULL, sizeof(struct front), PROT_READ | PROT_WRITE, MAP_SHARED, fd, 0);
	if (fd >= 0)
		syscall(SYS_close, fd);
	if (there == MAP_FAILED)
		return NULL;
	fronts[adapter] = there;
	if (!fronts[adapter]->asked[DTV_DELIVERY_SYSTEM]) {
		clear(fronts[adapter]);
		free_cable(fronts[adapter]);
	}
	return there;
}

/*
 * Who may tune holds a lock of the file, as one open of a card for writing is all that it has: a descriptor, -EBUSY, or -1. An
 * event that nobody took before isn't told any more.
 */
int frontend_lock(int adapter)
{
	struct flock whole = { .l_type = F_WRLCK };
	struct front *front = front_of(adapter);
	int fd = high(open_front(adapter));
	if (fd < 0)
		return fd;
	if (!syscall(SYS_fcntl, fd, F_OFD_SETLK, &whole)) {
		if (front) {
			front->taken = front->granted;
			free_cable(front);
		}
		return fd;
	}
	let_go(fd);
	return -EBUSY;
}

static int is_granted(const struct front *front)
{
	return front->wanted && __atomic_load_n(&front->granted, __ATOMIC_SEQ_CST) == front->wanted;
}

/* a program has found no seat */
void frontend_seatless(int adapter)
{
	struct front *front = front_of(adapter);
	if (front)
		__atomic_add_fetch(&front->seatless, 1, __ATOMIC_SEQ_CST);
}

int frontend_event(int adapter)
{
	struct front *front = front_of(adapter);
	return front && is_granted(front) && front->taken != front->granted;
}

static uint32_t status_of(const struct front *front) { return is_granted(front) ? front->status : 0; }

static uint16_t strength_of(const struct front *front)
{
	return status_of(front) & FE_HAS_LOCK ? GOOD : status_of(front) ? GOOD / 2 : 0;
}

static uint16_t ratio_of(const struct front *front)
{
	uint16_t known = front->ratio ? (uint16_t)front->ratio : GOOD;
	return status_of(front) & FE_HAS_LOCK ? known : 0;
}

/* ------ the older calls, which know four types */

static enum fe_type type_of(uint32_t system)
{
	switch (system) {
	case SYS_DVBS:
	case SYS_DVBS2:
	case SYS_ISDBS:
		return FE_QPSK;
	case SYS_DVBC_ANNEX_A:
	case SYS_DVBC_ANNEX_C:
		return FE_QAM;
	case SYS_ATSC:
	case SYS_DVBC_ANNEX_B:
		return FE_ATSC;
	}
	return FE_OFDM;
}

static void tell_info(const struct front *front, struct dvb_frontend_info *info)
{
	int is_satellite = type_of(front->asked[DTV_DELIVERY_SYSTEM]) == FE_QPSK;
	memset(info, 0, sizeof *info);
	strcpy(info->name, "dvbemu");
	info->type = type_of(front->asked[DTV_DELIVERY_SYSTEM]);
	info->frequency_min = is_satellite ? 950000 : 42000000;
	info->frequency_max = is_satellite ? 2150000 : 1002000000;
	info->frequency_stepsize = is_satellite ? 1000 : 166667;
	info->symbol_rate_min = 1000000;
	info->symbol_rate_max = 45000000;
	info->caps = FE_CAN_INVERSION_AUTO | FE_CAN_FEC_AUTO | FE_CAN_QAM_AUTO | FE_CAN_TRANSMISSION_MODE_AUTO |
		     FE_CAN_BANDWIDTH_AUTO | FE_CAN_GUARD_INTERVAL_AUTO | FE_CAN_HIERARCHY_AUTO | FE_CAN_QPSK | FE_CAN_QAM_16 |
		     FE_CAN_QAM_32 | FE_CAN_QAM_64 | FE_CAN_QAM_128 | FE_CAN_QAM_256 | FE_CAN_8VSB | FE_CAN_2G_MODULATION |
		     FE_CAN_MULTISTREAM;
}

/* as of a kernel's dvb_frontend_check_parameters */
static int may_tune(const struct front *front)
{
	uint32_t frequency = front->asked[DTV_FREQUENCY], rate = front->asked[DTV_SYMBOL_RATE];
	struct dvb_frontend_info info;
	tell_info(front, &info);
	int has_rate = info.type == FE_QAM || (info.type == FE_QPSK && front->asked[DTV_DELIVERY_SYSTEM] != SYS_ISDBS);
	return frequency >= info.frequency_min && frequency <= info.frequency_max &&
	       (!has_rate || (rate >= info.symbol_rate_min && rate <= info.symbol_rate_max));
}

static int tune(struct front *front)
{
	if (!may_tune(front))
		return -EINVAL;
	front->frequency = front->asked[DTV_FREQUENCY];
	front->system = front->asked[DTV_DELIVERY_SYSTEM];
	front->stream = front->asked[DTV_STREAM_ID];
	front->taken = front->granted;
	__atomic_add_fetch(&front->wanted, 1, __ATOMIC_SEQ_CST);
	return 0;
}

static const uint32_t widths[] = {
	[BANDWIDTH_8_MHZ] = 8000000, [BANDWIDTH_7_MHZ] = 7000000,   [BANDWIDTH_6_MHZ] = 6000000,    [BANDWIDTH_AUTO] = 0,
	[BANDWIDTH_5_MHZ] = 5000000, [BANDWIDTH_10_MHZ] = 10000000, [BANDWIDTH_1_712_MHZ] = 1712000
};
enum { WIDTHS = sizeof widths / sizeof *widths };

static int set_parameters(struct front *front, const struct dvb_frontend_parameters *asked)
{
	enum fe_type type = type_of(front->asked[DTV_DELIVERY_SYSTEM]);
	front->asked[DTV_FREQUENCY] = asked->frequency;
	front->asked[DTV_INVERSION] = asked->inversion;
	if (type == FE_QPSK || type == FE_QAM)
		front->asked[DTV_SYMBOL_RATE] = asked->u.qpsk.symbol_rate;
	if (type == FE_QAM)
		front->asked[DTV_MODULATION] = asked->u.qam.modulation;
	if (type == FE_ATSC)
		front->asked[DTV_MODULATION] = asked->u.vsb.modulation;
	if (type == FE_OFDM && (uint32_t)asked->u.ofdm.bandwidth < WIDTHS)
		front->asked[DTV_BANDWIDTH_HZ] = widths[asked->u.ofdm.bandwidth];
	return tune(front);
}

static void tell_parameters(const struct front *front, struct dvb_frontend_parameters *told)
{
	enum fe_type type = type_of(front->asked[DTV_DELIVERY_SYSTEM]);
	memset(told, 0, sizeof *told);
	told->frequency = front->asked[DTV_FREQUENCY];
	told->inversion = front->asked[DTV_INVERSION];
	if (type == FE_QPSK || type == FE_QAM)
		told->u.qpsk.symbol_rate = front->asked[DTV_SYMBOL_RATE];
	if (type == FE_QAM)
		told->u.qam.modulation = front->asked[DTV_MODULATION];
	if (type == FE_ATSC)
		told->u.vsb.modulation = front->asked[DTV_MODULATION];
	for (uint32_t i = 0; type == FE_OFDM && i < WIDTHS; i++)
		if (widths[i] == front->asked[DTV_BANDWIDTH_HZ])
			told->u.ofdm.bandwidth = i;
}

static int tell_event(struct front *front, struct dvb_frontend_event *event)
{
	if (!is_granted(front) || front->taken == front->granted)
		return -EAGAIN;
	front->taken = front->granted;
	event->status = status_of(front);
	tell_parameters(front, &event->parameters);
	return 0;
}

/* ------ properties */

static int has_system(const struct front *front, uint32_t system)
{
	for (int i = 0; i < SYSTEMS && front->systems[i]; i++)
		if (front->systems[i] == system)
			return 1;
	return 0;
}

static int set_property(struct front *front, const struct dtv_property *one)
{
	if (!one->cmd || one->cmd > DTV_MAX_COMMAND)
		return -EINVAL;
	if (one->cmd == DTV_DELIVERY_SYSTEM && !has_system(front, one->u.data))
		return -EINVAL;
	if (one->cmd == DTV_TUNE)
		return tune(front);
	if (one->cmd == DTV_CLEAR)
		clear(front);
	else
		front->asked[one->cmd == DTV_DVBT2_PLP_ID_LEGACY ? DTV_STREAM_ID : one->cmd] = one->u.data;
	if (one->cmd == DTV_VOLTAGE)
		front->voltage = one->u.data;
	if (one->cmd == DTV_TONE)
		front->tone = one->u.data;
	return 0;
}

static void tell_stat(struct dtv_property *one, int is_there, uint8_t scale, uint64_t value)
{
	memset(&one->u.st, 0, sizeof one->u.st);
	one->u.st.len = 1;
	one->u.st.stat[0].scale = is_there ? scale : FE_SCALE_NOT_AVAILABLE;
	one->u.st.stat[0].uvalue = is_there ? value : 0;
}

static int tell_property(const struct front *front, struct dtv_property *one)
{
	int locked = !!(status_of(front) & FE_HAS_LOCK);
	one->result = 0;
	switch (one->cmd) {
	case DTV_API_VERSION:
		one->u.data = 0x50b;
		return 0;
	case DTV_ENUM_DELSYS:
		for (one->u.buffer.len = 0; one->u.buffer.len < SYSTEMS && front->systems[one->u.buffer.len]; one->u.buffer.len++)
			one->u.buffer.data[one->u.buffer.len] = (uint8_t)front->systems[one->u.buffer.len];
		return 0;
	case DTV_STAT_SIGNAL_STRENGTH:
		tell_stat(one, 1, FE_SCALE_RELATIVE, strength_of(front));
		return 0;
	case DTV_STAT_CNR:
		tell_stat(one, locked, front->ratio ? FE_SCALE_DECIBEL : FE_SCALE_RELATIVE,
			  ratio_of(front) * (front->ratio ? 100 : 1));
		return 0;
	case DTV_STAT_PRE_ERROR_BIT_COUNT:
	case DTV_STAT_POST_ERROR_BIT_COUNT:
	case DTV_STAT_ERROR_BLOCK_COUNT:
		tell_stat(one, locked, FE_SCALE_COUNTER, 0);
		return 0;
	case DTV_STAT_PRE_TOTAL_BIT_COUNT:
	case DTV_STAT_POST_TOTAL_BIT_COUNT:
		tell_stat(one, locked, FE_SCALE_COUNTER, front->packets * PACKET_BITS);
		return 0;
	case DTV_STAT_TOTAL_BLOCK_COUNT:
		tell_stat(one, locked, FE_SCALE_COUNTER, front->packets);
		return 0;
	}
	one->u.data = one->cmd <= DTV_MAX_COMMAND ? front->asked[one->cmd] : 0;
	return one->cmd <= DTV_MAX_COMMAND ? 0 : -EINVAL;
}

static int do_properties(struct front *front, int sets, const struct dtv_properties *asked)
{
	struct dtv_property all[MOST_PROPERTIES];
	int error = 0;
	if (!asked->num || asked->num > MOST_PROPERTIES)
		return -EINVAL;
	if (!is_readable(asked->props, all, asked->num * sizeof *all))
		return -EFAULT;
	for (uint32_t i = 0; i < asked->num && !error; i++)
		error = sets ? set_property(front, &all[i]) : tell_property(front, &all[i]);
	return error ? error : sets || is_writable(asked->props, all, asked->num * sizeof *all) ? 0 : -EFAULT;
}

/* ------ */

union argument {
	struct dvb_frontend_info info;
	struct dvb_frontend_parameters parameters;
	struct dvb_frontend_event event;
	struct dtv_properties properties;
	uint32_t word;
	uint16_t half;
};

/* what is asked with an argument in memory, which is `bytes` here, or one that is a number */
static int do_ioctl(struct front *front, uint32_t number, union argument *bytes, uint32_t value)
{
	switch (number) {
	case FE_GET_INFO:
		tell_info(front, &bytes->info);
		return 0;
	case FE_READ_STATUS:
		bytes->word = status_of(front);
		return 0;
	case FE_READ_BER:
	case FE_READ_UNCORRECTED_BLOCKS:
		bytes->word = 0;
		return 0;
	case FE_READ_SIGNAL_STRENGTH:
		bytes->half = strength_of(front);
		return 0;
	case FE_READ_SNR:
		bytes->half = ratio_of(front);
		return 0;
	case FE_SET_FRONTEND:
		return set_parameters(front, &bytes->parameters);
	case FE_GET_FRONTEND:
		tell_parameters(front, &bytes->parameters);
		return 0;
	case FE_GET_EVENT:
		return tell_event(front, &bytes->event);
	case FE_SET_PROPERTY:
	case FE_GET_PROPERTY:
		return do_properties(front, number == FE_SET_PROPERTY, &bytes->properties);
	case FE_SET_VOLTAGE:
		front->voltage = value;
		return 0;
	case FE_SET_TONE:
		front->tone = value;
		return 0;
	case FE_DISEQC_RESET_OVERLOAD:
	case FE_DISEQC_SEND_MASTER_CMD:
	case FE_DISEQC_SEND_BURST:
	case FE_ENABLE_HIGH_LNB_VOLTAGE:
	case FE_SET_FRONTEND_TUNE_MODE:
		return 0;
	}
	return -ENOTTY;
}

/* 0 or a negative error. Where the frontend was opened to be read alone it does what only tells of it. */
static int answered(int adapter, int access, uint32_t number, void *argument, union argument *bytes)
{
	uint32_t size = _IOC_SIZE(number);
	struct front *front = front_of(adapter);
	memset(bytes, 0, sizeof *bytes);
	if (!front)
		return -ENODEV;
	if (_IOC_TYPE(number) != 'o' || size > sizeof *bytes)
		return -ENOTTY;
	if (access == O_RDONLY && (_IOC_DIR(number) != _IOC_READ || number == FE_GET_EVENT))
		return -EPERM;
	/* (FE_GET_PROPERTY is said to be read alone, and has its list in the argument) */
	if ((_IOC_DIR(number) & _IOC_WRITE || number == FE_GET_PROPERTY) && !is_readable(argument, bytes, size))
		return -EFAULT;
	int error = do_ioctl(front, number, bytes, (uint32_t)(uintptr_t)argument);
	if (!error && _IOC_DIR(number) & _IOC_READ && number != FE_GET_PROPERTY && !is_writable(argument, bytes, size))
		return -EFAULT;
	return error;
}

/* The list of a call of properties, as far as there is room, or else the argument. */
static void tell(int adapter, uint32_t number, const void *argument, const union argument *bytes, int error)
{
	struct dtv_property all[MOST_PROPERTIES];
	uint32_t pairs[2 * MOST_PROPERTIES], word = (uint32_t)(uintptr_t)argument;
	uint32_t count = bytes->properties.num, size = _IOC_SIZE(number);
	int waits = error == -EAGAIN && number == FE_GET_EVENT && traced_waits;
	long result = waits ? TRACE_WAITS : error;
	size = size > sizeof *bytes ? 0 : size;
	if (number != FE_SET_PROPERTY && number != FE_GET_PROPERTY) {
		trace(TRACE_FRONTEND, adapter, NO_NODE, number, size ? (const void *)bytes : &word, size ? size : sizeof word,
		      result);
		return;
	}
	count = count <= MOST_PROPERTIES && is_readable(bytes->properties.props, all, count * sizeof *all) ? count : 0;
	for (uint32_t i = 0; i < count; i++) {
		pairs[2 * i] = all[i].cmd;
		pairs[2 * i + 1] = all[i].u.data;
	}
	trace(TRACE_FRONTEND, adapter, NO_NODE, number, pairs, count * 2 * sizeof *pairs, result);
}

int frontend_ioctl(int adapter, int access, uint32_t number, void *argument)
{
	union argument bytes;
	int error = answered(adapter, access, number, argument, &bytes);
	if (traces())
		tell(adapter, number, argument, &bytes, error);
	return error;
}
