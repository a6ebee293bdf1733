/* Prints what linux/dvb/dmx.h says of the requests of a demux device: their numbers, the lengths of their structures and the
   places of the fields, and a few structures as bytes. tests/test_requests.py compares it with the table of crates/dmx_abi and
   with the tests of crates/tests_low. */
#include <stddef.h>
#include <stdio.h>
#include <string.h>
#include <sys/ioctl.h>
#include <linux/dvb/dmx.h>

#define NUMBER(name) printf("number %s 0x%08lx\n", #name, (unsigned long)DMX_##name)
#define LENGTH(name, type) printf("length %s %zu\n", #name, sizeof(type))
#define FIELD(name, type, word, member) \
	printf("field %s %s %zu %zu\n", #name, #word, offsetof(type, member), sizeof(((type *)0)->member))

static void row(unsigned long number, const void *bytes, size_t count)
{
	printf("row 0x%08lx ", number);
	for (size_t i = 0; i < count; i++)
		printf("%02x", ((const unsigned char *)bytes)[i]);
	puts("");
}

static void table(void)
{
	NUMBER(START), NUMBER(STOP), NUMBER(SET_FILTER), NUMBER(SET_PES_FILTER), NUMBER(SET_BUFFER_SIZE), NUMBER(GET_STC);
	NUMBER(ADD_PID), NUMBER(REMOVE_PID);
	LENGTH(SET_FILTER, struct dmx_sct_filter_params);
	FIELD(SET_FILTER, struct dmx_sct_filter_params, pid, pid);
	FIELD(SET_FILTER, struct dmx_sct_filter_params, filter, filter.filter);
	FIELD(SET_FILTER, struct dmx_sct_filter_params, mask, filter.mask);
	FIELD(SET_FILTER, struct dmx_sct_filter_params, mode, filter.mode);
	FIELD(SET_FILTER, struct dmx_sct_filter_params, timeout, timeout);
	FIELD(SET_FILTER, struct dmx_sct_filter_params, flags, flags);
	LENGTH(SET_PES_FILTER, struct dmx_pes_filter_params);
	FIELD(SET_PES_FILTER, struct dmx_pes_filter_params, pid, pid);
	FIELD(SET_PES_FILTER, struct dmx_pes_filter_params, input, input);
	FIELD(SET_PES_FILTER, struct dmx_pes_filter_params, output, output);
	FIELD(SET_PES_FILTER, struct dmx_pes_filter_params, pes_type, pes_type);
	FIELD(SET_PES_FILTER, struct dmx_pes_filter_params, flags, flags);
	LENGTH(GET_STC, struct dmx_stc);
	FIELD(GET_STC, struct dmx_stc, num, num);
	LENGTH(ADD_PID, __u16), LENGTH(REMOVE_PID, __u16);
}

/* The structures, filled with this byte before their fields are set. */
static void structures(int fill)
{
	struct dmx_sct_filter_params section;
	struct dmx_pes_filter_params pes;
	struct dmx_stc stc;
	memset(&section, fill, sizeof section), memset(&pes, fill, sizeof pes), memset(&stc, fill, sizeof stc);
	section.pid = 0x1f0e, section.timeout = 0x01020304, section.flags = 0xa1b2c3d4;
	for (int i = 0; i < DMX_FILTER_SIZE; i++)
		section.filter.filter[i] = 0x10 + i, section.filter.mask[i] = 0x30 + i, section.filter.mode[i] = 0x50 + i;
	pes.pid = 0x2000, pes.input = DMX_IN_DVR, pes.output = DMX_OUT_TSDEMUX_TAP, pes.pes_type = DMX_PES_OTHER;
	pes.flags = 0x89abcdef, stc.num = 0x0a0b0c0d;
	row(DMX_SET_FILTER, &section, sizeof section);
	row(DMX_SET_PES_FILTER, &pes, sizeof pes);
	row(DMX_GET_STC, &stc, sizeof stc);
}

int main(void)
{
	__u16 added = 0x1234, removed = 0x1ffe;
	table();
	structures(0);
	row(DMX_ADD_PID, &added, sizeof added);
	row(DMX_REMOVE_PID, &removed, sizeof removed);
	row(DMX_START, "", 0);
	row(DMX_STOP, "", 0);
	structures(0xa5);
	return 0;
}
