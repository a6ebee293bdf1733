/*
 * The ioctls of demux and dvr nodes: the bytes that a request has of them, and what they change of a device. The daemon of FUSE
 * has this file too.
 */
#define _GNU_SOURCE
#include <errno.h>
#include <linux/dvb/dmx.h>
#include <stddef.h>
#include <string.h>
#include <sys/ioctl.h>

#include "preload.h"

/* notes what a request has changed of a node, and says whether it has begun to run */
int node_changed(struct device *device, uint32_t number, const void *argument)
{
	const struct dmx_sct_filter_params *section = argument;
	const struct dmx_pes_filter_params *pes = argument;
	int begins = number == DMX_START;
	if (number == DMX_SET_FILTER) {
		device->section = 1;
		device->is_tap = 0;
		device->timeout = (int)(section->timeout & 0x7fffffff);
		begins = !!(section->flags & DMX_IMMEDIATE_START);
	} else if (number == DMX_SET_PES_FILTER) {
		device->section = device->timeout = 0;
		device->is_tap = pes->output == DMX_OUT_TS_TAP;
		begins = !!(pes->flags & DMX_IMMEDIATE_START);
	}
	device->due = begins && device->timeout ? milliseconds() + device->timeout + 1 : number == DMX_STOP ? 0 : device->due;
	device->state = UNKNOWN;
	return begins;
}

/* what lies between the fields of a structure is no part of a request, and may never have been written */
static void clean(uint32_t number, char *bytes)
{
	const size_t section = offsetof(struct dmx_sct_filter_params, filter) + sizeof(struct dmx_filter), pes = sizeof(__u16);
	if (number == DMX_SET_FILTER)
		memset(bytes + section, 0, offsetof(struct dmx_sct_filter_params, timeout) - section);
	else if (number == DMX_SET_PES_FILTER)
		memset(bytes + pes, 0, offsetof(struct dmx_pes_filter_params, input) - pes);
}

/* fills in the bytes of an ioctl's argument, and says how many, or a negative error */
int node_bytes(const struct device *device, uint32_t number, const void *argument, char *bytes)
{
	uint32_t size = (uint32_t)(uintptr_t)argument, length = _IOC_SIZE(number);
	if (number == DMX_GET_PES_PIDS && device->kind == DEMUX)
		return -EINVAL;
	if (length > ARGUMENT)
		length = 0;
	if (number == DMX_SET_BUFFER_SIZE)
		memcpy(bytes, &size, length = sizeof size);
	else if (!is_readable(argument, bytes, length))
		return -EFAULT;
	clean(number, bytes);
	return (int)length;
}
