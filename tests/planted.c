/*
 * A receiver that reads a PAT, its PMTs and the SDT, with the faults that the words of its command line name:
 *
 *   length   a registration's bytes are copied, as many as it says
 *   zero     a language descriptor of length 0 isn't passed over
 *   absent   the first PMT is used, also where there is none
 *   version  the SDT is taken when its version has been another one twice
 *   leak     each service keeps a megabyte for every byte of its name
 *   behind   the byte behind each name is looked at, which only valgrind sees
 *
 * With the word `pmts` it ends behind the PMTs.
 */
#include <fcntl.h>
#include <linux/dvb/dmx.h>
#include <poll.h>
#include <stdio.h>
#include <stdlib.h>
#include <string.h>
#include <sys/ioctl.h>
#include <unistd.h>

enum { LENGTH = 1, ZERO = 2, ABSENT = 4, VERSION = 8, LEAK = 16, BEHIND = 32, PMTS = 64 };

/* the milliseconds in which a section comes, also on a busy machine; and the entries of a PAT that are looked at */
enum { WAITS = 2000, MOST = 3 };

struct pmt {
	int pid, pcr;
};

static const char *const names[] = { "length", "zero", "absent", "version", "leak", "behind", "pmts" };
static int faults, seen;

/* Sets a filter: the device, or -1. */
static int filter(int pid, int table)
{
	struct dmx_sct_filter_params wanted = { .pid = pid, .flags = DMX_CHECK_CRC | DMX_IMMEDIATE_START };
	int fd = open("/dev/dvb/adapter0/demux0", O_RDWR | O_NONBLOCK);

	wanted.filter.filter[0] = table;
	wanted.filter.mask[0] = 0xff;
	if (fd >= 0 && ioctl(fd, DMX_SET_FILTER, &wanted)) {
		close(fd);
		return -1;
	}
	return fd;
}

/* Reads a section: its bytes, or 0 where none comes in time. */
static int next(int fd, unsigned char *to, int milliseconds)
{
	struct pollfd one = { .fd = fd, .events = POLLIN };
	int n = poll(&one, 1, milliseconds) > 0 ? read(fd, to, 4096) : 0;

	return n > 0 ? n : 0;
}

static int get(int pid, int table, unsigned char *to)
{
	int fd = filter(pid, table), n = fd < 0 ? 0 : next(fd, to, WAITS);

	close(fd);
	return n;
}

/* Reads the descriptors of a PMT, and prints the registration. */
static void describe(const unsigned char *b, int n)
{
	int end = 12 + ((b[10] & 15) << 8 | b[11]), k = 12;
	char form[5] = "";

	while (k + 2 <= end && k + 2 <= n) {
		int length = b[k + 1];

		if (faults & ZERO && b[k] == 0x0a && !length) {
			/* (it stands still, and leaves the processor to others) */
			poll(NULL, 0, 10);
			continue;
		}
		if (b[k] == 0x05 && faults & LENGTH)
			memcpy(form, b + k + 2, length);
		else if (b[k] == 0x05 && length >= 4 && k + 6 <= n)
			memcpy(form, b + k + 2, 4);
		k += 2 + length;
	}
	printf("registration %.4s\n", form);
}

/* Reads the PMTs that a PAT names: the first one that is there, or none. */
static struct pmt *programs(const unsigned char *pat, int n)
{
	static unsigned char b[4096];
	struct pmt *first = NULL;

	for (int at = 8; at + 4 <= n - 4 && at < 8 + 4 * MOST; at += 4) {
		int pid = (pat[at + 2] & 31) << 8 | pat[at + 3], m;
		struct pmt *one;

		if (!(pat[at] << 8 | pat[at + 1]) || (m = get(pid, 2, b)) < 16)
			continue;
		one = calloc(1, sizeof *one);
		one->pid = pid;
		one->pcr = (b[8] & 31) << 8 | b[9];
		describe(b, m);
		if (first)
			free(one);
		else
			first = one;
	}
	return first;
}

/* Keeps the names of the services: each a megabyte a byte, or with a byte behind it, where that is a fault. */
static void services(const unsigned char *b, int n)
{
	for (int at = 11; at + 5 < n; at += 5 + ((b[at + 3] & 15) << 8 | b[at + 4])) {
		char *kept = NULL;

		if (at + 9 < n && b[at + 5] == 0x48 && faults & LEAK) {
			size_t size = (size_t)b[at + 8] << 20;

			kept = malloc(size + 1);
			memset(kept, 1, size + 1);
			kept = NULL;
		} else if (at + 9 < n && b[at + 5] == 0x48 && faults & BEHIND) {
			kept = calloc(1, b[at + 8]);
			seen = kept[b[at + 8]];
		}
		free(kept);
	}
}

int main(int count, char **words)
{
	static unsigned char b[4096];
	struct pmt *first;
	int n, fd, version;

	for (int word = 1; word < count; word++)
		for (int i = 0; i < 7; i++)
			faults |= strcmp(words[word], names[i]) ? 0 : 1 << i;
	first = programs(b, get(0, 0, b));
	if (first || faults & ABSENT)
		printf("first: %d\n", first->pcr);
	free(first);
	if (faults & PMTS)
		return 0;
	fd = filter(17, 0x42);
	n = next(fd, b, WAITS);
	version = n > 5 ? b[5] >> 1 & 31 : 0;
	while (faults & VERSION && n > 5 && (version & 31) != 0 && (b[5] >> 1 & 31) == version)
		n = next(fd, b, WAITS) ?: n;
	services(b, n);
	return 0;
}
