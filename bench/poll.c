/* What one `poll` that hands a packet out costs, by the size of its payload; bench/poll-cost builds and runs it.
 * One packet waits at a time, in the smallest storage (D = 1, G = 999), so that the copy shows beside the pass over unused places. */
#include <stdio.h>
#include <stdlib.h>
#include <string.h>
#include <time.h>
#include <x86intrin.h>
#include "bizhgemu.h"

#define CALLS 20000

static uint64_t entries[BIZHGEMU_ENTRIES(1)], gaps[BIZHGEMU_GAPS(999)], remembered[BIZHGEMU_REMEMBERED];
static uint8_t payloads[BIZHGEMU_PAYLOADS(1)], out[320];
static double taken[CALLS];

/* The processor's time stamps, since the system's clock is too coarse for one call; how many make a nanosecond is measured. */
static double rate(void)
{
	struct timespec a, b;
	clock_gettime(CLOCK_MONOTONIC, &a);
	uint64_t start = __rdtsc();
	do
		clock_gettime(CLOCK_MONOTONIC, &b);
	while ((b.tv_sec - a.tv_sec) * 1000000000L + (b.tv_nsec - a.tv_nsec) < 20000000L);
	return (double)(__rdtsc() - start) / (1e9 * (double)(b.tv_sec - a.tv_sec) + (double)(b.tv_nsec - a.tv_nsec));
}

static int ascending(const void *a, const void *b)
{
	double x = *(const double *)a, y = *(const double *)b;
	return (x > y) - (x < y);
}

/* the median of all polls of payloads of this size */
static double cost(size_t size)
{
	struct bizhgemu_config config = bizhgemu_default_config(0, 1);
	struct bizhgemu_queue q;
	uint8_t datagram[12 + 320] = {0x80, 0, 0, 0, 0, 0, 0, 0, 0, 0, 0, 1};
	memset(&q, 0, sizeof q);
	q.entries = entries, q.entries_len = sizeof entries / sizeof *entries;
	q.payloads = payloads, q.payloads_len = sizeof payloads;
	q.gaps = gaps, q.gaps_len = sizeof gaps / sizeof *gaps;
	q.remembered = remembered, q.remembered_len = sizeof remembered / sizeof *remembered;
	config.mode = BIZHGEMU_PASSTHROUGH;
	config.max_entries = 1;
	if (bizhgemu_queue_open(&q, config).refusal)
		exit(1);
	memset(datagram + 12, 0x55, size);
	for (int i = 0; i < CALLS; i++) {
		datagram[2] = (uint8_t)(i >> 8);
		datagram[3] = (uint8_t)i;
		if (bizhgemu_queue_push(&q, 0, datagram, 12 + size).refusal)
			exit(1);
		uint64_t start = __rdtsc();
		struct bizhgemu_polled polled = bizhgemu_queue_poll(&q, 0, out, sizeof out);
		taken[i] = (double)(__rdtsc() - start);
		if (polled.refusal || !polled.has_packet)
			exit(1);
	}
	qsort(taken, CALLS, sizeof *taken, ascending);
	return taken[CALLS / 2];
}

int main(void)
{
	double stamps = rate();
	printf("%.1f %.1f %.1f\n", cost(0) / stamps, cost(160) / stamps, cost(320) / stamps);
	return 0;
}
