/* A stream with a loss, a NACK, repairs and a strange datagram, through the queue; then datagrams that come together, under a dynamic delay; then
 * in passthrough a loss that is asked for by an RTCP packet, and the latest instant. `make -C examples/c` builds it, runs it and compares what it prints with story.expected. */

#include "bizhgemu.h"

#include <stdio.h>
#include <string.h>

enum { D = 16, G = 999, PT = 0, RTX_PT = 97, PAYLOAD = 4 };
static const uint32_t SSRC = 0x1234, RTX_SSRC = 0x5678, OWN_SSRC = 7;
static const uint64_t MS = 1000000;

static uint64_t entries[BIZHGEMU_ENTRIES(D)];
static uint8_t payloads[BIZHGEMU_PAYLOADS(D)];
static uint64_t gaps[BIZHGEMU_GAPS(G)];
static uint64_t remembered[BIZHGEMU_REMEMBERED];

static void put(uint8_t *to, uint32_t value, size_t bytes)
{
	while (bytes-- > 0) {
		to[bytes] = (uint8_t)value;
		value >>= 8;
	}
}

/* An RTP header of 12 bytes (RFC 3550). */
static void header(uint8_t *to, uint8_t pt, uint16_t number, uint32_t timestamp, uint32_t ssrc)
{
	to[0] = 0x80;
	to[1] = pt;
	put(to + 2, number, 2);
	put(to + 4, timestamp, 4);
	put(to + 8, ssrc, 4);
}

/* 20 ms of speech under a number; the first is 65534. */
static uint32_t timestamp_of(uint16_t number)
{
	return 160u * (uint16_t)(number - 65534);
}

static const char *media_answer(uint64_t answer)
{
	switch (answer) {
	case BIZHGEMU_QUEUED: return "queued";
	case BIZHGEMU_DROPPED: return "dropped";
	default: return "not an answer";
	}
}

static const char *repair_answer(uint64_t answer)
{
	switch (answer) {
	case BIZHGEMU_RECOVERED: return "recovered";
	case BIZHGEMU_REDUNDANT: return "redundant";
	case BIZHGEMU_TOO_LATE: return "too late";
	default: return "not an answer";
	}
}

static void push(struct bizhgemu_queue *q, uint64_t ms, uint16_t number, uint32_t ssrc)
{
	uint8_t datagram[12 + PAYLOAD];
	header(datagram, PT, number, timestamp_of(number), ssrc);
	memset(datagram + 12, number & 0xff, PAYLOAD);
	const struct bizhgemu_pushed r = bizhgemu_queue_push(q, ms * MS, datagram, sizeof datagram);
	if (r.refusal)
		printf("%3d ms  media %5u: refused under %d\n", (int)ms, number, (int)r.refusal);
	else
		printf("%3d ms  media %5u: %s\n", (int)ms, number, media_answer(r.answer));
}

static void push_rtx(struct bizhgemu_queue *q, uint64_t ms, uint16_t number)
{
	uint8_t datagram[12 + 2 + PAYLOAD];
	header(datagram, RTX_PT, 7, timestamp_of(number), RTX_SSRC);
	put(datagram + 12, number, 2);
	memset(datagram + 14, number & 0xff, PAYLOAD);
	const struct bizhgemu_pushed r = bizhgemu_queue_push_rtx(q, ms * MS, datagram, sizeof datagram);
	if (r.refusal)
		printf("%3d ms  repair %5u: refused under %d\n", (int)ms, number, (int)r.refusal);
	else
		printf("%3d ms  repair %5u: %s\n", (int)ms, number, repair_answer(r.answer));
}

static const char *burst_answer(uint8_t answer)
{
	switch (answer) {
	case BIZHGEMU_ANSWER_QUEUED: return "queued";
	case BIZHGEMU_ANSWER_DROPPED: return "dropped";
	default: return bizhgemu_refusal_text(answer);
	}
}

/* Datagrams that came together, one behind the other in a buffer: two numbers, bytes that are no packet, and the second number again. Whether the call was
 * refused. */
static int push_together(struct bizhgemu_queue *q, uint64_t ms)
{
	enum { SIZE = 12 + PAYLOAD, COUNT = 4 };
	static const uint16_t numbers[COUNT] = {65535, 0, 0, 0};
	uint8_t buffer[COUNT * SIZE], answers[COUNT];
	uint64_t ends[COUNT];
	for (size_t i = 0; i < COUNT; i++) {
		header(buffer + i * SIZE, PT, numbers[i], timestamp_of(numbers[i]), SSRC);
		memset(buffer + i * SIZE + 12, numbers[i] & 0xff, PAYLOAD);
		ends[i] = (i + 1) * SIZE;
	}
	buffer[2 * SIZE] = 0; /* version 0 */
	const struct bizhgemu_pushed_burst r = bizhgemu_queue_push_burst(q, ms * MS, buffer, sizeof buffer, ends, COUNT, answers, COUNT);
	for (size_t i = 0; i < r.answers; i++)
		printf("%3d ms  together %5u: %s\n", (int)ms, numbers[i], burst_answer(answers[i]));
	return r.refusal != 0;
}

/* What a host does when it wakes: NACKs, then packets until none is due, then sleep. Whether a call was refused. */
static int wake(struct bizhgemu_queue *q, uint64_t ms)
{
	uint16_t numbers[G];
	const struct bizhgemu_polled_nack nack = bizhgemu_queue_poll_nack(q, ms * MS, numbers, G);
	for (size_t i = 0; i < nack.count; i++)
		printf("%3d ms  NACK %u\n", (int)ms, numbers[i]);

	uint8_t payload[BIZHGEMU_LONGEST_PAYLOAD];
	struct bizhgemu_polled polled = bizhgemu_queue_poll(q, ms * MS, payload, sizeof payload);
	while (polled.has_packet) {
		const struct bizhgemu_packet *packet = &polled.packet;
		printf("%3d ms  out %5u, timestamp %u, %zu bytes of %02x%s\n", (int)ms, packet->sequence_number, packet->timestamp,
			packet->size, payload[0], packet->has_received_at ? "" : ", repaired");
		polled = bizhgemu_queue_poll(q, ms * MS, payload, sizeof payload);
	}

	const struct bizhgemu_timeout sleep = bizhgemu_queue_timeout(q, ms * MS);
	if (sleep.has_timeout)
		printf("%3d ms  sleep %.3f ms\n", (int)ms, (double)sleep.timeout / 1e6);
	else
		printf("%3d ms  nothing to wait for\n", (int)ms);
	return nack.refusal || polled.refusal || sleep.refusal;
}

/* What is due, as an RTCP packet that asks the sender for it: transport-layer feedback (RFC 4585, section 6.1), 12 bytes and the entries of a
 * generic NACK. A host with more gaps than a datagram holds sends several. Whether the call was refused. */
static int ask(struct bizhgemu_queue *q, uint64_t ms)
{
	uint8_t packet[12 + BIZHGEMU_NACK_BYTES(G)];
	const struct bizhgemu_polled_wire nack = bizhgemu_queue_nack_wire(q, ms * MS, packet + 12, sizeof packet - 12);
	if (nack.bytes == 0)
		return nack.refusal != 0;
	const size_t length = 12 + nack.bytes;
	packet[0] = 0x81; /* version 2, no padding, format 1: generic NACK */
	packet[1] = 205; /* transport-layer feedback */
	put(packet + 2, (uint32_t)(length / 4 - 1), 2);
	put(packet + 4, OWN_SSRC, 4);
	put(packet + 8, SSRC, 4);
	printf("%3d ms  RTCP", (int)ms);
	for (size_t i = 0; i < length; i++)
		printf("%s%02x", i % 4 ? "" : " ", packet[i]);
	printf("\n");
	return 0;
}

static int figures(struct bizhgemu_queue *q)
{
	const struct bizhgemu_figures f = bizhgemu_queue_figures(q);
	const struct bizhgemu_rtx_stats r = bizhgemu_queue_rtx_stats(q);
	const struct bizhgemu_highest h = bizhgemu_queue_highest(q);
	printf("received %d, dropped %d, lost %d, loss %.4f, jitter %.3f ms\n", (int)f.packets_received, (int)f.packets_dropped,
		(int)f.packets_lost, (double)f.loss, (double)f.jitter / 1e6);
	printf("repairs in time %d, redundant %d, too late %d, round trip %.3f ms\n", (int)r.packets_received_in_time,
		(int)r.packets_received_redundant, (int)r.packets_received_too_late, (double)r.rtt / 1e6);
	printf("highest %d\n", (int)h.number);
	return f.refusal || r.refusal || h.refusal;
}

/* Opens the queue; whether that was refused. */
static int open_in(struct bizhgemu_queue *q, struct bizhgemu_config config, uint32_t mode)
{
	config.mode = mode;
	const uint64_t refusal = bizhgemu_queue_open(q, config).refusal;
	if (refusal)
		fprintf(stderr, "opening refused under %d\n", (int)refusal);
	return refusal != 0;
}

/* What a call at an instant is refused under, or 0. */
static int refusal_at(struct bizhgemu_queue *q, uint64_t now)
{
	uint8_t payload[BIZHGEMU_LONGEST_PAYLOAD];
	return (int)bizhgemu_queue_poll(q, now, payload, sizeof payload).refusal;
}

int main(void)
{
	struct bizhgemu_queue q = {
		.entries = entries, .entries_len = BIZHGEMU_ENTRIES(D),
		.payloads = payloads, .payloads_len = BIZHGEMU_PAYLOADS(D),
		.gaps = gaps, .gaps_len = BIZHGEMU_GAPS(G),
		.remembered = remembered, .remembered_len = BIZHGEMU_REMEMBERED,
	};
	const struct bizhgemu_config config = {
		.delay = 60 * MS, .initial_nack_delay = 5 * MS, .default_nack_resend_delay = 20 * MS,
		.min_delay = 30 * MS, .max_delay = 200 * MS, .target_recovery = 9900, /* looked at in BIZHGEMU_DYNAMIC alone */
		.max_entries = D, .max_gaps = G, .clock_rate = 8000, .max_nack_attempts = 3,
		.pt = PT, .ssrc = SSRC, .has_rtx = 1, .rtx_pt = RTX_PT, .rtx_ssrc = RTX_SSRC,
	};
	if (open_in(&q, config, BIZHGEMU_SORTED_QUEUE))
		return 1;

	int failed = 0;
	push(&q, 0, 65534, SSRC);
	push(&q, 20, 65535, SSRC);
	push(&q, 60, 1, SSRC); /* 0 is missing */
	failed |= wake(&q, 60);
	failed |= wake(&q, 65);
	push_rtx(&q, 75, 0);
	push_rtx(&q, 76, 0); /* twice */
	push(&q, 80, 2, SSRC ^ 1); /* one bit of the sender turned over */
	push(&q, 80, 2, SSRC);
	push(&q, 81, 2, SSRC); /* twice */
	failed |= wake(&q, 81);
	failed |= wake(&q, 100);
	failed |= wake(&q, 120);
	failed |= wake(&q, 140);
	push_rtx(&q, 141, 0); /* handed out long since */
	failed |= figures(&q);

	printf("with a dynamic delay\n");
	if (open_in(&q, config, BIZHGEMU_DYNAMIC))
		return 1;
	push(&q, 0, 65534, SSRC);
	failed |= wake(&q, 30);
	failed |= push_together(&q, 60);
	failed |= wake(&q, 60);
	failed |= wake(&q, 70);
	failed |= wake(&q, 90);

	printf("in passthrough\n");
	if (open_in(&q, config, BIZHGEMU_PASSTHROUGH))
		return 1;
	push(&q, 0, 65534, SSRC);
	failed |= wake(&q, 0);
	push(&q, 20, 1, SSRC); /* 65535 and 0 are missing */
	failed |= ask(&q, 20);
	failed |= ask(&q, 25);
	printf("refusal at the latest instant: %d\n", refusal_at(&q, BIZHGEMU_LATEST));
	printf("refusal one later: %d\n", refusal_at(&q, BIZHGEMU_LATEST + 1));
	return failed;
}
