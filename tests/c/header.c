/* The header against the archive: its macros, structs and numbers are tried on the functions themselves, not on another copy of them. */

#include "bizhgemu.h"

#include <stddef.h>
#include <stdio.h>
#include <string.h>

enum { D = 4, G = 999, PT = 5, RTX_PT = 98 };
static const uint32_t SSRC = 0x01020304, RTX_SSRC = 0x05060708;
static const uint64_t MS = 1000000;

static uint64_t entries[BIZHGEMU_ENTRIES(D)];
static uint8_t payloads[BIZHGEMU_PAYLOADS(D)];
static uint64_t gaps[BIZHGEMU_GAPS(G)];
static uint64_t remembered[BIZHGEMU_REMEMBERED];
static uint8_t out[BIZHGEMU_LONGEST_PAYLOAD];
static uint16_t numbers[G];
static uint8_t wire[BIZHGEMU_NACK_BYTES(G)];
static struct bizhgemu_queue q;
static int checks, failures;

#define IS(value, expected) is(#value, (uint64_t)(value), (uint64_t)(expected), __LINE__)

static void is(const char *what, uint64_t value, uint64_t expected, int line)
{
	checks++;
	if (value != expected) {
		failures++;
		printf("header.c:%d: %s is %llu, not %llu\n", line, what, (unsigned long long)value, (unsigned long long)expected);
	}
}

/* Every setting another value. */
static struct bizhgemu_config settings(void)
{
	struct bizhgemu_config c = bizhgemu_default_config(PT, SSRC);
	c.delay = 90 * MS;
	c.initial_nack_delay = 7 * MS;
	c.default_nack_resend_delay = 33 * MS;
	c.max_entries = D;
	c.max_gaps = G;
	c.clock_rate = 16000;
	c.max_nack_attempts = 2;
	c.has_rtx = 1;
	c.rtx_ssrc = RTX_SSRC;
	c.rtx_pt = RTX_PT;
	return c;
}

static uint64_t open_with(struct bizhgemu_config c)
{
	memset(&q, 0, sizeof q);
	q.entries = entries;
	q.entries_len = BIZHGEMU_ENTRIES(D);
	q.payloads = payloads;
	q.payloads_len = BIZHGEMU_PAYLOADS(D);
	q.gaps = gaps;
	q.gaps_len = BIZHGEMU_GAPS(G);
	q.remembered = remembered;
	q.remembered_len = BIZHGEMU_REMEMBERED;
	return bizhgemu_queue_open(&q, c).refusal;
}

/* Bytes of a datagram: a header of 12 bytes, then `size` bytes that count from 1. */
static const uint8_t *datagram(uint8_t pt, uint16_t number, uint32_t timestamp, uint32_t ssrc, size_t size)
{
	static uint8_t bytes[12 + 400];
	const uint32_t words[2] = {timestamp, ssrc};
	bytes[0] = 0x80;
	bytes[1] = pt;
	bytes[2] = (uint8_t)(number >> 8);
	bytes[3] = (uint8_t)number;
	for (int i = 0; i < 8; i++)
		bytes[4 + i] = (uint8_t)(words[i / 4] >> (24 - 8 * (i % 4)));
	for (size_t i = 0; i < size; i++)
		bytes[12 + i] = (uint8_t)(i + 1);
	return bytes;
}

static struct bizhgemu_pushed push(uint64_t ms, uint16_t number, uint32_t timestamp, size_t size)
{
	return bizhgemu_queue_push(&q, ms * MS, datagram(PT, number, timestamp, SSRC, size), 12 + size);
}

/* A repair of a number: two bytes of it, then `size` of payload. */
static struct bizhgemu_pushed repair(uint64_t ms, uint16_t number, uint32_t timestamp, size_t size)
{
	uint8_t bytes[12 + 2 + 16];
	memcpy(bytes, datagram(RTX_PT, 1, timestamp, RTX_SSRC, size + 2), 12 + 2 + size);
	bytes[12] = (uint8_t)(number >> 8);
	bytes[13] = (uint8_t)number;
	return bizhgemu_queue_push_rtx(&q, ms * MS, bytes, 12 + 2 + size);
}

static struct bizhgemu_polled poll(uint64_t ms)
{
	return bizhgemu_queue_poll(&q, ms * MS, out, sizeof out);
}

static struct bizhgemu_polled_nack nack(uint64_t ms)
{
	return bizhgemu_queue_poll_nack(&q, ms * MS, numbers, G);
}

static void lengths(void)
{
	for (size_t d = 1; d <= 1024; d++)
		for (size_t g = 999; g <= 4096; g += 163) {
			const struct bizhgemu_lengths l = bizhgemu_lengths(d, g);
			IS(l.refusal, BIZHGEMU_ACCEPTED);
			IS(l.entries, BIZHGEMU_ENTRIES(d));
			IS(l.payloads, BIZHGEMU_PAYLOADS(d));
			IS(l.gaps, BIZHGEMU_GAPS(g));
			IS(l.remembered, BIZHGEMU_REMEMBERED);
		}
	IS(bizhgemu_lengths(1025, 999).refusal, BIZHGEMU_REFUSED_SETTINGS);
	IS(bizhgemu_lengths(1, 998).refusal, BIZHGEMU_REFUSED_SETTINGS);
}

/* The settings line: its fields in their order, what is written behind it, and a line of each refusal. */
static void settings_line(void)
{
	const char fields[] = "           2           2       11000          12        1013           0          15          16           4"
		"          18          19          20\n";
	uint8_t line[BIZHGEMU_SETTINGS_LINE + 1];
	line[BIZHGEMU_SETTINGS_LINE] = 7;
	struct bizhgemu_settings s;
	memset(&s, 0, sizeof s);
	s.mode = 2;
	s.clock_rate = 11000;
	s.max_entries = 12;
	s.max_gaps = 1013;
	s.initial_nack_delay = 15;
	s.default_nack_resend_delay = 16;
	s.max_nack_attempts = 4;
	s.min_delay = 18;
	s.max_delay = 19;
	s.target_recovery = 20;
	const struct bizhgemu_settings_written w = bizhgemu_write_settings(s, line, sizeof line);
	IS(w.refusal, 0);
	IS(w.bytes, BIZHGEMU_SETTINGS_LINE);
	IS(memcmp(line, fields, BIZHGEMU_SETTINGS_LINE), 0);
	IS(line[BIZHGEMU_SETTINGS_LINE], 7);
	const struct bizhgemu_settings_read r = bizhgemu_read_settings(line, BIZHGEMU_SETTINGS_LINE);
	IS(r.refusal, 0);
	IS(memcmp(&r.settings, &s, offsetof(struct bizhgemu_settings, mode) + sizeof s.mode), 0);
	IS(bizhgemu_write_settings(s, line, BIZHGEMU_SETTINGS_LINE - 1).refusal, BIZHGEMU_REFUSED_OUTPUT);
	IS(bizhgemu_read_settings(line, BIZHGEMU_SETTINGS_LINE - 1).refusal, BIZHGEMU_REFUSED_SETTINGS_LINE);
	IS(bizhgemu_read_settings(line, 11).refusal, BIZHGEMU_REFUSED_LINE_VERSION);
	s.delay = 14;
	IS(bizhgemu_write_settings(s, line, sizeof line).refusal, BIZHGEMU_REFUSED_SETTINGS);
	s.mode = BIZHGEMU_SORTED_QUEUE;
	IS(bizhgemu_write_settings(s, line, sizeof line).refusal, BIZHGEMU_REFUSED_SETTINGS);
	s.min_delay = s.max_delay = s.target_recovery = 0;
	IS(bizhgemu_write_settings(s, line, sizeof line).refusal, 0);
	s.mode = 3;
	IS(bizhgemu_write_settings(s, line, sizeof line).refusal, BIZHGEMU_REFUSED_SETTINGS);
}

static void limits(void)
{
	IS(open_with(settings()), 0);
	IS(push(0, 1, 0, BIZHGEMU_LONGEST_PAYLOAD).refusal, 0);
	IS(push(0, 2, 0, BIZHGEMU_LONGEST_PAYLOAD + 1).refusal, BIZHGEMU_REFUSED_PAYLOAD_TOO_LARGE);
	IS(bizhgemu_queue_poll(&q, 0, out, BIZHGEMU_LONGEST_PAYLOAD - 1).refusal, BIZHGEMU_REFUSED_OUTPUT);
	IS(bizhgemu_queue_poll(&q, 0, out, BIZHGEMU_LONGEST_PAYLOAD).refusal, 0);
	IS(bizhgemu_queue_timeout(&q, BIZHGEMU_LATEST).refusal, 0);
	IS(bizhgemu_queue_timeout(&q, BIZHGEMU_LATEST + 1).refusal, BIZHGEMU_REFUSED_CLOCK);
	IS(bizhgemu_queue_poll(&q, BIZHGEMU_LATEST, out, sizeof out).packet.size, BIZHGEMU_LONGEST_PAYLOAD);
}

/* A setting out of its range is seen by the archive in the field that the header has for it. */
static void ranges(void)
{
#define RANGE(field, value) do { \
	struct bizhgemu_config c = settings(); \
	IS(open_with(c), 0); \
	c.field = (value); \
	IS(open_with(c), BIZHGEMU_REFUSED_SETTINGS); \
} while (0)
	RANGE(delay, 60000 * MS + 1);
	RANGE(initial_nack_delay, 60000 * MS + 1);
	RANGE(default_nack_resend_delay, 60000 * MS + 1);
	RANGE(max_entries, 0);
	RANGE(max_gaps, 998);
	RANGE(clock_rate, 1000001);
	RANGE(max_nack_attempts, 256);
	RANGE(mode, BIZHGEMU_DYNAMIC + 1);
	RANGE(has_rtx, 2);
	RANGE(pt, 128);
	RANGE(rtx_pt, 128);
#undef RANGE
#define DYNAMIC_RANGE(field, value) do { \
	struct bizhgemu_config c = settings(); \
	c.field = (value); \
	IS(open_with(c), 0); \
	c.mode = BIZHGEMU_DYNAMIC; \
	IS(open_with(c), BIZHGEMU_REFUSED_SETTINGS); \
} while (0)
	DYNAMIC_RANGE(min_delay, 400 * MS + 1);
	DYNAMIC_RANGE(max_delay, 60000 * MS + 1);
	DYNAMIC_RANGE(target_recovery, 10000);
	DYNAMIC_RANGE(max_nack_attempts, 5);
#undef DYNAMIC_RANGE
	struct bizhgemu_config c = settings();
	c.max_entries = D + 1;
	IS(open_with(c), BIZHGEMU_REFUSED_SESSION);
}

static void defaults(void)
{
	const struct bizhgemu_config c = bizhgemu_default_config(PT, SSRC);
	static uint64_t e[BIZHGEMU_ENTRIES(100)];
	static uint8_t p[BIZHGEMU_PAYLOADS(100)];
	const struct bizhgemu_opened r = bizhgemu_open(c, e, BIZHGEMU_ENTRIES(100), p, BIZHGEMU_PAYLOADS(100), gaps, BIZHGEMU_GAPS(999),
		remembered, BIZHGEMU_REMEMBERED);
	IS(r.refusal, 0);
	IS(r.session.config.ssrc, SSRC);
	IS(r.session.config.pt, PT);
	IS(bizhgemu_two_bits_apart(c), 1);
	struct bizhgemu_config rtx = settings();
	rtx.rtx_ssrc = rtx.ssrc;
	rtx.rtx_pt = PT ^ 1;
	IS(bizhgemu_two_bits_apart(rtx), 0);
	rtx.rtx_pt = PT;
	IS(bizhgemu_two_bits_apart(rtx), 0);
	rtx.rtx_pt = PT ^ 3;
	IS(bizhgemu_two_bits_apart(rtx), 1);
	rtx.rtx_pt = PT ^ 1;
	rtx.rtx_ssrc = rtx.ssrc ^ 0x80000000u;
	IS(bizhgemu_two_bits_apart(rtx), 1);
	rtx.rtx_pt = PT;
	IS(bizhgemu_two_bits_apart(rtx), 0);
}

/* 10 and 13 come, 12 is repaired, 11 is lost; every field of session and answers has a value of its own. */
static void fields(void)
{
	IS(open_with(settings()), 0);
	struct bizhgemu_pushed r = push(1, 10, 0x11223344, 20);
	IS(r.refusal, 0);
	IS(r.answer, BIZHGEMU_QUEUED);
	IS(push(20, 13, 0x11223344 + 960, 3).answer, BIZHGEMU_QUEUED);
	IS(push(21, 13, 0x11223344 + 960, 3).answer, BIZHGEMU_DROPPED);
	IS(bizhgemu_timeout_receive(q.session, BIZHGEMU_LENT(&q), 21 * MS).timeout, 29 * MS);
	IS(bizhgemu_timeout_nack(q.session, BIZHGEMU_LENT(&q), 21 * MS).timeout, 6 * MS);
	IS(nack(27).count, 2);
	IS(numbers[0], 11);
	IS(numbers[1], 12);
	IS(bizhgemu_timeout_nack(q.session, BIZHGEMU_LENT(&q), 27 * MS).timeout, 33 * MS);
	IS(repair(29, 12, 0x11223344 + 640, 7).answer, BIZHGEMU_RECOVERED);
	IS(repair(29, 12, 0x11223344 + 640, 7).answer, BIZHGEMU_REDUNDANT);
	IS(repair(29, 12, 0x11223344 + 640, 7).answer, BIZHGEMU_REDUNDANT);

	struct bizhgemu_polled first = poll(91);
	IS(first.has_packet, 1);
	IS(first.packet.has_received_at, 1);
	IS(first.packet.received_at, 1 * MS);
	IS(first.packet.delay, 90 * MS);
	IS(first.packet.size, 20);
	IS(first.packet.timestamp, 0x11223344);
	IS(first.packet.ssrc, SSRC);
	IS(first.packet.sequence_number, 10);
	IS(first.packet.pt, PT);
	IS(first.packet.marker, 0);
	IS(out[19], 20);
	first = poll(111);
	IS(first.packet.has_received_at, 0);
	IS(first.packet.sequence_number, 12);
	IS(repair(112, 11, 0x11223344 + 320, 1).answer, BIZHGEMU_TOO_LATE);

	const struct bizhgemu_session *s = &q.session;
	IS(s->clock, 112 * MS);
	IS(s->has_last, 1);
	IS(s->last_instant, 20 * MS);
	IS(s->last_timestamp & 0xffffffff, 0x11223344 + 960);
	IS(s->last_number & 0xffff, 13);
	IS(s->has_returned, 1);
	IS(s->returned & 0xffff, 12);
	IS(s->has_rtt, 1);
	IS(s->rtx_in_time, 1);
	IS(s->rtx_too_late, 1);
	IS(s->rtx_redundant, 2);
	IS(s->rtx_bytes, 7);
	IS(s->dropped, 1);
	IS(s->received, 2);
	IS(s->bytes, 23);
	IS(s->lost, 1);
	IS(s->entries, 1);
	IS(s->gaps, 0);
	double rate;
	float loss;
	memcpy(&rate, &s->jitter_clock_rate_bits, sizeof rate);
	memcpy(&loss, &s->loss_bits, sizeof loss);
	IS(rate, 16000);

	const struct bizhgemu_figures f = bizhgemu_queue_figures(&q);
	IS(f.packets_received, 2);
	IS(f.packets_dropped, 1);
	IS(f.packets_lost, 1);
	IS(f.bytes_received, 23);
	IS(f.loss == loss && loss > 0, 1);
	IS(f.jitter > 0, 1);
	const struct bizhgemu_rtx_stats x = bizhgemu_queue_rtx_stats(&q);
	IS(x.has_stats, 1);
	IS(x.packets_received_in_time, 1);
	IS(x.packets_received_too_late, 1);
	IS(x.packets_received_redundant, 2);
	IS(x.bytes_received, 7);
	IS(x.has_rtt, 1);
	IS(x.rtt, s->srtt);
	const struct bizhgemu_highest h = bizhgemu_queue_highest(&q);
	IS(h.has_number, 1);
	IS(h.number, s->last_number);
}

/* Four datagrams in one buffer: 10, eleven bytes that are none, 12, and 10 once more. */
static void bursts(void)
{
	uint8_t buffer[13 + 11 + 13 + 13 + 5];
	uint64_t ends[4] = {13, 24, 37, 50};
	uint8_t answers[5] = {9, 9, 9, 9, 9};
	memset(buffer, 0x80, sizeof buffer);
	memcpy(buffer, datagram(PT, 10, 0, SSRC, 1), 13);
	memcpy(buffer + 24, datagram(PT, 12, 320, SSRC, 1), 13);
	memcpy(buffer + 37, datagram(PT, 10, 0, SSRC, 1), 13);
	IS(open_with(settings()), 0);
	struct bizhgemu_pushed_burst r = bizhgemu_queue_push_burst(&q, MS, buffer, sizeof buffer, ends, 4, answers, 5);
	IS(r.refusal, 0);
	IS(r.answers, 4);
	IS(answers[0], BIZHGEMU_ANSWER_QUEUED);
	IS(answers[1], BIZHGEMU_REFUSED_TRUNCATED);
	IS(answers[2], BIZHGEMU_ANSWER_QUEUED);
	IS(answers[3], BIZHGEMU_ANSWER_DROPPED);
	IS(answers[4], 9);
	IS(q.session.entries, 2);
	IS(q.session.gaps, 1);
	IS(q.session.clock, MS);
	IS(bizhgemu_queue_push_burst(&q, MS, buffer, sizeof buffer, ends, 4, answers, 3).refusal, BIZHGEMU_REFUSED_OUTPUT);
	IS(bizhgemu_queue_push_burst(&q, MS, buffer, 49, ends, 4, answers, 5).refusal, BIZHGEMU_REFUSED_OUTPUT);
	ends[3] = 36;
	IS(bizhgemu_queue_push_burst(&q, MS, buffer, sizeof buffer, ends, 4, answers, 5).refusal, BIZHGEMU_REFUSED_OUTPUT);
	IS(bizhgemu_queue_push_burst(&q, MS, buffer, sizeof buffer, ends, 0, answers, 5).answers, 0);
	IS(bizhgemu_queue_push_burst(&q, 0, buffer, sizeof buffer, ends, 1, answers, 5).answers, 1);
	IS(answers[0], BIZHGEMU_REFUSED_CLOCK);
	IS(q.session.clock, MS);
}

/* Each refusal, reached. */
static void refusals(void)
{
	struct bizhgemu_config c = settings();
	IS(open_with(c), 0);
	IS(repair(0, 1, 0, 0).refusal, BIZHGEMU_REFUSED_NO_MEDIA);
	IS(push(10, 1, 0, 1).refusal, 0);
	IS(bizhgemu_queue_push(&q, 10 * MS, datagram(PT, 2, 0, SSRC, 0), 11).refusal, BIZHGEMU_REFUSED_TRUNCATED);
	uint8_t bytes[13];
	memcpy(bytes, datagram(PT, 2, 0, SSRC, 1), sizeof bytes);
	bytes[0] = 0x40;
	IS(bizhgemu_queue_push(&q, 10 * MS, bytes, sizeof bytes).refusal, BIZHGEMU_REFUSED_VERSION);
	bytes[0] = 0xa0;
	bytes[12] = 2;
	IS(bizhgemu_queue_push(&q, 10 * MS, bytes, sizeof bytes).refusal, BIZHGEMU_REFUSED_PADDING);
	IS(push(10, 2, 0, 321).refusal, BIZHGEMU_REFUSED_PAYLOAD_TOO_LARGE);
	IS(bizhgemu_queue_push(&q, 10 * MS, datagram(PT ^ 1, 2, 0, SSRC, 0), 12).refusal, BIZHGEMU_REFUSED_PAYLOAD_TYPE);
	IS(bizhgemu_queue_push(&q, 10 * MS, datagram(PT, 2, 0, SSRC ^ 1, 0), 12).refusal, BIZHGEMU_REFUSED_SSRC);
	IS(push(9, 2, 0, 1).refusal, BIZHGEMU_REFUSED_CLOCK);
	IS(bizhgemu_queue_push_rtx(&q, 10 * MS, datagram(RTX_PT, 2, 0, RTX_SSRC, 1), 13).refusal, BIZHGEMU_REFUSED_NO_ORIGINAL_NUMBER);
	IS(bizhgemu_queue_poll_nack(&q, 10 * MS, numbers, G - 1).refusal, BIZHGEMU_REFUSED_OUTPUT);
	IS(push(10, 1001, 320, 1).refusal, 0);
	IS(push(10, 1003, 640, 1).refusal, BIZHGEMU_REFUSED_GAPS_FULL);
	for (uint16_t number = 2; number < 2 + 2 * D - 2; number++)
		IS(repair(10, number, 0, 0).refusal, 0);
	IS(repair(10, 900, 0, 0).refusal, BIZHGEMU_REFUSED_ENTRIES_FULL);
	q.session.received = ((uint64_t)1 << 52) - 1;
	IS(push(10, 1002, 640, 1).refusal, BIZHGEMU_REFUSED_COUNT);
	q.session.received++;
	IS(push(10, 1002, 640, 1).refusal, BIZHGEMU_REFUSED_SESSION);
	c.has_rtx = 0;
	IS(open_with(c), 0);
	IS(repair(0, 1, 0, 0).refusal, BIZHGEMU_REFUSED_NO_RTX);
	c.clock_rate = 0;
	IS(open_with(c), BIZHGEMU_REFUSED_SETTINGS);
	const uint8_t cut[] = {0, 1, 0};
	IS(bizhgemu_read_nacks(cut, sizeof cut, numbers, G).refusal, BIZHGEMU_REFUSED_NACK_ENTRIES);
	/* 18 and 19 are none of this version; 22 neither */
	for (uint64_t n = 0; n <= 22; n++)
		for (uint64_t m = 0; m < n; m++)
			IS(strcmp(bizhgemu_refusal_text(n), bizhgemu_refusal_text(m)) == 0, (n == 19 || n == 22) && (m == 18 || m == 19));
}

/* The same stream by both calls: the numbers of the one are those that the entries of the other read back as. */
static void nacks_on_the_wire(void)
{
	uint16_t read[BIZHGEMU_NACK_NUMBERS(BIZHGEMU_NACK_BYTES(G))];
	size_t count = 0, bytes = 0;
	for (int by_wire = 0; by_wire < 2; by_wire++) {
		IS(open_with(settings()), 0);
		IS(push(0, 65530, 0, 1).refusal, 0);
		IS(push(0, 65535, 0, 1).refusal, 0);
		IS(push(0, 20, 0, 1).refusal, 0);
		IS(bizhgemu_queue_nack_wire(&q, 0, wire, sizeof wire - 1).refusal, BIZHGEMU_REFUSED_OUTPUT);
		memset(wire, 0xaa, sizeof wire);
		if (by_wire) {
			const struct bizhgemu_polled_wire r = bizhgemu_queue_nack_wire(&q, 7 * MS, wire, sizeof wire);
			IS(r.refusal, 0);
			bytes = r.bytes;
			IS(q.session.clock, 7 * MS);
			IS(bizhgemu_queue_nack_wire(&q, 7 * MS, wire, sizeof wire).bytes, 0);
		} else {
			count = nack(7).count;
			IS(count, 24);
		}
	}
	static const uint8_t expected[] = {0xff, 0xfb, 0xff, 0xf7, 0, 12, 0, 0x7f, 0xaa};
	IS(bytes, 8);
	IS(memcmp(wire, expected, sizeof expected), 0);
	IS(bizhgemu_read_nacks(wire, bytes, read, BIZHGEMU_NACK_NUMBERS(bytes) - 1).refusal, BIZHGEMU_REFUSED_OUTPUT);
	IS(bizhgemu_read_nacks(wire, bytes, read, BIZHGEMU_NACK_NUMBERS(bytes)).numbers, count);
	IS(memcmp(read, numbers, count * sizeof *read), 0);
}

int main(void)
{
	IS(bizhgemu_version(), BIZHGEMU_VERSION);
	lengths();
	settings_line();
	limits();
	ranges();
	defaults();
	fields();
	bursts();
	refusals();
	nacks_on_the_wire();
	printf("header against archive: %d checks, %d failures\n", checks, failures);
	return failures != 0;
}
