/* The receive queue of one RTP stream: datagrams and instants in; packets, NACK lists and timeouts out.
 *
 * Link libbizhgemu, which `make install` and a release have, or target/staticlib/libffi.a, which `tools/build archive` makes and which is
 * the same; it needs memset, memcpy and memmove alone. C99 or later, x86-64 Linux (level x86-64-v2). docs/USING.md tells how to choose settings and drive the queue. No function allocates, blocks, reads a clock or
 * keeps state of its own: a session is a struct that goes in by value and comes back by value, its storage is four arrays
 * that the caller owns.
 *
 * Look at `refusal` first. A refused call (`refusal` not 0) changes nothing: the session comes back as it was given, word
 * for word (a refused opening gives a session of zeros), and no array is written to. Its answer means nothing: every word of
 * it is 0, also where 0 is BIZHGEMU_QUEUED or BIZHGEMU_RECOVERED, or says that there is no packet or no timeout. After an
 * accepted call every unused place of the storage holds zeros (after a burst, where it accepted a datagram).
 *
 * The caller owes what C cannot check:
 *  - Each pointer is aligned as its type asks, is not NULL, and names live memory of as many ELEMENTS as the length beside it
 *    says; no two of them overlap.
 *  - Each call gets the session and the storage that the call before it left. Damage that row 16 lists (docs/USING.md, "Refusals
 *    in the field") is refused under 16; no other is seen. Not seen are another payload byte, a timestamp or counter within its
 *    range, and a count that is too low: such a call is accepted, and the places beyond the count are cleared. An older copy of a
 *    session beside newer storage may be accepted too.
 *  - Calls on one session come one at a time. Different sessions, each with storage of its own, may be used from different
 *    threads at once. The calls that only read write to the lent storage too; `bizhgemu_figures` alone touches none.
 *  - Floats are rounded to nearest, and subnormal ones are kept, as programs usually start. Another rounding can leave a
 *    session that the next call refuses under 16; flushing subnormals to zero, which linking with -ffast-math may set, changes
 *    the figures.
 * No VALUE makes a call fault, not those of damaged sessions and storage either.
 *
 * Instants are nanoseconds since a start that you choose, not over 52 days back, from a clock that never goes back; at most
 * BIZHGEMU_LATEST. (CLOCK_MONOTONIC counts from the start of the machine: take its reading at your own start off.)
 * Durations are nanoseconds. Flags are words, 0 or 1; a value beside a flag that is 0 is 0 (`rtx_pt` and `rtx_ssrc` stay as
 * they were set).
 *
 * Most programs want `struct bizhgemu_queue` and the functions named bizhgemu_queue_*, at the end of this file. They are C,
 * compiled with your program; what is proved are the functions of the archive. */

#ifndef BIZHGEMU_H
#define BIZHGEMU_H

#include <stddef.h>
#include <stdint.h>

#ifdef __cplusplus
extern "C" {
#endif

/* The version of this header. `bizhgemu_version()` has that of the archive; take both from one commit (docs/VERSIONS.md). */
#define BIZHGEMU_VERSION_MAJOR 0
#define BIZHGEMU_VERSION_MINOR 3
#define BIZHGEMU_VERSION_PATCH 0
#define BIZHGEMU_VERSION (UINT64_C(1000000) * BIZHGEMU_VERSION_MAJOR + 1000 * BIZHGEMU_VERSION_MINOR + BIZHGEMU_VERSION_PATCH)

/* The latest instant: 2^52 - 1, a little over 52 days. */
#define BIZHGEMU_LATEST ((UINT64_C(1) << 52) - 1)

/* The longest payload, in bytes: what `poll` must be lent. */
#define BIZHGEMU_LONGEST_PAYLOAD 320

/* Lengths of the four arrays, in elements, for depth D and most gaps G. Lengths are exact: another one is refused under 16. */
#define BIZHGEMU_ENTRIES(D) (8 * (D))
#define BIZHGEMU_PAYLOADS(D) (640 * (D))
#define BIZHGEMU_GAPS(G) (4 * (G))
#define BIZHGEMU_REMEMBERED 2048

/* The bytes that `nack_wire` must be lent for most gaps G, and the numbers that `read_nacks` must be lent for so many bytes of entries. */
#define BIZHGEMU_NACK_BYTES(G) (4 * (G))
#define BIZHGEMU_NACK_NUMBERS(BYTES) (17 * ((BYTES) / 4))

/* The bytes of a settings line. */
#define BIZHGEMU_SETTINGS_LINE 145

/* Why a call was turned back; `bizhgemu_refusal_text` has it in words. More numbers may come (18 and 19 are planned), so let a
 * switch have a default. Checks run in the order of docs/USING.md, "Refusals in the field", not of these numbers; there
 * it also says what to do about each. Below, "2 to 7" stands for 2 (under 12 bytes), 3, 2 (CSRCs and extension), 4, 5, 6, 7. */
enum bizhgemu_refusal {
	BIZHGEMU_ACCEPTED = 0,
	BIZHGEMU_REFUSED_SETTINGS = 1,            /* a setting is out of its range */
	BIZHGEMU_REFUSED_TRUNCATED = 2,           /* the datagram ends within its header */
	BIZHGEMU_REFUSED_VERSION = 3,             /* the datagram is not RTP version 2 */
	BIZHGEMU_REFUSED_PADDING = 4,             /* its count of padding bytes cannot be right */
	BIZHGEMU_REFUSED_PAYLOAD_TOO_LARGE = 5,   /* payload over 320 bytes, of a repair over 322 */
	BIZHGEMU_REFUSED_PAYLOAD_TYPE = 6,        /* payload type not the session's */
	BIZHGEMU_REFUSED_SSRC = 7,                /* SSRC not the session's */
	BIZHGEMU_REFUSED_CLOCK = 8,               /* instant before that of an accepted push or poll, or above BIZHGEMU_LATEST */
	BIZHGEMU_REFUSED_NO_RTX = 9,              /* repair for a session without RTX */
	BIZHGEMU_REFUSED_NO_MEDIA = 10,           /* repair before any media packet */
	BIZHGEMU_REFUSED_NO_ORIGINAL_NUMBER = 11, /* repair with a payload under 2 bytes */
	BIZHGEMU_REFUSED_GAPS_FULL = 12,          /* more gaps than max_gaps would be open */
	BIZHGEMU_REFUSED_ENTRIES_FULL = 13,       /* repair with 2 * max_entries packets waiting */
	BIZHGEMU_REFUSED_COUNT = 14,              /* a number, timestamp or counter would pass 2^52 - 1, or a NACK count 2^32 - 1 */
	BIZHGEMU_REFUSED_OUTPUT = 15,             /* lent output under 320 bytes, max_gaps numbers, 4 * max_gaps bytes; settings line of 145; list under 17 numbers for each four bytes; of a burst: ends that fall or pass the buffer, a short list */
	BIZHGEMU_REFUSED_SESSION = 16,            /* session or storage that no call leaves, as far as row 16 sees it, or not of these settings */
	BIZHGEMU_REFUSED_NACK_ENTRIES = 17,       /* entries of a NACK that are not a multiple of 4 bytes */
	BIZHGEMU_REFUSED_SETTINGS_LINE = 20,      /* settings line of another length or without its line feed, or a field that is no number */
	BIZHGEMU_REFUSED_LINE_VERSION = 21        /* settings line that does not begin with eleven blanks and version 1 or 2 */
};

/* `mode` of the settings. */
enum bizhgemu_mode {
	BIZHGEMU_PASSTHROUGH = 0,  /* packets are handed out at once; late ones come out of order */
	BIZHGEMU_SORTED_QUEUE = 1, /* in order, `delay` after their time */
	BIZHGEMU_DYNAMIC = 2       /* in order, after their time by a delay that follows jitter, loss and round trip */
};

/* `answer` to a media packet, and to a repair, where `refusal` is 0. */
enum bizhgemu_media { BIZHGEMU_QUEUED = 0, BIZHGEMU_DROPPED = 1 };
enum bizhgemu_repair { BIZHGEMU_RECOVERED = 0, BIZHGEMU_REDUNDANT = 1, BIZHGEMU_TOO_LATE = 2 };

/* The answer numbers of a burst's datagrams; any other is the number of a refusal. */
enum bizhgemu_burst_answer { BIZHGEMU_ANSWER_QUEUED = 0, BIZHGEMU_ANSWER_DROPPED = 255 };

/* The settings. Every field is checked at the opening, used by the mode or not, but for the three that BIZHGEMU_DYNAMIC alone has. */
struct bizhgemu_config {
	/* Durations in nanoseconds, each at most 60,000,000,000. */
	uint64_t delay;                     /* sorted: from when a packet was due, by its timestamp, to its hand-out */
	uint64_t initial_nack_delay;        /* from the detection of a gap to its first NACK */
	uint64_t default_nack_resend_delay; /* from one NACK to the next while no round trip was measured; after that it is the
	                                     * round trip's own, at least a millisecond */
	/* Of BIZHGEMU_DYNAMIC alone; in another mode they are not looked at, and are 0 in a session. */
	uint64_t min_delay;                 /* shortest delay, not above the longest */
	uint64_t max_delay;                 /* longest delay */
	uint64_t target_recovery;           /* of ten thousand losses, how many the NACKs are to recover: 0 to 9,999 */
	/* Sizes: they set the lengths of the storage. */
	size_t max_entries;                 /* depth D: packets kept, 1 to 1,024 */
	size_t max_gaps;                    /* G: most missing numbers at a time, 999 to 4,096 */
	uint32_t clock_rate;                /* of the RTP timestamps, 1 to 1,000,000 Hz */
	uint32_t max_nack_attempts;         /* passthrough: NACKs after which a number is given up, 1 to 255; dynamic: most NACKs that
	                                     * the delay leaves time for, 1 to 4 */
	uint32_t mode;                      /* enum bizhgemu_mode */
	uint32_t has_rtx;                   /* whether the sender answers NACKs by repairs (RFC 4588), 0 or 1 */
	/* Whose packets the session takes: SSRC, and payload type from 0 to 127, of media and of repairs. */
	uint32_t ssrc;
	uint32_t rtx_ssrc;
	uint8_t pt;
	uint8_t rtx_pt;
};

/* A session: everything but the storage. Readable by anyone, changed by the calls alone. */
struct bizhgemu_session {
	struct bizhgemu_config config;
	uint64_t clock;             /* the instant of the latest accepted push or poll */
	/* The media packet with the highest number: when it came, its extended timestamp and number. */
	uint64_t has_last;
	uint64_t last_instant;
	uint64_t last_timestamp;
	uint64_t last_number;
	/* The extended number last handed out or pushed out. */
	uint64_t has_returned;
	uint64_t returned;
	/* The round trip from a NACK to its repair, smoothed, and its variation. */
	uint64_t has_rtt;
	uint64_t srtt;
	uint64_t variation;
	/* Repairs: how many came in time, too late, and others of numbers not missing; payload bytes of those in time. */
	uint64_t rtx_in_time;
	uint64_t rtx_too_late;
	uint64_t rtx_redundant;
	uint64_t rtx_bytes;
	/* Media dropped and packets pushed out, repairs too; media queued, their payload bytes; numbers given up. */
	uint64_t dropped;
	uint64_t received;
	uint64_t bytes;
	uint64_t lost;
	/* The bits of two doubles: the running jitter, in ticks of the clock rate beside it. `bizhgemu_figures` has it as a time. */
	uint64_t jitter_clock_rate_bits;
	uint64_t jitter_bits;
	/* How many packets wait, numbers are missing, lost numbers are remembered. */
	size_t entries;
	size_t gaps;
	size_t remembered;
	/* The bits of a float: the running loss, 0 to 1. `bizhgemu_figures` has it as a float. */
	uint32_t loss_bits;
};

struct bizhgemu_opened {
	uint64_t refusal;
	struct bizhgemu_session session;
};

/* What became of a datagram: `answer` is of enum bizhgemu_media or enum bizhgemu_repair, and 0 beside a refusal. */
struct bizhgemu_pushed {
	uint64_t refusal;
	uint64_t answer;
	struct bizhgemu_session session;
};

/* Of a burst: how many answer numbers stand in `answers`, one for each datagram. */
struct bizhgemu_pushed_burst {
	uint64_t refusal;
	size_t answers;
	struct bizhgemu_session session;
};

/* A packet that is handed out; its payload is in the lent output. A repair has its original number, and payload type and
 * SSRC of media. */
struct bizhgemu_packet {
	uint64_t has_received_at; /* 0 for a repair */
	uint64_t received_at;     /* when it came */
	uint64_t delay;           /* for how long the queue keeps packets; 0 in passthrough */
	size_t size;              /* of the payload, 0 to 320 bytes */
	uint32_t timestamp;
	uint32_t ssrc;
	uint16_t sequence_number;
	uint8_t pt;
	uint8_t marker;
};

struct bizhgemu_polled {
	uint64_t refusal;
	uint64_t has_packet;
	struct bizhgemu_packet packet;
	struct bizhgemu_session session;
};

/* `count` numbers are in the lent output; 0: nothing is due. */
struct bizhgemu_polled_nack {
	uint64_t refusal;
	size_t count;
	struct bizhgemu_session session;
};

/* `bytes` bytes are in the lent output, four to an entry; 0: nothing is due. */
struct bizhgemu_polled_wire {
	uint64_t refusal;
	size_t bytes;
	struct bizhgemu_session session;
};

/* `numbers` numbers are in the lent list. */
struct bizhgemu_read_numbers {
	uint64_t refusal;
	size_t numbers;
};

/* The time from `now` until a packet or a NACK should be asked for; there may be none then (docs/USING.md). No timeout:
 * nothing to wait for, or beside a refusal nothing told. */
struct bizhgemu_timeout {
	uint64_t refusal;
	uint64_t has_timeout;
	uint64_t timeout;
};

/* The figures of repairs; none in a session without RTX. */
struct bizhgemu_rtx_stats {
	uint64_t refusal;
	uint64_t has_stats;
	uint64_t packets_received_in_time;
	uint64_t packets_received_too_late;
	uint64_t packets_received_redundant;
	uint64_t bytes_received;
	uint64_t has_rtt;
	uint64_t rtt; /* nanoseconds */
};

/* An extended number. */
struct bizhgemu_highest {
	uint64_t refusal;
	uint64_t has_number;
	uint64_t number;
};

/* The figures a box shows. */
struct bizhgemu_figures {
	uint64_t refusal;
	uint64_t packets_received;
	uint64_t packets_dropped;
	uint64_t packets_lost;
	uint64_t bytes_received;
	uint64_t jitter; /* nanoseconds */
	float loss;      /* 0 to 1; a repaired packet counts as lost */
};

/* The settings that a line keeps: those of struct bizhgemu_config without its senders, each with the same meaning and range. */
struct bizhgemu_settings {
	uint64_t delay;                     /* 0 outside BIZHGEMU_SORTED_QUEUE, or there is no line */
	uint64_t initial_nack_delay;
	uint64_t default_nack_resend_delay;
	uint64_t min_delay;                 /* these three: of BIZHGEMU_DYNAMIC; 0 in another mode, or there is no line */
	uint64_t max_delay;
	uint64_t target_recovery;
	size_t max_entries;
	size_t max_gaps;
	uint32_t clock_rate;
	uint32_t max_nack_attempts;
	uint32_t mode;
};

struct bizhgemu_settings_read {
	uint64_t refusal;
	struct bizhgemu_settings settings; /* zeros beside a refusal */
};

/* `bytes` bytes of the lent output are the line. */
struct bizhgemu_settings_written {
	uint64_t refusal;
	size_t bytes;
};

/* Lengths of the four arrays, in elements. */
struct bizhgemu_lengths {
	uint64_t refusal;
	size_t entries;
	size_t payloads;
	size_t gaps;
	size_t remembered;
};

#if defined(__cplusplus)
#define BIZHGEMU_SIZE(NAME, BYTES) static_assert(sizeof(struct NAME) == (BYTES), "layout of " #NAME)
#elif defined(__STDC_VERSION__) && __STDC_VERSION__ >= 201112L
#define BIZHGEMU_SIZE(NAME, BYTES) _Static_assert(sizeof(struct NAME) == (BYTES), "layout of " #NAME)
#else
#define BIZHGEMU_SIZE(NAME, BYTES) typedef char NAME##_has_its_size[sizeof(struct NAME) == (BYTES) ? 1 : -1]
#endif
BIZHGEMU_SIZE(bizhgemu_config, 96);
BIZHGEMU_SIZE(bizhgemu_session, 288);
BIZHGEMU_SIZE(bizhgemu_opened, 296);
BIZHGEMU_SIZE(bizhgemu_pushed, 304);
BIZHGEMU_SIZE(bizhgemu_pushed_burst, 304);
BIZHGEMU_SIZE(bizhgemu_packet, 48);
BIZHGEMU_SIZE(bizhgemu_polled, 352);
BIZHGEMU_SIZE(bizhgemu_polled_nack, 304);
BIZHGEMU_SIZE(bizhgemu_polled_wire, 304);
BIZHGEMU_SIZE(bizhgemu_read_numbers, 16);
BIZHGEMU_SIZE(bizhgemu_timeout, 24);
BIZHGEMU_SIZE(bizhgemu_rtx_stats, 64);
BIZHGEMU_SIZE(bizhgemu_highest, 24);
BIZHGEMU_SIZE(bizhgemu_figures, 56);
BIZHGEMU_SIZE(bizhgemu_settings, 80);
BIZHGEMU_SIZE(bizhgemu_settings_read, 88);
BIZHGEMU_SIZE(bizhgemu_settings_written, 16);
BIZHGEMU_SIZE(bizhgemu_lengths, 40);
#undef BIZHGEMU_SIZE

/* The parameters that stand for the storage: a pointer and a count of elements for each array. */
#define BIZHGEMU_STORAGE \
	uint64_t *entries, size_t entries_len, uint8_t *payloads, size_t payloads_len, \
	uint64_t *gaps, size_t gaps_len, uint64_t *remembered, size_t remembered_len

/* The version of the archive: 1,000,000 * major + 1,000 * minor + patch, as BIZHGEMU_VERSION. */
uint64_t bizhgemu_version(void);

/* How long the four arrays must be. Refused under 1 where max_entries or max_gaps is out of its range. */
struct bizhgemu_lengths bizhgemu_lengths(size_t max_entries, size_t max_gaps);

/* Reads settings kept as a line of text: version, mode, clock rate, max_entries, max_gaps, delay, initial_nack_delay,
 * default_nack_resend_delay, max_nack_attempts, min_delay, max_delay, target_recovery, each decimal and right-justified after blanks in 12
 * columns, and a line feed, 145 bytes. Version 1 has modes 0 and 1 and in place of the last three one number, which is discarded: 121 bytes.
 * Refused under 21, 20, 1. */
struct bizhgemu_settings_read bizhgemu_read_settings(const uint8_t *line, size_t line_len);

/* Writes the line of these settings, always of version 2, to the front of `out`, of at least BIZHGEMU_SETTINGS_LINE bytes; what lies behind it
 * there is kept. It reads back to the same settings, and no other line of version 2 does. Refused under 1, 15. */
struct bizhgemu_settings_written bizhgemu_write_settings(struct bizhgemu_settings settings, uint8_t *out, size_t out_len);

/* Opens a session and clears its storage. Refused under 1 for a setting, then under 16 for a length. */
struct bizhgemu_opened bizhgemu_open(struct bizhgemu_config config, BIZHGEMU_STORAGE);

/* Takes a media datagram, header and all. Refused under 16, 8, 2 to 7, 14, 12. */
struct bizhgemu_pushed bizhgemu_push(struct bizhgemu_session session, BIZHGEMU_STORAGE,
	uint64_t now, const uint8_t *datagram, size_t datagram_len);

/* Takes media datagrams that came together as single calls of bizhgemu_push at one instant, and writes one answer number for
 * each to `answers`: BIZHGEMU_ANSWER_QUEUED, BIZHGEMU_ANSWER_DROPPED, or the number of its refusal, which stops none of the
 * later ones. `ends` says where each ends in `buffer`: the first starts at byte 0, each further one where the one before it
 * ends; bytes after the last end are ignored, and places of `answers` past the last datagram are kept. The whole call is refused
 * under 15 alone: an end below the one before it or past the buffer, or fewer places in `answers` than ends. Looks through session
 * and storage once, so that a datagram costs what its own place does. */
struct bizhgemu_pushed_burst bizhgemu_push_burst(struct bizhgemu_session session, BIZHGEMU_STORAGE,
	uint64_t now, const uint8_t *buffer, size_t buffer_len, const uint64_t *ends, size_t ends_len,
	uint8_t *answers, size_t answers_len);

/* Takes a repair: the RTX packet as it was sent (RFC 4588). Refused under 16, 8, 9, 2 to 7, 10, 11, 14, 13. */
struct bizhgemu_pushed bizhgemu_push_rtx(struct bizhgemu_session session, BIZHGEMU_STORAGE,
	uint64_t now, const uint8_t *datagram, size_t datagram_len);

/* Hands out the next packet that is due: its payload is written to `out`, of at least 320 bytes; what lies behind it there
 * is kept. Call it until it hands out nothing. Refused under 16, 15, 8, 14. */
struct bizhgemu_polled bizhgemu_poll(struct bizhgemu_session session, BIZHGEMU_STORAGE,
	uint64_t now, uint8_t *out, size_t out_len);

/* Writes the numbers to ask the sender for again to `out`, of at least max_gaps numbers, ascending by extended number.
 * Refused under 16, 15, 8, 14. */
struct bizhgemu_polled_nack bizhgemu_poll_nack(struct bizhgemu_session session, BIZHGEMU_STORAGE,
	uint64_t now, uint16_t *out, size_t out_len);

/* The same numbers as they go over the wire, in place of poll_nack and with the same effect: entries of a generic NACK (RFC 4585, section
 * 6.2.1) are written to `out`, of at least 4 * max_gaps bytes; what lies behind them there is kept. An entry is a number and a mask of the
 * sixteen that follow it, its lowest bit for the next, both high byte first; there are as few as can name these numbers. The RTCP packet
 * around them, 12 bytes before, is the caller's (docs/USING.md, "NACKs on the wire"). Refused under 16, 15, 8, 14. */
struct bizhgemu_polled_wire bizhgemu_nack_wire(struct bizhgemu_session session, BIZHGEMU_STORAGE,
	uint64_t now, uint8_t *out, size_t out_len);

/* The sender's side: writes the numbers that such entries name to `out`, of at least 17 numbers for each four bytes, entry by entry, its
 * first number and then those of its mask from the lowest bit; what lies behind them there is kept. Refused under 15, 17. */
struct bizhgemu_read_numbers bizhgemu_read_nacks(const uint8_t *entries, size_t entries_len, uint16_t *out, size_t out_len);

/* The time until `poll` should be called. Does not advance the clock. Refused under 16, 8. */
struct bizhgemu_timeout bizhgemu_timeout_receive(struct bizhgemu_session session, BIZHGEMU_STORAGE, uint64_t now);

/* The time until `poll_nack` or `nack_wire` should be called. Does not advance the clock. Refused under 16, 8. */
struct bizhgemu_timeout bizhgemu_timeout_nack(struct bizhgemu_session session, BIZHGEMU_STORAGE, uint64_t now);

/* The figures of repairs. Refused under 16. */
struct bizhgemu_rtx_stats bizhgemu_rtx_stats(struct bizhgemu_session session, BIZHGEMU_STORAGE);

/* The extended number of the media packet with the highest number; none before the first. The first packet is in cycle 1: its
 * extended number is its own and 65,536. Refused under 16. */
struct bizhgemu_highest bizhgemu_highest_sequence_number_received(struct bizhgemu_session session, BIZHGEMU_STORAGE);

/* The figures a box shows. Refused under 16 where the session is not sound. Storage is not lent, and `entries`, `gaps` and
 * `remembered`, which say how much of it is in use, are not looked at: no figure is made of them. */
struct bizhgemu_figures bizhgemu_figures(struct bizhgemu_session session);

/* The settings that most voice wants, as the Rust crate's default: sorted, 100 ms, 8,000 Hz, no repairs. Set payload type and SSRC,
 * which are the sender's, and what else differs; `max_entries` and `max_gaps` must be those of your arrays. */
static inline struct bizhgemu_config bizhgemu_default_config(uint8_t pt, uint32_t ssrc)
{
	struct bizhgemu_config config;
	config.delay = UINT64_C(100000000);
	config.initial_nack_delay = UINT64_C(5000000);
	config.default_nack_resend_delay = UINT64_C(20000000);
	config.min_delay = UINT64_C(10000000);
	config.max_delay = UINT64_C(400000000);
	config.target_recovery = 9900;
	config.max_entries = 100;
	config.max_gaps = 999;
	config.clock_rate = 8000;
	config.max_nack_attempts = 3;
	config.mode = BIZHGEMU_SORTED_QUEUE;
	config.has_rtx = 0;
	config.ssrc = ssrc;
	config.rtx_ssrc = 0;
	config.pt = pt;
	config.rtx_pt = 0;
	return config;
}

/* What a refusal means, by its number; docs/USING.md says what to do about each. */
static inline const char *bizhgemu_refusal_text(uint64_t refusal)
{
	switch (refusal) {
	case BIZHGEMU_ACCEPTED: return "accepted";
	case BIZHGEMU_REFUSED_SETTINGS: return "a setting is out of its range";
	case BIZHGEMU_REFUSED_TRUNCATED: return "the datagram ends within its RTP header";
	case BIZHGEMU_REFUSED_VERSION: return "the datagram is not RTP version 2";
	case BIZHGEMU_REFUSED_PADDING: return "the datagram's padding counts 0 bytes, or more than follow the header, or has no count";
	case BIZHGEMU_REFUSED_PAYLOAD_TOO_LARGE: return "the payload is over 320 bytes (of a repair: over 322)";
	case BIZHGEMU_REFUSED_PAYLOAD_TYPE: return "the payload type is not the session's";
	case BIZHGEMU_REFUSED_SSRC: return "the sender (SSRC) is not the session's";
	case BIZHGEMU_REFUSED_CLOCK: return "the instant is before that of an accepted push or poll, or past 2^52 - 1 nanoseconds (52 days)";
	case BIZHGEMU_REFUSED_NO_RTX: return "a repair came for a session without RTX";
	case BIZHGEMU_REFUSED_NO_MEDIA: return "a repair came before any media packet";
	case BIZHGEMU_REFUSED_NO_ORIGINAL_NUMBER: return "a repair is too short to name the number it repairs";
	case BIZHGEMU_REFUSED_GAPS_FULL: return "the packet would open more gaps than `max_gaps` allows";
	case BIZHGEMU_REFUSED_ENTRIES_FULL: return "a repair came while twice `max_entries` packets wait";
	case BIZHGEMU_REFUSED_COUNT: return "a number, timestamp or counter would pass 2^52 - 1, or a NACK count 2^32 - 1";
	case BIZHGEMU_REFUSED_OUTPUT: return "the lent output is too short";
	case BIZHGEMU_REFUSED_SESSION: return "session or storage is damaged, or not that of these settings";
	case BIZHGEMU_REFUSED_NACK_ENTRIES: return "the entries of a NACK are not a multiple of 4 bytes";
	case BIZHGEMU_REFUSED_SETTINGS_LINE: return "the settings line has the wrong length, no line feed at its end, or a field that is not a number after blanks";
	case BIZHGEMU_REFUSED_LINE_VERSION: return "the settings line does not begin with eleven blanks and version 1 or 2";
	default: return "not a refusal of this version";
	}
}

/* Whether media and repairs of these settings differ in at least two bits of payload type and SSRC together, or there are no
 * repairs. Where they do not, one bit turned over on the way can make a media packet a repair; nothing is refused for it. */
static inline int bizhgemu_two_bits_apart(struct bizhgemu_config config)
{
	uint64_t bits = (uint64_t)((config.pt ^ config.rtx_pt) & 0x7f) << 32 | (config.ssrc ^ config.rtx_ssrc);
	return !config.has_rtx || (bits & (bits - 1)) != 0;
}

/* A session with its storage. Fill in the four pointers and their lengths, those that BIZHGEMU_ENTRIES and so on give, then
 * open it. The memory need not be initialised. */
struct bizhgemu_queue {
	struct bizhgemu_session session;
	uint64_t *entries;
	size_t entries_len;
	uint8_t *payloads;
	size_t payloads_len;
	uint64_t *gaps;
	size_t gaps_len;
	uint64_t *remembered;
	size_t remembered_len;
};

#define BIZHGEMU_LENT(q) \
	(q)->entries, (q)->entries_len, (q)->payloads, (q)->payloads_len, \
	(q)->gaps, (q)->gaps_len, (q)->remembered, (q)->remembered_len

/* The calls again, on a queue: the answer is the same struct, and the session in the queue follows it. A refused call
 * leaves the queue as it was. */

static inline struct bizhgemu_opened bizhgemu_queue_open(struct bizhgemu_queue *q, struct bizhgemu_config config)
{
	const struct bizhgemu_opened r = bizhgemu_open(config, BIZHGEMU_LENT(q));
	if (r.refusal == 0)
		q->session = r.session;
	return r;
}

static inline struct bizhgemu_pushed bizhgemu_queue_push(struct bizhgemu_queue *q, uint64_t now, const uint8_t *datagram, size_t length)
{
	const struct bizhgemu_pushed r = bizhgemu_push(q->session, BIZHGEMU_LENT(q), now, datagram, length);
	if (r.refusal == 0)
		q->session = r.session;
	return r;
}

static inline struct bizhgemu_pushed_burst bizhgemu_queue_push_burst(struct bizhgemu_queue *q, uint64_t now, const uint8_t *buffer,
	size_t length, const uint64_t *ends, size_t count, uint8_t *answers, size_t places)
{
	const struct bizhgemu_pushed_burst r = bizhgemu_push_burst(q->session, BIZHGEMU_LENT(q), now, buffer, length, ends, count, answers, places);
	if (r.refusal == 0)
		q->session = r.session;
	return r;
}

static inline struct bizhgemu_pushed bizhgemu_queue_push_rtx(struct bizhgemu_queue *q, uint64_t now, const uint8_t *datagram, size_t length)
{
	const struct bizhgemu_pushed r = bizhgemu_push_rtx(q->session, BIZHGEMU_LENT(q), now, datagram, length);
	if (r.refusal == 0)
		q->session = r.session;
	return r;
}

static inline struct bizhgemu_polled bizhgemu_queue_poll(struct bizhgemu_queue *q, uint64_t now, uint8_t *out, size_t length)
{
	const struct bizhgemu_polled r = bizhgemu_poll(q->session, BIZHGEMU_LENT(q), now, out, length);
	if (r.refusal == 0)
		q->session = r.session;
	return r;
}

static inline struct bizhgemu_polled_nack bizhgemu_queue_poll_nack(struct bizhgemu_queue *q, uint64_t now, uint16_t *out, size_t length)
{
	const struct bizhgemu_polled_nack r = bizhgemu_poll_nack(q->session, BIZHGEMU_LENT(q), now, out, length);
	if (r.refusal == 0)
		q->session = r.session;
	return r;
}

static inline struct bizhgemu_polled_wire bizhgemu_queue_nack_wire(struct bizhgemu_queue *q, uint64_t now, uint8_t *out, size_t length)
{
	const struct bizhgemu_polled_wire r = bizhgemu_nack_wire(q->session, BIZHGEMU_LENT(q), now, out, length);
	if (r.refusal == 0)
		q->session = r.session;
	return r;
}

/* The smaller of the two timeouts: how long a host may sleep if no datagram comes. */
static inline struct bizhgemu_timeout bizhgemu_queue_timeout(struct bizhgemu_queue *q, uint64_t now)
{
	const struct bizhgemu_timeout receive = bizhgemu_timeout_receive(q->session, BIZHGEMU_LENT(q), now);
	const struct bizhgemu_timeout nack = bizhgemu_timeout_nack(q->session, BIZHGEMU_LENT(q), now);
	if (!receive.has_timeout || (nack.has_timeout && nack.timeout < receive.timeout))
		return nack;
	return receive;
}

static inline struct bizhgemu_rtx_stats bizhgemu_queue_rtx_stats(struct bizhgemu_queue *q)
{
	return bizhgemu_rtx_stats(q->session, BIZHGEMU_LENT(q));
}

static inline struct bizhgemu_highest bizhgemu_queue_highest(struct bizhgemu_queue *q)
{
	return bizhgemu_highest_sequence_number_received(q->session, BIZHGEMU_LENT(q));
}

static inline struct bizhgemu_figures bizhgemu_queue_figures(const struct bizhgemu_queue *q)
{
	return bizhgemu_figures(q->session);
}

#ifdef __cplusplus
}
#endif

#endif
