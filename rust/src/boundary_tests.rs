//! What the public interface cannot say: lengths and words that `Queue` never hands over, and values word by word.

use crate::ffi;
use crate::queue::{ENTRY_BYTES, LONGEST_PAYLOAD, Storage, lend};
use crate::{Config, Mode, Queue, Refusal, Rtx};
use std::time::Duration;

const SSRC: u32 = 0x0102_0304;
const RTX: Rtx = Rtx { payload_type: 97, ssrc: 0x0506_0708 };
const MS: u64 = 1_000_000;
/// The longest duration of a setting.
const MINUTE: u64 = 60_000 * MS;
/// The last instant, the largest extended value and counter.
const END: u64 = (1 << 52) - 1;

fn config() -> Config {
    Config { max_entries: 3, payload_type: 5, ssrc: SSRC, rtx: Some(RTX), ..Config::default() }
}

fn media(number: u16, timestamp: u32, payload: &[u8]) -> Vec<u8> {
    header(5, number, timestamp, SSRC, payload)
}

fn repair(number: u16, timestamp: u32, payload: &[u8]) -> Vec<u8> {
    let payload = [&number.to_be_bytes(), payload].concat();
    header(RTX.payload_type, 1, timestamp, RTX.ssrc, &payload)
}

fn header(pt: u8, number: u16, timestamp: u32, ssrc: u32, payload: &[u8]) -> Vec<u8> {
    let mut bytes = vec![0x80, pt];
    bytes.extend(number.to_be_bytes());
    bytes.extend(timestamp.to_be_bytes());
    bytes.extend(ssrc.to_be_bytes());
    bytes.extend(payload);
    bytes
}

fn ms(milliseconds: u64) -> Duration {
    Duration::from_millis(milliseconds)
}

/// A queue with something in every list and a different figure in every counter: 13 and 15 wait, 14 is missing and NACKed, 11 is
/// lost and remembered, a round trip is measured.
fn used() -> Queue {
    let mut queue = Queue::open(&config()).unwrap();
    queue.push(ms(0), &media(10, 0, &[1; 20])).unwrap();
    queue.push(ms(20), &media(13, 480, &[2])).unwrap();
    assert_eq!(queue.poll_nack(ms(25)).unwrap(), [11, 12]);
    for _ in 0..4 {
        queue.push_rtx(ms(27), &repair(12, 320, &[3; 7])).unwrap();
    }
    assert!(queue.poll(ms(100)).unwrap().is_some());
    assert!(queue.poll(ms(120)).unwrap().is_some());
    queue.push(ms(121), &media(15, 800, &[4])).unwrap();
    for _ in 0..4 {
        queue.push(ms(122), &media(15, 800, &[4])).unwrap();
    }
    for _ in 0..2 {
        queue.push_rtx(ms(123), &repair(10, 0, &[1])).unwrap();
    }
    assert_eq!(queue.poll_nack(ms(126)).unwrap(), [14]);
    queue
}

/// All that is lent to a call: session and storage of `used`, and outputs just long enough, full of marks.
#[derive(Clone, PartialEq)]
struct Lent {
    /// What extends the 16-bit numbers of `used`: the first packet's cycle.
    cycle: u64,
    session: ffi::Session,
    storage: Storage,
    payload: Vec<u8>,
    numbers: Vec<u16>,
    wire: Vec<u8>,
}

fn lent() -> Lent {
    let Queue { session, storage, .. } = used();
    let (payload, numbers) = (vec![0xaa; LONGEST_PAYLOAD], vec![0xaaaa; session.config.max_gaps]);
    let wire = vec![0xaa; ENTRY_BYTES * session.config.max_gaps];
    Lent { cycle: session.last_number & !0xffff, session, storage, payload, numbers, wire }
}

/// Calls, each answered by the number of its refusal, or by 0.
impl Lent {
    /// The extended number of one of `used`.
    fn at(&self, number: u64) -> u64 {
        self.cycle + number
    }

    fn push(&mut self, now: u64, number: u64, timestamp: u64, payload: &[u8]) -> u64 {
        let c = &self.session.config;
        let datagram = header(c.pt, number as u16, timestamp as u32, c.ssrc, payload);
        let pushed = lend!(bizhgemu_push, self.session, self.storage, now, datagram.as_ptr(), datagram.len());
        self.session = pushed.session;
        pushed.refusal
    }

    /// The number after the highest, one tick later.
    fn push_next(&mut self, now: u64, payload: &[u8]) -> u64 {
        self.push(now, self.session.last_number + 1, self.session.last_timestamp + 1, payload)
    }

    /// The highest number once more, one tick later: dropped.
    fn push_again(&mut self, now: u64) -> u64 {
        self.push(now, self.session.last_number, self.session.last_timestamp + 1, &[9])
    }

    /// A repair, one tick after the highest number.
    fn repair(&mut self, now: u64, number: u64, payload: &[u8]) -> u64 {
        let c = &self.session.config;
        let payload = [&(number as u16).to_be_bytes(), payload].concat();
        let datagram = header(c.rtx_pt, 1, (self.session.last_timestamp + 1) as u32, c.rtx_ssrc, &payload);
        let pushed = lend!(bizhgemu_push_rtx, self.session, self.storage, now, datagram.as_ptr(), datagram.len());
        self.session = pushed.session;
        pushed.refusal
    }

    fn poll(&mut self, now: u64) -> u64 {
        let (place, length) = (self.payload.as_mut_ptr(), self.payload.len());
        let polled = lend!(bizhgemu_poll, self.session, self.storage, now, place, length);
        self.session = polled.session;
        polled.refusal
    }

    fn poll_nack(&mut self, now: u64) -> u64 {
        let (place, length) = (self.numbers.as_mut_ptr(), self.numbers.len());
        let polled = lend!(bizhgemu_poll_nack, self.session, self.storage, now, place, length);
        self.session = polled.session;
        polled.refusal
    }

    fn nack_wire(&mut self, now: u64) -> u64 {
        let (place, length) = (self.wire.as_mut_ptr(), self.wire.len());
        let polled = lend!(bizhgemu_nack_wire, self.session, self.storage, now, place, length);
        self.session = polled.session;
        polled.refusal
    }
}

/// A call at an instant.
type Call = fn(&mut Lent, u64) -> u64;

/// The nine calls, and the figures, which are lent no storage.
const CALLS: [Call; 10] = [
    |l, now| l.push_next(now, &[9]),
    |l, now| l.repair(now, 14, &[9]),
    Lent::poll,
    Lent::poll_nack,
    Lent::nack_wire,
    |l, now| lend!(bizhgemu_timeout_receive, l.session, l.storage, now).refusal,
    |l, now| lend!(bizhgemu_timeout_nack, l.session, l.storage, now).refusal,
    |l, _| lend!(bizhgemu_rtx_stats, l.session, l.storage).refusal,
    |l, _| lend!(bizhgemu_highest_sequence_number_received, l.session, l.storage).refusal,
    |l, _| ffi::bizhgemu_figures(l.session).refusal,
];

/// What a call on a copy answers; that a refused one changes nothing is asserted.
fn refusal(lent: &Lent, now: u64, call: Call) -> u64 {
    let mut copy = lent.clone();
    let number = call(&mut copy, now);
    assert!(number == 0 || copy == *lent, "refused under {number}, and not as it was");
    number
}

/// What each of `CALLS` answers.
fn refusals(lent: &Lent, now: u64) -> [u64; 10] {
    CALLS.map(|call| refusal(lent, now, call))
}

/// The words of a session, in their order.
fn words(session: &ffi::Session) -> Vec<u64> {
    let s = session;
    let clock = [s.clock, s.has_last, s.last_instant, s.last_timestamp, s.last_number];
    let round_trip = [s.has_returned, s.returned, s.has_rtt, s.srtt, s.variation];
    let repairs = [s.rtx_in_time, s.rtx_too_late, s.rtx_redundant, s.rtx_bytes];
    let counters = [s.dropped, s.received, s.bytes, s.lost];
    let floats = [s.jitter_clock_rate_bits, s.jitter_bits];
    let lists = [s.entries as u64, s.gaps as u64, s.remembered as u64];
    let loss = [u64::from(s.loss_bits)];
    let parts = [&clock[..], &round_trip, &repairs, &counters, &floats, &lists, &loss];
    [config_words(&s.config), parts.concat()].concat()
}

fn config_words(config: &ffi::Config) -> Vec<u64> {
    let c = config;
    let durations = [c.delay, c.initial_nack_delay, c.default_nack_resend_delay];
    let dynamic = [c.min_delay, c.max_delay, c.target_recovery];
    let sizes = [c.max_entries as u64, c.max_gaps as u64];
    let words = [c.clock_rate, c.max_nack_attempts, c.mode, c.has_rtx, c.ssrc, c.rtx_ssrc];
    let payload_types = [u64::from(c.pt), u64::from(c.rtx_pt)];
    [&durations[..], &dynamic, &sizes, &words.map(u64::from), &payload_types].concat()
}

#[test]
fn the_opening_carries_every_setting() {
    let config = Config {
        mode: Mode::Passthrough,
        clock_rate: 11,
        delay: Duration::from_nanos(12),
        max_entries: 13,
        max_gaps: 1014,
        initial_nack_delay: Duration::from_nanos(15),
        default_nack_resend_delay: Duration::from_nanos(16),
        max_nack_attempts: 17,
        payload_type: 19,
        ssrc: 20,
        rtx: Some(Rtx { payload_type: 21, ssrc: 22 }),
    };
    let session = Queue::open(&config).unwrap().session;
    let mut expected = vec![12, 15, 16, 0, 0, 0, 13, 1014, 11, 17, 0, 1, 20, 22, 19, 21];
    expected.resize(40, 0);
    expected[34] = 11f64.to_bits();
    assert_eq!(words(&session), expected);
}

#[test]
fn a_used_session_has_each_word_in_its_place() {
    let queue = used();
    let (jitter, loss) = (queue.session.jitter_bits, queue.session.loss_bits);
    assert!(f64::from_bits(jitter) > 0.0 && f32::from_bits(loss) > 0.0);
    let settings = [100 * MS, 5 * MS, 20 * MS, 0, 0, 0, 3, 999, 8000, 3, 1, 1];
    let senders = [SSRC.into(), RTX.ssrc.into(), 5, 97];
    let (number, timestamp) = (queue.session.last_number & !0xffff, queue.session.last_timestamp & !0xffff_ffff);
    let received = [126 * MS, 1, 121 * MS, timestamp + 800, number + 15, 1, number + 12];
    let repairs = [1, 2 * MS, MS, 1, 2, 3, 7];
    let counters = [4, 3, 22, 1];
    let floats = [8000f64.to_bits(), jitter];
    let lists = [2, 1, 1, u64::from(loss)];
    let expected = [&settings[..], &senders, &received, &repairs, &counters, &floats, &lists].concat();
    assert_eq!(words(&queue.session), expected);
}

/// The three words of a dynamic delay are a session's in mode 2. In another mode nothing looks at them, and the session has zeros there.
#[test]
fn the_words_of_a_dynamic_delay_are_those_of_its_mode() {
    let Queue { mut storage, .. } = used();
    let three = |session: &ffi::Session| {
        let c = &session.config;
        [c.min_delay, c.max_delay, c.target_recovery]
    };
    for (mode, given, expected) in [
        (0, [1, 2, 3], [0; 3]),
        (1, [5, 4, 10_000], [0; 3]),
        (1, [u64::MAX; 3], [0; 3]),
        (2, [1, 2, 3], [1, 2, 3]),
        (2, [MINUTE, MINUTE, 9_999], [MINUTE, MINUTE, 9_999]),
    ] {
        let [min_delay, max_delay, target_recovery] = given;
        let words = ffi::Config { mode, min_delay, max_delay, target_recovery, ..config().words() };
        let opened = storage.open(words);
        assert_eq!((opened.refusal, three(&opened.session)), (0, expected), "mode {mode}, {given:?}");
    }
    for given in [[3, 2, 0], [0, MINUTE + 1, 0], [MINUTE + 1, MINUTE + 1, 0], [0, 0, 10_000], [u64::MAX; 3]] {
        let [min_delay, max_delay, target_recovery] = given;
        let words = ffi::Config { mode: 2, min_delay, max_delay, target_recovery, ..config().words() };
        assert_eq!(storage.open(words).refusal, 1, "{given:?}");
    }
    let words = ffi::Config { mode: 2, max_nack_attempts: 5, ..config().words() };
    assert_eq!(storage.open(words).refusal, 1);
    assert_eq!(storage.open(ffi::Config { max_nack_attempts: 4, ..words }).refusal, 0);
}

/// Session and storage of `used` in mode 2: the delay that a packet is handed out with is that of jitter, loss and round trip, within its two ends.
#[test]
fn a_dynamic_delay_is_kept_within_its_ends() {
    let poll = |min_delay, max_delay| {
        let mut lent = lent();
        let config = &mut lent.session.config;
        (config.mode, config.min_delay, config.max_delay, config.target_recovery) = (2, min_delay, max_delay, 9_900);
        assert_eq!(refusals(&lent, 130 * MS), [0; 10]);
        let (place, length) = (lent.payload.as_mut_ptr(), lent.payload.len());
        let polled = lend!(bizhgemu_poll, lent.session, lent.storage, END, place, length);
        assert_eq!((polled.refusal, polled.has_packet, polled.packet.sequence_number), (0, 1, 13));
        polled.packet.delay
    };
    let free = poll(0, MINUTE);
    assert!(free > 0 && free < MINUTE, "{free}");
    assert_eq!(
        [poll(free, MINUTE), poll(free + 1, MINUTE), poll(0, free), poll(0, free - 1)],
        [free, free + 1, free, free - 1]
    );
    assert_eq!(poll(7 * MS, 7 * MS), 7 * MS);
}

// ---- a settings line (02, point 13)

/// Words set by hand: what the writer refuses, and that it then writes nothing.
#[test]
fn words_without_a_line_are_refused() {
    let fixed = ffi::Settings::of(&config().words());
    let dynamic = ffi::Settings { mode: 2, delay: 0, min_delay: 5, max_delay: 6, target_recovery: 7, ..fixed };
    let passthrough = ffi::Settings { mode: 0, delay: 0, ..fixed };
    for (what, settings, refused) in [
        ("fixed", fixed, 0),
        ("dynamic", dynamic, 0),
        ("passthrough", passthrough, 0),
        ("a mode that is none", ffi::Settings { mode: 3, ..dynamic }, 1),
        ("a delay in mode 0", ffi::Settings { delay: 1, ..passthrough }, 1),
        ("a delay in mode 2", ffi::Settings { delay: 1, ..dynamic }, 1),
        ("min in mode 0", ffi::Settings { min_delay: 5, ..passthrough }, 1),
        ("max in mode 0", ffi::Settings { max_delay: 6, ..passthrough }, 1),
        ("target in mode 0", ffi::Settings { target_recovery: 7, ..passthrough }, 1),
        ("min in mode 1", ffi::Settings { min_delay: 5, ..fixed }, 1),
        ("max in mode 1", ffi::Settings { max_delay: 6, ..fixed }, 1),
        ("target in mode 1", ffi::Settings { target_recovery: 7, ..fixed }, 1),
        ("min above max", ffi::Settings { min_delay: 7, ..dynamic }, 1),
        ("target", ffi::Settings { target_recovery: 10_000, ..dynamic }, 1),
        ("attempts in mode 2", ffi::Settings { max_nack_attempts: 5, ..dynamic }, 1),
        ("G", ffi::Settings { max_gaps: 998, ..dynamic }, 1),
    ] {
        let mut out = [0xaa; 146];
        // SAFETY: the array lives until the call returns.
        let written = unsafe { ffi::bizhgemu_write_settings(settings, out.as_mut_ptr(), out.len()) };
        assert_eq!((written.refusal, written.bytes), (refused, if refused == 0 { 145 } else { 0 }), "{what}");
        assert_eq!(out[144..], if refused == 0 { [b'\n', 0xaa] } else { [0xaa; 2] }, "{what}");
        assert!(refused == 0 || out == [0xaa; 146], "{what}");
        // 15 after 1
        // SAFETY: as above, and one byte less than a line has is lent.
        let short = unsafe { ffi::bizhgemu_write_settings(settings, out.as_mut_ptr(), 144) };
        assert_eq!((short.refusal, short.bytes), (if refused == 0 { 15 } else { refused }, 0), "{what}");
        if refused == 0 {
            // SAFETY: as above; read alone.
            let read = unsafe { ffi::bizhgemu_read_settings(out.as_ptr(), 145) };
            assert_eq!((read.refusal, read.settings), (0, settings), "{what}");
        }
    }
}

/// Lines set by hand: 21 ahead of 20 ahead of 1, and words of zeros with each.
#[test]
fn a_refused_line_has_words_of_zeros() {
    let line = Config::default().to_line().unwrap();
    let but = |changes: &[(usize, u8)], length: usize| {
        let mut bytes = line.to_vec();
        changes.iter().for_each(|(place, byte)| bytes[*place] = *byte);
        bytes.resize(length, b' ');
        bytes
    };
    let zeros = ffi::Settings {
        delay: 0,
        initial_nack_delay: 0,
        default_nack_resend_delay: 0,
        min_delay: 0,
        max_delay: 0,
        target_recovery: 0,
        max_entries: 0,
        max_gaps: 0,
        clock_rate: 0,
        max_nack_attempts: 0,
        mode: 0,
    };
    for (bytes, refused) in [
        (but(&[(23, b'3')], 145), 1),
        (but(&[(143, b'1')], 145), 1), // a target in mode 1
        (but(&[(23, b'3'), (35, b'x')], 145), 20),
        (but(&[(144, b' ')], 145), 20),
        (but(&[], 144), 20),
        (but(&[], 146), 20),
        (but(&[(11, b'1')], 145), 20), // the length of version 2
        (but(&[], 12), 20),
        (but(&[(11, b'3'), (35, b'x'), (23, b'3')], 145), 21),
        (but(&[(0, b'0')], 145), 21),
        (but(&[], 11), 21),
        (but(&[], 0), 21),
    ] {
        // SAFETY: the bytes live until the call returns, and are read alone.
        let read = unsafe { ffi::bizhgemu_read_settings(bytes.as_ptr(), bytes.len()) };
        assert_eq!((read.refusal, read.settings), (refused, zeros), "{:?}", String::from_utf8_lossy(&bytes));
    }
}

/// A slice of another length, the elements as they were.
fn resize<T: Clone + Default>(slice: &mut Box<[T]>, length: usize) {
    let mut elements = slice.to_vec();
    elements.resize(length, T::default());
    *slice = elements.into();
}

#[test]
fn flags_that_are_not_flags_are_refused_at_the_opening() {
    let Queue { mut storage, .. } = used();
    let before = storage.clone();
    for damage in [|c: &mut ffi::Config| c.mode = 3, |c: &mut ffi::Config| c.has_rtx = 3] {
        let mut words = config().words();
        damage(&mut words);
        assert_eq!(storage.open(words).refusal, 1);
        assert_eq!(storage, before);
    }
    assert_eq!(storage.open(config().words()).refusal, 0);
}

#[test]
fn a_short_output_is_refused() {
    let mut lent = lent();
    let now = lent.session.clock;
    let writing = [Lent::poll, Lent::poll_nack, Lent::nack_wire];
    assert_eq!(writing.map(|call| refusal(&lent, now, call)), [0; 3]);
    lent.payload.pop();
    lent.numbers.pop();
    lent.wire.pop();
    assert_eq!(writing.map(|call| refusal(&lent, now, call)), [15; 3]);
    // before 8, after 16
    assert_eq!(writing.map(|call| refusal(&lent, now - 1, call)), [15; 3]);
    lent.session.received = END + 1;
    assert_eq!(writing.map(|call| refusal(&lent, now, call)), [16; 3]);
}

/// Lists set by hand: how long the list of numbers is, how many bytes are read, and the answer.
#[test]
fn a_short_list_of_numbers_is_refused_ahead_of_bytes_that_are_no_entries() {
    let bytes = [0xff, 0xff, 0xff, 0xff, 0, 32, 0x80, 0x01, 9, 9, 9];
    for (list, length, refused, expected) in [
        (0, 0, 0, &[][..]),
        (0, 1, 17, &[]),
        (0, 3, 17, &[]),
        (0, 4, 15, &[]),
        (16, 4, 15, &[]),
        (17, 4, 0, &[65_535, 0, 1, 2, 3, 4, 5, 6, 7, 8, 9, 10, 11, 12, 13, 14, 15]),
        (16, 5, 15, &[]),
        (17, 5, 17, &[]),
        (17, 7, 17, &[]),
        (33, 8, 15, &[]),
        (34, 8, 0, &[65_535, 0, 1, 2, 3, 4, 5, 6, 7, 8, 9, 10, 11, 12, 13, 14, 15, 32, 33, 48]),
        (33, 11, 15, &[]),
        (34, 11, 17, &[]),
        (40, 8, 0, &[65_535, 0, 1, 2, 3, 4, 5, 6, 7, 8, 9, 10, 11, 12, 13, 14, 15, 32, 33, 48]),
    ] {
        let mut numbers = vec![0xaaaa; list];
        // SAFETY: two live slices of the lengths passed, apart from each other.
        let read = unsafe { ffi::bizhgemu_read_nacks(bytes.as_ptr(), length, numbers.as_mut_ptr(), list) };
        assert_eq!((read.refusal, read.numbers), (refused, expected.len()), "{list} {length}");
        let (written, kept) = numbers.split_at(read.numbers);
        assert_eq!(written, expected, "{list} {length}");
        assert!(kept.iter().all(|number| *number == 0xaaaa));
    }
}

/// The call on the wire leaves what `poll_nack` leaves, and what it wrote reads back as what `poll_nack` wrote.
#[test]
fn nacks_on_the_wire_are_those_of_poll_nack() {
    // 14 NACKed at 126 ms is due again after 2 + 1.5 · 1 ms; 20 to 39 and 45 came to be missing at 126 ms
    let mut lent = lent();
    let (number, timestamp) = (lent.session.last_number, lent.session.last_timestamp);
    for above in [1, 2, 3, 4, 25, 26, 27, 28, 29, 31] {
        assert_eq!(lent.push(126 * MS, number + above, timestamp + above, &[]), 0);
    }
    for now in [126, 129, 130, 131, 135, 140, 200].map(|ms| ms * MS) {
        let (mut plain, mut wire) = (lent.clone(), lent.clone());
        assert_eq!((plain.poll_nack(now), wire.nack_wire(now)), (0, 0));
        assert_eq!((plain.session, &plain.storage), (wire.session, &wire.storage), "at {now}");
        let count = plain.numbers.iter().position(|number| *number == 0xaaaa).unwrap();
        let bytes = wire.wire.chunks(4).position(|entry| entry == [0xaa; 4]).unwrap() * 4;
        assert_eq!(crate::read_nacks(&wire.wire[..bytes]).unwrap(), plain.numbers[..count], "at {now}");
        assert!(wire.wire[bytes..].iter().all(|byte| *byte == 0xaa));
    }
}

#[test]
fn output_after_the_answer_keeps_its_bytes() {
    let mut lent = lent();
    let mut other = lent.clone();
    assert_eq!((lent.poll_nack(130 * MS), lent.poll(300 * MS), other.nack_wire(130 * MS)), (0, 0, 0));
    assert_eq!((lent.numbers[0], lent.payload[0], &other.wire[..4]), (14, 2, &[0, 14, 0, 0][..]));
    assert!(lent.numbers[1..].iter().all(|number| *number == 0xaaaa));
    assert!(other.wire[4..].iter().all(|byte| *byte == 0xaa));
    assert!(lent.payload[1..].iter().all(|byte| *byte == 0xaa));
}

/// Zeros wherever the session has nothing, the tails of payloads' places among them.
fn has_zeros(session: &ffi::Session, storage: &Storage) -> bool {
    let Storage { entries, payloads, gaps, remembered } = storage;
    let (used, unused) = payloads.split_at(320 * session.entries);
    let words =
        [&entries[4 * session.entries..], &gaps[4 * session.gaps..], &remembered[2 * session.remembered..]].concat();
    let tails = used.chunks(320).zip(entries.chunks(4)).flat_map(|(place, entry)| &place[(entry[3] / 2) as usize..]);
    words.iter().all(|word| *word == 0) && tails.chain(unused).all(|byte| *byte == 0)
}

#[test]
fn unused_places_are_cleared() {
    let clean = lent();
    assert!(has_zeros(&clean.session, &clean.storage));
    let mut marked = clean.clone();
    let Storage { entries, payloads, gaps, remembered } = &mut marked.storage;
    entries[8..].fill(u64::MAX);
    payloads[1..320].fill(0xff);
    payloads[321..].fill(0xff);
    gaps[4..].fill(u64::MAX);
    remembered[2..].fill(u64::MAX);
    for call in &CALLS[..9] {
        let (mut clean, mut marked) = (clean.clone(), marked.clone());
        let now = clean.session.clock;
        assert_eq!((call(&mut clean, now), call(&mut marked, now)), (0, 0));
        assert!(clean == marked && has_zeros(&marked.session, &marked.storage));
    }
    let opened = lend!(bizhgemu_open, marked.session.config, marked.storage);
    assert_eq!((opened.refusal, opened.session.entries), (0, 0));
    assert!(has_zeros(&opened.session, &marked.storage));
}

#[test]
fn an_instant_outside_is_refused() {
    let mut lent = lent();
    let clock = lent.session.clock;
    for now in [clock, END] {
        assert_eq!(refusals(&lent, now), [0; 10]);
    }
    for now in [clock - 1, END + 1, u64::MAX] {
        assert_eq!(refusals(&lent, now), [8, 8, 8, 8, 8, 8, 8, 0, 0, 0]);
    }
    // a clock past the end is not damage, but no instant is left
    lent.session.clock = END + 1;
    assert_eq!(refusals(&lent, END + 1), [8, 8, 8, 8, 8, 8, 8, 0, 0, 0]);
}

#[test]
fn an_instant_past_the_last_is_refused() {
    let mut queue = used();
    let Queue { session, storage, .. } = queue.clone();
    for late in [crate::LATEST + Duration::from_nanos(1), Duration::from_secs(1 << 40), Duration::MAX] {
        assert_eq!(queue.push(late, &media(16, 960, &[])), Err(Refusal::Clock));
        assert_eq!(queue.push_rtx(late, &repair(14, 640, &[])), Err(Refusal::Clock));
        assert_eq!(queue.poll(late), Err(Refusal::Clock));
        assert_eq!(queue.poll_nack(late), Err(Refusal::Clock));
        assert_eq!(queue.nack_wire(late), Err(Refusal::Clock));
        assert_eq!(queue.timeout_receive(late), Err(Refusal::Clock));
        assert_eq!(queue.timeout_nack(late), Err(Refusal::Clock));
    }
    assert_eq!((queue.session, &queue.storage), (session, &storage));
    assert!(queue.poll(crate::LATEST).is_ok());
}

/// Sets one thing: with `past` 0 to a value that is taken, the last of its range where it has one; with 1 to one that is not.
type Set = fn(&mut Lent, u64);

/// Each line is one condition of row 16. `figures` is what the figures answer: they look at no list.
fn each_is_damage(lines: &[(&str, Set)], figures: u64) {
    for (what, set) in lines {
        let [mut sound, mut damaged] = [lent(), lent()];
        set(&mut sound, 0);
        set(&mut damaged, 1);
        // 14 may catch the packet and the repair where a count is at its end
        let [packet, repair, others @ ..] = refusals(&sound, sound.session.clock);
        assert!([0, 14].contains(&packet) && [0, 14].contains(&repair) && others == [0; 8], "{what}: sound");
        let [calls @ .., told] = refusals(&damaged, damaged.session.clock);
        assert_eq!((calls, told), ([16; 9], figures), "{what}: damaged");
    }
}

#[test]
#[rustfmt::skip]
fn a_wrong_length_is_refused() {
    let lines: &[(&str, Set)] = &[
        ("entries, one less", |l, past| resize(&mut l.storage.entries, 24 - past as usize)),
        ("entries, one more", |l, past| resize(&mut l.storage.entries, 24 + past as usize)),
        ("payloads, one less", |l, past| resize(&mut l.storage.payloads, 1920 - past as usize)),
        ("payloads, one more", |l, past| resize(&mut l.storage.payloads, 1920 + past as usize)),
        ("gaps, one less", |l, past| resize(&mut l.storage.gaps, 3996 - past as usize)),
        ("gaps, one more", |l, past| resize(&mut l.storage.gaps, 3996 + past as usize)),
        ("remembered, one less", |l, past| resize(&mut l.storage.remembered, 2048 - past as usize)),
        ("remembered, one more", |l, past| resize(&mut l.storage.remembered, 2048 + past as usize)),
    ];
    each_is_damage(lines, 0);
    for (what, set) in lines {
        for (past, expected) in [(0, 0), (1, 16)] {
            let mut lent = lent();
            set(&mut lent, past);
            let before = lent.storage.clone();
            assert_eq!(lent.storage.open(config().words()).refusal, expected, "{what}");
            assert_eq!(lent.storage == before, expected != 0, "{what}");
        }
    }
}

/// The clock rate, in the settings and in the jitter record.
fn set_clock_rate(l: &mut Lent, rate: u64) {
    l.session.config.clock_rate = rate as u32;
    (l.session.jitter_clock_rate_bits, l.session.jitter_bits) = ((rate as f64).to_bits(), 0);
}

/// D, with storage of its lengths.
fn set_depth(l: &mut Lent, depth: u64) {
    l.session.config.max_entries = depth as usize;
    resize(&mut l.storage.entries, 8 * depth as usize);
    resize(&mut l.storage.payloads, 640 * depth as usize);
}

/// G, with storage and output of its lengths.
fn set_most_gaps(l: &mut Lent, most: u64) {
    l.session.config.max_gaps = most as usize;
    resize(&mut l.storage.gaps, 4 * most as usize);
    l.numbers.resize(most as usize, 0xaaaa);
    l.wire.resize(ENTRY_BYTES * most as usize, 0xaa);
}

/// Every place in use: G gaps, 2 · D entries above them, 1,024 remembered.
fn fill(l: &mut Lent) {
    l.session.last_number = l.at(3000);
    (l.session.entries, l.session.gaps, l.session.remembered) = (6, 999, 1024);
    for (gap, number) in l.storage.gaps.chunks_exact_mut(4).zip(l.cycle + 1000..) {
        gap.copy_from_slice(&[number, 0, 0, 0]);
    }
    for (entry, number) in l.storage.entries.chunks_exact_mut(4).zip(l.cycle + 2000..) {
        entry.copy_from_slice(&[number, 0, 0, 0]);
    }
}

/// Two gaps, below the highest.
fn set_gaps(l: &mut Lent, first: u64, second: u64) {
    (l.session.gaps, l.session.last_number) = (2, l.at(20));
    l.storage.gaps.copy_within(0..4, 4);
    (l.storage.gaps[0], l.storage.gaps[4]) = (l.at(first), l.at(second));
}

#[test]
#[rustfmt::skip]
fn damaged_words_are_refused() {
    each_is_damage(&[
        ("a flag: mode", |l, past| l.session.config.mode = 2 + past as u32),
        ("a flag: RTX", |l, past| l.session.config.has_rtx = 1 + past as u32),
        ("a flag: last packet", |l, past| l.session.has_last = 1 + past),
        ("a flag: last returned", |l, past| l.session.has_returned = 1 << (63 * past)),
        ("a flag: round trip", |l, past| l.session.has_rtt = [1, u64::MAX][past as usize]),
        ("a setting: clock rate 0", |l, past| set_clock_rate(l, 1 - past)),
        ("a setting: clock rate", |l, past| set_clock_rate(l, 1_000_000 + past)),
        ("a setting: D of 0", |l, past| { l.session.entries = 0; set_depth(l, 1 - past) }),
        ("a setting: D", |l, past| set_depth(l, 1024 + past)),
        ("a setting: G of 998", |l, past| set_most_gaps(l, 999 - past)),
        ("a setting: G", |l, past| set_most_gaps(l, 4096 + past)),
        ("a setting: delay", |l, past| l.session.config.delay = MINUTE + past),
        ("a setting: initial NACK delay", |l, past| l.session.config.initial_nack_delay = MINUTE + past),
        ("a setting: resend delay", |l, past| l.session.config.default_nack_resend_delay = MINUTE + past),
        ("a setting: no attempt", |l, past| l.session.config.max_nack_attempts = 1 - past as u32),
        ("a setting: attempts", |l, past| l.session.config.max_nack_attempts = 255 + past as u32),
        ("a dynamic setting: attempts", |l, past| { l.session.config.mode = 2; l.session.config.max_nack_attempts = 4 + past as u32 }),
        ("a dynamic setting: longest delay", |l, past| { l.session.config.mode = 2; l.session.config.max_delay = MINUTE + past }),
        ("a dynamic setting: shortest delay", |l, past| { l.session.config.mode = 2; l.session.config.min_delay = past }),
        ("a dynamic setting: target", |l, past| { l.session.config.mode = 2; l.session.config.target_recovery = 9_999 + past }),
        ("a setting: payload type", |l, past| l.session.config.pt = 127 + past as u8),
        ("a setting: payload type of repairs", |l, past| l.session.config.rtx_pt = 127 + past as u8),
        // in passthrough: there entries and gaps may stand at or below the last returned
        ("a last returned above the highest", |l, past| { l.session.config.mode = 0; l.session.returned = l.at(15 + past) }),
        ("a last returned before media", |l, past| { (l.session.entries, l.session.gaps, l.session.has_last) = (0, 0, 1 - past) }),
        ("an instant: the last packet's", |l, past| l.session.last_instant = l.session.clock + past),
        ("an extended value: the highest", |l, past| l.session.last_number = END + past),
        ("an extended value: its timestamp", |l, past| l.session.last_timestamp = END + past),
        ("a counter: dropped", |l, past| l.session.dropped = END + past),
        ("a counter: received", |l, past| l.session.received = END + past),
        ("a counter: bytes", |l, past| l.session.bytes = END + past),
        ("a counter: lost", |l, past| l.session.lost = END + past),
        ("a counter: repairs in time", |l, past| l.session.rtx_in_time = END + past),
        ("a counter: too late", |l, past| l.session.rtx_too_late = END + past),
        ("a counter: redundant", |l, past| l.session.rtx_redundant = END + past),
        ("a counter: their bytes", |l, past| l.session.rtx_bytes = END + past),
        ("srtt", |l, past| l.session.srtt = END + past),
        ("variation", |l, past| l.session.variation = END + past),
        ("jitter's clock rate", |l, past| l.session.jitter_clock_rate_bits = (8000.0 + past as f64).to_bits()),
        ("jitter's clock rate not a number", |l, past| l.session.jitter_clock_rate_bits = [8000f64.to_bits(), 0xfff0_0000_0000_0001][past as usize]),
        ("jitter below 0", |l, past| l.session.jitter_bits = (0.0 - past as f64).to_bits()),
        ("jitter above the clock rate", |l, past| l.session.jitter_bits = 8000f64.to_bits() + past),
        // not the NaN that arithmetic gives: its bits come back too
        ("jitter not a number", |l, past| l.session.jitter_bits = [0, 0x7ff4_0000_0000_0001][past as usize]),
        ("loss below 0", |l, past| l.session.loss_bits = (0.0 - past as f32).to_bits()),
        ("loss above 1", |l, past| l.session.loss_bits = 1f32.to_bits() + past as u32),
        ("loss not a number", |l, past| l.session.loss_bits = [0, 0x7fa0_0001][past as usize]),
    ], 16);
}

#[test]
#[rustfmt::skip]
fn damaged_counts_and_storage_are_refused() {
    each_is_damage(&[
        ("more than 2 · D entries", |l, past| { fill(l); l.session.entries += past as usize }),
        ("more than G gaps", |l, past| { fill(l); l.session.gaps += past as usize }),
        ("more than 1,024 remembered", |l, past| { fill(l); l.session.remembered += past as usize }),
        ("more entries than memory has", |l, past| { fill(l); l.session.entries = [6, usize::MAX][past as usize] }),
        ("an entry twice", |l, past| l.storage.entries[4] = l.at(15 - 2 * past)),
        ("entries exchanged", |l, past| (l.storage.entries[0], l.storage.entries[4]) = (l.at(13 + 2 * past), l.at(15 - 2 * past))),
        ("a gap twice", |l, past| set_gaps(l, 14, 17 - 3 * past)),
        ("gaps exchanged", |l, past| set_gaps(l, 14 + 3 * past, 17 - 3 * past)),
        ("an entry's number in both", |l, past| l.storage.entries[0] = l.at(13 + past)),
        ("a gap's number in both", |l, past| l.storage.gaps[0] = l.at(14 - past)),
        ("an entry above the highest", |l, past| l.storage.entries[4] = l.at(15 + past)),
        ("a gap above the highest", |l, past| l.storage.gaps[0] = l.at(14 + 2 * past)),
        // mode 0 is passthrough, 1 is sorted
        ("an entry at the last returned", |l, past| { l.session.config.mode = past as u32; l.storage.entries[0] = l.at(12) }),
        ("an entry below the last returned", |l, past| { l.session.config.mode = past as u32; l.storage.entries[0] = l.at(11) }),
        ("a gap at the last returned", |l, past| { l.session.config.mode = past as u32; l.storage.gaps[0] = l.at(12) }),
        ("a gap below the last returned", |l, past| { l.session.config.mode = past as u32; l.storage.gaps[0] = l.at(11) }),
        // 13 alone waits
        ("a gap at the highest", |l, past| { l.session.entries = 1; l.storage.gaps[0] = l.at(14 + past) }),
        ("an entry before media", |l, past| { (l.session.gaps, l.session.has_returned, l.session.has_last) = (0, 0, 1 - past) }),
        ("a gap before media", |l, past| { (l.session.entries, l.session.has_returned, l.session.has_last) = (0, 0, 1 - past) }),
        // the word is twice the length, and 1 for the marker
        ("a payload over 320", |l, past| l.storage.entries[3] = 2 * (320 + past) + 1),
        ("a payload past every length", |l, past| l.storage.entries[7] = [2, u64::MAX][past as usize]),
        // the word is the instant and 1 more
        ("an instant: an arrival", |l, past| l.storage.entries[2] = l.session.clock + 1 + past),
        ("an instant: an arrival past every one", |l, past| l.storage.entries[6] = [1, u64::MAX][past as usize]),
        ("an instant: a detection", |l, past| l.storage.gaps[1] = l.session.clock + past),
        ("an instant: a gap's NACK", |l, past| l.storage.gaps[3] = l.session.clock + past),
        ("an instant: a remembered NACK", |l, past| l.storage.remembered[1] = l.session.clock + past),
        ("an extended value: an entry's timestamp", |l, past| l.storage.entries[1] = END + past),
        ("an extended value: a remembered number", |l, past| l.storage.remembered[0] = END + past),
    ], 0);
}

/// Passthrough, and 14 NACKed as often as it may be.
fn try_all(l: &mut Lent) {
    l.session.config.mode = 0;
    l.storage.gaps[2] = 3;
}

#[test]
#[rustfmt::skip]
fn a_count_past_its_end_is_refused() {
    // the call takes it one further: to its end, or past it
    let lines: &[(&str, Set, Call)] = &[
        ("a packet's number", |l, past| l.session.last_number = END - 1 + past, |l, now| l.push_next(now, &[9])),
        ("a repair's number", |l, past| l.session.last_number = END - 1 + past, |l, now| l.repair(now, l.session.last_number + 1, &[9])),
        ("a packet's timestamp", |l, past| l.session.last_timestamp = END - 1 + past, |l, now| l.push_next(now, &[9])),
        ("a dropped packet's", |l, past| l.session.last_timestamp = END - 1 + past, Lent::push_again),
        ("a repair's", |l, past| l.session.last_timestamp = END - 1 + past, |l, now| l.repair(now, 14, &[9])),
        ("received", |l, past| l.session.received = END - 1 + past, |l, now| l.push_next(now, &[9])),
        ("bytes", |l, past| l.session.bytes = END - 1 + past, |l, now| l.push_next(now, &[9])),
        ("dropped", |l, past| l.session.dropped = END - 1 + past, Lent::push_again),
        // D is 3: with 16 three wait, and 17 pushes 13 out
        ("pushed out", |l, past| { l.push_next(l.session.clock, &[]); l.session.dropped = END - 1 + past }, |l, now| l.push_next(now, &[])),
        ("repairs in time", |l, past| l.session.rtx_in_time = END - 1 + past, |l, now| l.repair(now, 14, &[9])),
        ("their bytes", |l, past| l.session.rtx_bytes = END - 1 + past, |l, now| l.repair(now, 14, &[9])),
        ("redundant", |l, past| l.session.rtx_redundant = END - 1 + past, |l, now| l.repair(now, 13, &[9])),
        ("too late", |l, past| l.session.rtx_too_late = END - 1 + past, |l, now| l.repair(now, 10, &[9])),
        // 13 goes out first, and none is lost; with 15 it is 14
        ("lost, sorted", |l, past| { l.poll(300 * MS); l.session.lost = END - 1 + past }, Lent::poll),
        ("lost, passthrough", |l, past| { try_all(l); l.session.lost = END - 1 + past }, Lent::poll),
        ("lost by poll_nack", |l, past| { try_all(l); l.session.lost = END - 1 + past }, Lent::poll_nack),
        ("lost by nack_wire", |l, past| { try_all(l); l.session.lost = END - 1 + past }, Lent::nack_wire),
        // due 2 + 1.5 · 1 ms after 126 ms
        ("a NACK count", |l, past| l.storage.gaps[2] = (1 << 32) - 2 + past, |l, _| l.poll_nack(130 * MS)),
        ("a NACK count on the wire", |l, past| l.storage.gaps[2] = (1 << 32) - 2 + past, |l, _| l.nack_wire(130 * MS)),
    ];
    for (what, set, call) in lines {
        for (past, expected) in [(0, 0), (1, 14)] {
            let mut lent = lent();
            set(&mut lent, past);
            assert_eq!(refusal(&lent, lent.session.clock, *call), expected, "{what}");
        }
    }
}

#[test]
#[rustfmt::skip]
fn a_count_at_its_end_that_is_not_raised_may_stand() {
    let lines: &[(&str, Set, Call)] = &[
        ("received, and one dropped", |l, _| l.session.received = END, Lent::push_again),
        ("bytes, and no payload", |l, _| l.session.bytes = END, |l, now| l.push_next(now, &[])),
        ("dropped, and one queued", |l, _| l.session.dropped = END, |l, now| l.push_next(now, &[9])),
        ("bytes of repairs, and no payload", |l, _| l.session.rtx_bytes = END, |l, now| l.repair(now, 14, &[])),
        ("in time, and one redundant", |l, _| l.session.rtx_in_time = END, |l, now| l.repair(now, 13, &[9])),
        ("lost, and none is", |l, _| l.session.lost = END, |l, _| l.poll(300 * MS)),
        // 129 ms is before it is due again
        ("a NACK count", |l, _| l.storage.gaps[2] = (1 << 32) - 1, |l, _| l.poll_nack(129 * MS)),
        ("a NACK count past its end", |l, _| l.storage.gaps[2] = u64::MAX, |l, _| l.poll_nack(129 * MS)),
    ];
    for (what, set, call) in lines {
        let mut lent = lent();
        set(&mut lent, 0);
        assert_eq!(refusal(&lent, lent.session.clock, *call), 0, "{what}");
    }
}

// ---- a burst (02, point 4)

/// What a burst of these datagrams is answered: refusal, answers written, and a list of so many places.
fn burst(lent: &mut Lent, now: u64, parts: &[Vec<u8>], places: usize) -> (u64, usize, Vec<u8>) {
    let buffer = parts.concat();
    let ends: Vec<u64> = parts
        .iter()
        .scan(0, |end, part| {
            *end += part.len() as u64;
            Some(*end)
        })
        .collect();
    burst_at(lent, now, &buffer, &ends, places)
}

fn burst_at(lent: &mut Lent, now: u64, buffer: &[u8], ends: &[u64], places: usize) -> (u64, usize, Vec<u8>) {
    let mut answers = vec![0xaa; places];
    let pushed = lend!(
        bizhgemu_push_burst,
        lent.session,
        lent.storage,
        now,
        buffer.as_ptr(),
        buffer.len(),
        ends.as_ptr(),
        ends.len(),
        answers.as_mut_ptr(),
        answers.len()
    );
    lent.session = pushed.session;
    (pushed.refusal, pushed.answers, answers)
}

/// Numbers after the highest of `used`, one more of them, and two that are refused.
fn mixed() -> Vec<Vec<u8>> {
    let stranger = header(6, 16, 960, SSRC, &[5]);
    vec![
        vec![0x80; 11],
        media(16, 960, &[5]),
        stranger,
        media(17, 1120, &[6; 9]),
        media(16, 960, &[5]),
        media(18, 1280, &[]),
    ]
}

/// The words of a session that are used; its storage.
fn same(a: &Lent, b: &Lent) -> bool {
    words(&a.session) == words(&b.session) && a.storage == b.storage
}

#[test]
fn a_burst_is_its_single_calls() {
    let (mut whole, mut single) = (lent(), lent());
    // garbage in unused places, which the first accepted datagram clears
    for lent in [&mut whole, &mut single] {
        lent.storage.gaps[4..].fill(u64::MAX);
        lent.storage.payloads[321..].fill(0xff);
    }
    let now = whole.session.clock;
    let told: Vec<u8> = mixed()
        .iter()
        .map(|datagram| {
            let pushed = lend!(bizhgemu_push, single.session, single.storage, now, datagram.as_ptr(), datagram.len());
            single.session = pushed.session;
            if pushed.refusal != 0 { pushed.refusal as u8 } else { [0, 255][pushed.answer as usize] }
        })
        .collect();
    assert_eq!(told, [2, 0, 6, 0, 255, 0]);
    let (refusal, count, answers) = burst(&mut whole, now, &mixed(), told.len() + 2);
    assert_eq!((refusal, count), (0, told.len()));
    assert_eq!((&answers[..count], &answers[count..]), (&told[..], &[0xaa; 2][..]));
    assert!(same(&whole, &single) && has_zeros(&whole.session, &whole.storage));
}

#[test]
fn a_burst_that_is_refused_alters_nothing() {
    let mut marked = lent();
    marked.storage.gaps[4..].fill(u64::MAX);
    let now = marked.session.clock;
    let ok = media(16, 960, &[5]);
    let bytes = ok.len() as u64;
    for (buffer, ends, places, want) in [
        // ends that fall, that pass the buffer; a list one place short
        (&ok[..], &[bytes, bytes - 1][..], 2, (15, 0, vec![0xaa; 2])),
        (&ok[..], &[bytes + 1][..], 1, (15, 0, vec![0xaa; 1])),
        (&ok[..], &[u64::MAX][..], 1, (15, 0, vec![0xaa; 1])),
        (&ok[..], &[bytes][..], 0, (15, 0, vec![])),
        // no end; two equal ends, bytes after the last one
        (&ok[..], &[][..], 1, (0, 0, vec![0xaa; 1])),
        (&ok[..], &[0, 0][..], 3, (0, 2, vec![2, 2, 0xaa])),
    ] {
        let mut lent = marked.clone();
        assert_eq!(burst_at(&mut lent, now, buffer, ends, places), want);
        assert!(lent == marked);
    }
    // an instant before the clock's; then a damaged session, a setting and a flag that is none: each datagram's answer
    let mut lent = marked.clone();
    assert_eq!(burst(&mut lent, now - 1, &mixed(), 6), (0, 6, vec![8; 6]));
    assert!(lent == marked);
    let damages: [fn(&mut Lent); 3] =
        [|l| l.session.gaps += 1, |l| l.session.config.clock_rate = 0, |l| l.session.has_rtt = 2];
    for damage in damages {
        let mut lent = marked.clone();
        damage(&mut lent);
        let damaged = lent.clone();
        assert_eq!(burst(&mut lent, now, &mixed(), 6), (0, 6, vec![16; 6]));
        assert!(lent == damaged);
        // 15 comes first
        assert_eq!(burst(&mut lent, now, &mixed(), 5), (15, 0, vec![0xaa; 5]));
        assert!(lent == damaged);
    }
}
