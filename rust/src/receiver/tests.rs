//! What only a damaged or an old session shows: refusals under 14 and 16, set by hand.

use super::*;

fn datagram(number: u16) -> Vec<u8> {
    let [high, low] = number.to_be_bytes();
    let timestamp = (u32::from(number) * 160).to_be_bytes();
    [&[0x80, 0, high, low][..], &timestamp, &[0, 0, 0, 7, low]].concat()
}

/// Three packets wait.
fn receiver() -> Receiver {
    let mut receiver = Receiver::open(&Config::pcmu(7), Rules::default(), Duration::ZERO).unwrap();
    for number in 1..4 {
        receiver.take(ms(20 * u64::from(number)), &datagram(number));
    }
    receiver
}

fn ms(milliseconds: u64) -> Duration {
    Duration::from_millis(milliseconds)
}

fn heard(receiver: &mut Receiver, now: Duration) -> Vec<u16> {
    core::iter::from_fn(|| receiver.poll(now).map(|heard| heard.packet.sequence_number)).collect()
}

fn why(receiver: &mut Receiver) -> Vec<String> {
    core::iter::from_fn(|| receiver.event()).map(|event| format!("{event:?}")).collect()
}

#[test]
fn a_count_at_its_end_opens_a_new_session_and_loses_nothing() {
    let mut receiver = receiver();
    receiver.queue.session.received = (1 << 52) - 1;
    assert_eq!(receiver.take(ms(80), &datagram(4)), Taken::Queued);
    assert_eq!(heard(&mut receiver, ms(80)), [1, 2, 3]);
    assert_eq!(heard(&mut receiver, ms(200)), [4]);
    let events = why(&mut receiver);
    assert!(
        events.len() == 1 && events[0].contains("Refused(Count)") && events[0].contains("waiting: 3"),
        "{events:?}"
    );
}

#[test]
fn what_is_handed_over_is_as_it_would_have_been() {
    for mode in [Mode::SortedQueue, Mode::Passthrough] {
        let (mut polled, mut handed_over) = (Vec::new(), Vec::new());
        for (ends, heard) in [(false, &mut polled), (true, &mut handed_over)] {
            let config = Config { mode, ..Config::pcmu(7) };
            let mut receiver = Receiver::open(&config, Rules::default(), ms(5)).unwrap();
            for number in [1, 2, 5] {
                let mut bytes = datagram(number);
                bytes[1] |= if number == 2 { 0x80 } else { 0 };
                receiver.take(ms(20 * u64::from(number)), &bytes);
            }
            if ends {
                receiver.reopen(&Config::pcma(8), ms(101)).unwrap();
            }
            while let Some(next) = receiver.poll(ms(500)) {
                heard.push((format!("{:?}", next.packet), next.lost_before, next.session));
            }
        }
        assert_eq!(polled.len(), 3);
        assert_eq!(polled, handed_over);
    }
}

#[test]
fn a_damaged_session_is_replaced_from_whichever_call() {
    let damages: [fn(&mut Queue); 4] = [
        |queue| queue.session.loss_bits = 0xffff_ffff,
        |queue| queue.session.config.max_entries = 77,
        |queue| queue.session.config.ssrc = 9,
        |queue| queue.storage.entries[0] = u64::MAX,
    ];
    let calls: [fn(&mut Receiver); 4] = [
        |receiver| _ = receiver.take(ms(80), &datagram(4)),
        |receiver| _ = receiver.poll(ms(80)),
        |receiver| _ = receiver.nacks(ms(80)),
        |receiver| _ = receiver.nack_packets(ms(80), &Reporter::reduced_size(9)),
    ];
    for (which, damage) in damages.into_iter().enumerate() {
        for call in calls {
            let mut receiver = receiver();
            damage(&mut receiver.queue);
            call(&mut receiver);
            receiver.take(ms(100), &datagram(5));
            receiver.take(ms(120), &datagram(6));
            let numbers = heard(&mut receiver, ms(300));
            // another SSRC in the settings is no damage that check 16 sees
            if which != 2 {
                assert_eq!(numbers[numbers.len() - 2..], [5, 6]);
                assert!(why(&mut receiver)[0].contains("Refused(Session)"));
                assert_eq!(receiver.queue.config(), Config::pcmu(7));
            }
        }
    }
}

#[test]
fn more_events_than_are_kept_go_from_the_front() {
    let mut receiver = receiver();
    for second in 1..=300 {
        receiver.reopen(&Config::pcmu(second), ms(1000 * u64::from(second))).unwrap();
    }
    let events = why(&mut receiver);
    assert_eq!(events.len(), MOST_EVENTS);
    assert!(events[0].contains("ssrc: 45") && events[255].contains("ssrc: 300"));
}

#[test]
fn the_oldest_that_is_held_is_given_up() {
    let rules = Rules { held: 2, ..Rules::default() };
    let mut receiver = Receiver::open(&Config::pcmu(7), rules, Duration::ZERO).unwrap();
    for number in [1, 601, 1201, 1203, 1205] {
        receiver.take(ms(number.into()), &datagram(number));
    }
    assert_eq!((receiver.held.len(), receiver.tally.given_up), (2, 1));
    assert!(why(&mut receiver)[0].starts_with("GivenUp"));
    receiver.rules.held = 0;
    assert_eq!(receiver.take(ms(1210), &datagram(1207)), Taken::Refused(Refusal::GapsFull));
}

#[test]
fn a_long_dynamic_delay_is_no_stall() {
    let five = crate::Dynamic { min: ms(5_000), max: ms(5_000), ..Default::default() };
    let config = Config { mode: Mode::Dynamic(five), ..Config::pcmu(7) };
    let mut receiver = Receiver::open(&config, Rules::default(), Duration::ZERO).unwrap();
    receiver.take(ms(0), &datagram(1));
    assert_eq!(heard(&mut receiver, ms(4_999)), []);
    assert_eq!((heard(&mut receiver, ms(5_000)), receiver.tally.sessions), (vec![1], 1));
}

// ---- bursts

/// Two receivers that hear the same, one by single calls, one by bursts.
struct Pair {
    single: Receiver,
    burst: Receiver,
    heard: u64,
}

impl Pair {
    fn new(config: &Config, rules: Rules) -> Pair {
        let single = Receiver::open(config, rules, Duration::ZERO).unwrap();
        Pair { burst: single.clone(), single, heard: 0 }
    }

    fn take(&mut self, now: Duration, datagrams: &[Vec<u8>]) -> Vec<Taken> {
        let taken: Vec<_> = datagrams.iter().map(|datagram| self.single.take(now, datagram)).collect();
        assert_eq!(self.burst.take_burst(now, datagrams), taken);
        self.are_alike();
        taken
    }

    fn are_alike(&self) {
        let (one, other) = (&self.single, &self.burst);
        assert_eq!(one.queue.session, other.queue.session);
        assert_eq!(one.queue.storage, other.queue.storage);
        assert_eq!((one.start, one.latest, one.known), (other.start, other.latest, other.known));
        assert_eq!((one.heard_at, one.progress, one.before), (other.heard_at, other.progress, other.before));
        assert_eq!((&one.dropped, &one.strange, &one.held), (&other.dropped, &other.strange, &other.held));
        assert_eq!((one.config, one.tally, &one.events), (other.config, other.tally, &other.events));
        assert_eq!(format!("{:?}", one.left), format!("{:?}", other.left));
    }

    fn pass(&mut self, now: Duration) {
        assert_eq!(self.single.nacks(now), self.burst.nacks(now));
        while let Some(one) = self.single.poll(now) {
            assert_eq!(Some(one), self.burst.poll(now));
            self.heard += 1;
        }
        assert_eq!(self.burst.poll(now), None);
        self.are_alike();
    }
}

#[test]
fn a_burst_is_taken_as_its_datagrams_one_by_one() {
    let mut pair = Pair::new(&Config::pcmu(7), Rules::default());
    let came = [1, 2, 4, 2, 3, 6].map(datagram);
    let taken = pair.take(ms(0), &came);
    assert_eq!(taken[2..5], [Taken::Queued, Taken::Dropped, Taken::Queued]);
    // a burst into an empty queue is no stall, whenever the last packet was handed out
    pair.pass(ms(5_000));
    assert_eq!(pair.heard, 5);
    pair.take(ms(60_000), &[7, 8, 9].map(datagram));
    pair.pass(ms(60_001));
    pair.pass(ms(61_000));
    assert_eq!((pair.heard, pair.burst.tally.sessions), (8, 1));
    assert_eq!(pair.take(ms(61_000), &[]), []);
}

#[test]
fn what_ends_the_session_within_a_burst_ends_it_there() {
    // the tenth number that is dropped is a restart; what comes after it goes into the new session
    let mut pair = Pair::new(&Config::pcmu(7), Rules::default());
    pair.take(ms(0), &(20_000..20_005).map(datagram).collect::<Vec<_>>());
    pair.take(ms(100), &(1..30).map(datagram).collect::<Vec<_>>());
    assert_eq!((pair.burst.tally.sessions, pair.burst.queue.waiting().len()), (2, 29));
    // a count at its end, after two that still fit
    for receiver in [&mut pair.single, &mut pair.burst] {
        receiver.queue.session.received = (1 << 52) - 3;
    }
    pair.take(ms(200), &(30..40).map(datagram).collect::<Vec<_>>());
    assert_eq!((pair.burst.tally.sessions, pair.burst.queue.waiting().len()), (3, 8));
    // damage
    for receiver in [&mut pair.single, &mut pair.burst] {
        receiver.queue.storage.entries[0] = u64::MAX;
    }
    pair.take(ms(300), &(40..50).map(datagram).collect::<Vec<_>>());
    assert_eq!((pair.burst.tally.sessions, pair.burst.queue.waiting().len()), (4, 10));
    pair.pass(ms(10_000));
    assert_eq!(pair.heard, 5 + 29 + 2 + 10);
}

/// Everything at once: losses, duplicates, repairs, restarts, strangers, floods, bytes that are no packet; in bursts of all lengths, small and
/// large queues, each mode.
#[test]
fn bursts_of_everything() {
    let mut state = 1u64;
    let mut below = move |most: u64| {
        state = state.wrapping_mul(6_364_136_223_846_793_005).wrapping_add(1_442_695_040_888_963_407);
        (state >> 33) % most
    };
    let modes = [Mode::SortedQueue, Mode::Passthrough, Mode::Dynamic(Default::default())];
    for round in 0..30 {
        let depth = [1, 2, 5, 16, 100][round % 5];
        let mode = modes[round % 3];
        let config = Config { mode, max_entries: depth, rtx: Some(crate::Rtx::new(99, 8)), ..Config::pcmu(7) };
        let rules = Rules {
            sender: if round % 2 == 0 { Sender::follow() } else { Sender::Fixed },
            restart: [Some(10), Some(1), None][round / 3 % 3],
            held: [64, 0, 2][round / 9 % 3],
            ..Rules::default()
        };
        let mut pair = Pair::new(&config, rules);
        let (mut now, mut number, mut ssrc) = (0, 65_500u16, 7u8);
        for _ in 0..60 {
            let mut came = Vec::new();
            for _ in 0..below(40) {
                number = number.wrapping_add(match below(60) {
                    0..50 => 1,
                    50..55 => 2,
                    55..57 => 600,
                    _ => 1 + below(5) as u16,
                });
                let mut bytes = datagram(number);
                bytes[11] = ssrc;
                match below(40) {
                    0 => bytes = datagram(number.wrapping_sub(below(30) as u16)),
                    1 => bytes.truncate(below(13) as usize),
                    2 => bytes[11] = below(3) as u8,
                    3 => bytes[1] = 96,
                    4..8 => {
                        let lost = number.wrapping_sub(below(10) as u16).to_be_bytes();
                        (bytes[1], bytes[11]) = (99, 8);
                        bytes.splice(12.., lost);
                    }
                    8 => came.push(bytes.clone()),
                    9 if below(10) == 0 => number = below(65_536) as u16,
                    10 if below(10) == 0 => ssrc = 1 + below(9) as u8,
                    _ => {}
                }
                came.push(bytes);
            }
            pair.take(ms(now), &came);
            now += below(900);
            pair.pass(ms(now));
        }
        assert!(pair.heard > 0);
    }
}
