//! `Receiver` with a sender that restarts, changes its SSRC, floods, loses and repeats packets, nobody helping.

use bizhgemu::{Config, Event, Mode, Receiver, Refusal, Rtx, Rules, Sender, Taken, Why};
use std::time::Duration;

fn ms(milliseconds: u64) -> Duration {
    Duration::from_millis(milliseconds)
}

/// A sender of 20 ms packets, whose payload counts them over all restarts.
struct Radio {
    pt: u8,
    ssrc: u32,
    number: u16,
    timestamp: u32,
    sent: u32,
}

impl Radio {
    fn new(ssrc: u32, number: u16, timestamp: u32) -> Radio {
        Radio { pt: 0, ssrc, number, timestamp, sent: 0 }
    }

    fn next(&mut self) -> Vec<u8> {
        let bytes = rtp(self.pt, self.number, self.timestamp, self.ssrc, &self.sent.to_be_bytes());
        self.number = self.number.wrapping_add(1);
        self.timestamp = self.timestamp.wrapping_add(160);
        self.sent += 1;
        bytes
    }

    fn restart(&mut self, ssrc: u32, number: u16, timestamp: u32) {
        (self.ssrc, self.number, self.timestamp) = (ssrc, number, timestamp);
    }
}

fn rtp(pt: u8, number: u16, timestamp: u32, ssrc: u32, payload: &[u8]) -> Vec<u8> {
    let mut bytes = vec![0x80, pt];
    bytes.extend(number.to_be_bytes());
    bytes.extend(timestamp.to_be_bytes());
    bytes.extend(ssrc.to_be_bytes());
    bytes.extend(payload);
    bytes
}

/// A host with a clock: what it heard, as the radio counted it, with what was lost before each.
struct Host {
    receiver: Receiver,
    now: Duration,
    heard: Vec<(u32, u64)>,
    reopened: Vec<Why>,
    again: usize,
}

impl Host {
    fn new(config: Config, rules: Rules, now: Duration) -> Host {
        let receiver = Receiver::open(&config, rules, now).expect("settings in range");
        Host { receiver, now, heard: Vec::new(), reopened: Vec::new(), again: 0 }
    }

    fn take(&mut self, datagram: &[u8]) -> Taken {
        self.receiver.take(self.now, datagram)
    }

    /// Time passes, the host polls every five milliseconds.
    fn pass(&mut self, time: Duration) {
        let end = self.now + time;
        while self.now < end {
            self.now = (self.now + ms(5)).min(end);
            self.receiver.nacks(self.now);
            while let Some(heard) = self.receiver.poll(self.now) {
                let count = u32::from_be_bytes(heard.packet.payload.try_into().expect("the radio's four bytes"));
                self.heard.push((count, heard.lost_before));
            }
            while let Some(event) = self.receiver.event() {
                match event {
                    Event::Reopened { why, .. } => self.reopened.push(why),
                    Event::PushedAgain { .. } => self.again += 1,
                    event => panic!("{event:?}"),
                }
            }
        }
    }

    /// So many packets, one each 20 ms.
    fn talk(&mut self, radio: &mut Radio, packets: u32) {
        for _ in 0..packets {
            let datagram = radio.next();
            self.take(&datagram);
            self.pass(ms(20));
        }
    }

    fn counts(&self) -> Vec<u32> {
        self.heard.iter().map(|(count, _)| *count).collect()
    }
}

/// Bytes of a trace's field.
fn bytes(hex: &str) -> Vec<u8> {
    let pairs = hex.as_bytes().chunks_exact(2);
    pairs.map(|pair| u8::from_str_radix(std::str::from_utf8(pair).unwrap(), 16).expect("two digits")).collect()
}

#[test]
fn a_trace_is_heard_as_the_queue_answers_it() {
    let mut config = Config::pcmu(42);
    (config.max_entries, config.default_nack_resend_delay, config.rtx) = (10, ms(40), Some(Rtx::new(97, 43)));
    let mut receiver = Receiver::open(&config, Rules::default(), ms(0)).unwrap();
    let (mut heard, mut nacks, mut losses) = (Vec::new(), Vec::new(), Vec::new());
    for line in include_str!("../../examples/story.trace").lines() {
        let words: Vec<&str> = line.split(' ').collect();
        let now = words.get(1).and_then(|word| word.parse().ok()).map_or(ms(0), Duration::from_nanos);
        match words[0] {
            "media" | "repair" => _ = receiver.take(now, &bytes(words[2])),
            "poll_nack" => {
                nacks.push(receiver.nacks(now).iter().fold("nack".to_string(), |all, n| format!("{all} {n}")))
            }
            "poll" => {
                let Some(next) = receiver.poll(now) else { continue };
                let packet = next.packet;
                let came = packet.received_at.map_or("-".to_string(), |came| came.as_nanos().to_string());
                let hex: String = packet.payload.iter().map(|byte| format!("{byte:02x}")).collect();
                heard.push(format!(
                    "packet 0 {} {} 42 0 {came} 100000000 {hex}",
                    packet.sequence_number, packet.timestamp
                ));
                losses.extend((next.lost_before > 0).then_some((packet.sequence_number, next.lost_before)));
            }
            _ => {}
        }
    }
    let answers = |word: &str| -> Vec<&str> {
        include_str!("../../examples/story.answers").lines().filter(|line| line.starts_with(word)).collect()
    };
    assert_eq!((heard.len(), nacks.len()), (15, 5));
    assert_eq!(heard, answers("packet "));
    assert_eq!(nacks, answers("nack "));
    assert_eq!(losses, [(4, 1)]);
    assert_eq!((receiver.tally().sessions, receiver.tally().refused(Refusal::Ssrc)), (1, 1));
}

fn following() -> Rules {
    let mut rules = Rules::default();
    rules.sender = Sender::follow();
    rules
}

#[test]
fn a_restart_under_the_same_ssrc_loses_nothing() {
    // back to 0 from below the middle: dropped at first
    let (mut host, mut radio) = (Host::new(Config::pcmu(7), Rules::default(), ms(0)), Radio::new(7, 20_000, 0));
    host.talk(&mut radio, 50);
    radio.restart(7, 0, 123_456);
    host.talk(&mut radio, 50);
    host.pass(ms(200));
    assert_eq!(host.counts(), (0..100).collect::<Vec<_>>());
    assert!(host.heard.iter().all(|(_, lost)| *lost == 0));
    assert_eq!(host.reopened, [Why::Restart]);
    let tally = host.receiver.tally();
    assert_eq!((tally.sessions, tally.handed_out, tally.lost), (2, 100, 0));
}

#[test]
fn a_restart_is_found_after_as_many_packets_as_the_rule_says() {
    for most in [1, 3, 10, 25] {
        let mut rules = Rules::default();
        rules.restart = Some(most);
        let (mut host, mut radio) = (Host::new(Config::pcmu(7), rules, ms(0)), Radio::new(7, 20_000, 0));
        host.talk(&mut radio, 20);
        radio.restart(7, 0, 0);
        let answers: Vec<_> = (0..most).map(|_| host.take(&radio.next())).collect();
        assert!(answers[..most - 1].iter().all(|taken| *taken == Taken::Dropped));
        assert_eq!(answers[most - 1], Taken::Queued);
    }
    let mut rules = Rules::default();
    rules.restart = None;
    let (mut host, mut radio) = (Host::new(Config::pcmu(7), rules, ms(0)), Radio::new(7, 20_000, 0));
    host.talk(&mut radio, 20);
    radio.restart(7, 0, 0);
    host.talk(&mut radio, 200);
    assert_eq!((host.receiver.tally().dropped, host.receiver.tally().sessions), (200, 1));
}

#[test]
fn a_packet_that_comes_again_and_again_is_no_restart() {
    let (mut host, mut radio) = (Host::new(Config::pcmu(7), Rules::default(), ms(0)), Radio::new(7, 100, 0));
    let first = radio.next();
    host.take(&first);
    for _ in 0..1000 {
        assert_eq!(host.take(&first), Taken::Dropped);
    }
    host.talk(&mut radio, 50);
    // each packet twice
    for _ in 0..50 {
        let datagram = radio.next();
        assert_eq!((host.take(&datagram), host.take(&datagram)), (Taken::Queued, Taken::Dropped));
        host.pass(ms(20));
    }
    host.pass(ms(200));
    assert_eq!(host.counts(), (0..101).collect::<Vec<_>>());
    assert_eq!(host.reopened, []);
}

#[test]
fn a_restart_ahead_whose_timestamps_go_back_does_not_stop_the_stream() {
    let (mut host, mut radio) =
        (Host::new(Config::pcmu(7), Rules::default(), ms(0)), Radio::new(7, 1_000, 2_000_000_000));
    host.talk(&mut radio, 50);
    radio.restart(7, 20_000, 1_000_000_000);
    host.talk(&mut radio, 500);
    host.pass(ms(200));
    assert_eq!(host.counts(), (0..550).collect::<Vec<_>>());
    assert!(host.reopened.contains(&Why::Stall));
}

#[test]
fn a_changed_ssrc_is_followed_by_rule() {
    let (mut host, mut radio) = (Host::new(Config::pcmu(0), following(), ms(0)), Radio::new(7, 20_000, 0));
    assert!(!host.receiver.has_sender());
    host.talk(&mut radio, 50);
    assert!(host.receiver.has_sender());
    radio.restart(8, 60_000, 99);
    host.talk(&mut radio, 100);
    host.pass(ms(200));
    // until the old one had been silent for half a second the new one's packets were kept
    assert_eq!(host.counts(), (0..150).collect::<Vec<_>>());
    assert_eq!(host.reopened, [Why::Sender, Why::Sender]);
    assert_eq!(host.receiver.config().ssrc, 8);
}

#[test]
fn with_a_fixed_sender_no_other_is_heard() {
    let (mut host, mut radio) = (Host::new(Config::pcmu(7), Rules::default(), ms(0)), Radio::new(8, 20_000, 0));
    host.talk(&mut radio, 100);
    assert_eq!((host.heard.len(), host.receiver.tally().refused(Refusal::Ssrc)), (0, 100));
}

#[test]
fn repairs_under_the_media_ssrc_follow_it() {
    let mut config = Config::pcmu(0);
    config.rtx = Some(Rtx::new(97, 0));
    let (mut host, mut radio) = (Host::new(config, following(), ms(0)), Radio::new(7, 10, 0));
    host.talk(&mut radio, 10);
    let lost = radio.next();
    host.talk(&mut radio, 1);
    let repair = rtp(97, 1, 10 * 160, 7, &[&20u16.to_be_bytes(), &lost[12..]].concat());
    assert_eq!(host.take(&repair), Taken::Recovered);
    host.pass(ms(200));
    assert_eq!(host.counts(), (0..12).collect::<Vec<_>>());
}

#[test]
fn a_flood_of_other_senders_takes_nothing_over_while_ours_talks() {
    let (mut host, mut radio) = (Host::new(Config::pcmu(0), following(), ms(0)), Radio::new(7, 20_000, 0));
    host.talk(&mut radio, 10);
    let mut flood = Radio::new(0, 0, 0);
    for round in 0..500u32 {
        // one that stays, and one that has another SSRC each time
        for ssrc in [99, 1_000_000 + round, 99, 2_000_000 + round] {
            flood.ssrc = ssrc;
            let taken = host.take(&flood.next());
            assert!(matches!(taken, Taken::Strange | Taken::Refused(Refusal::Ssrc)));
        }
        host.talk(&mut radio, 1);
    }
    host.pass(ms(200));
    assert_eq!(host.counts(), (0..510).collect::<Vec<_>>());
    assert_eq!(host.reopened, [Why::Sender]);
}

#[test]
fn after_a_flood_of_its_own_the_stream_goes_on() {
    let mut config = Config::pcmu(7);
    config.max_entries = 16;
    let (mut host, mut radio) = (Host::new(config, Rules::default(), ms(0)), Radio::new(7, 65_000, 0));
    host.talk(&mut radio, 50);
    for _ in 0..5_000 {
        let datagram = radio.next();
        host.take(&datagram);
    }
    host.pass(ms(200));
    let flooded = host.heard.len();
    host.talk(&mut radio, 100);
    host.pass(ms(200));
    let counts = host.counts();
    assert_eq!(counts[flooded..], (5_050..5_150).collect::<Vec<_>>());
    assert!(counts.is_sorted_by(|one, next| one < next));
    // what was pushed out is told as lost
    let lost: u64 = host.heard.iter().map(|(_, lost)| lost).sum();
    assert_eq!(lost + counts.len() as u64, 5_150);
}

#[test]
fn what_found_no_place_is_pushed_again() {
    let (mut host, mut radio) = (Host::new(Config::pcmu(7), Rules::default(), ms(0)), Radio::new(7, 100, 0));
    host.talk(&mut radio, 1);
    // twice 600 are lost, and G is 999
    for _ in 0..2 {
        (0..600).for_each(|_| drop(radio.next()));
        radio.timestamp -= 600 * 160;
        let datagram = radio.next();
        host.take(&datagram);
        host.pass(ms(20));
    }
    assert_eq!(host.receiver.tally().refused(Refusal::GapsFull), 1);
    host.talk(&mut radio, 20);
    host.pass(ms(300));
    let expected: Vec<u32> = [0, 601].into_iter().chain(1202..1223).collect();
    assert_eq!(host.counts(), expected);
    let losses: Vec<u64> = host.heard.iter().map(|(_, lost)| *lost).filter(|lost| *lost > 0).collect();
    assert_eq!(losses, [600, 600]);
    assert!(host.again > 0 && host.receiver.tally().given_up == 0 && host.reopened.is_empty());
}

#[test]
fn losses_are_told_with_the_packet_after_them() {
    for mode in [Mode::SortedQueue, Mode::Passthrough] {
        let mut config = Config::pcmu(7);
        config.mode = mode;
        let (mut host, mut radio) = (Host::new(config, Rules::default(), ms(0)), Radio::new(7, 65_530, 0));
        for lost in [0, 1, 0, 3, 0, 20] {
            (0..lost).for_each(|_| drop(radio.next()));
            host.talk(&mut radio, 2);
        }
        host.pass(ms(300));
        let expected = [0, 0, 1, 0, 0, 0, 3, 0, 0, 0, 20, 0];
        assert_eq!(host.heard.iter().map(|(_, lost)| *lost).collect::<Vec<_>>(), expected);
        assert_eq!(host.receiver.tally().lost, 24);
    }
}

#[test]
fn after_52_days_it_goes_on() {
    let day = Duration::from_secs(86_400);
    // a clock that counts from long before
    let (mut host, mut radio) = (Host::new(Config::pcmu(7), Rules::default(), 1_000 * day), Radio::new(7, 1, 0));
    for _ in 0..60 {
        host.talk(&mut radio, 5);
        host.pass(ms(200));
        host.now += 2 * day;
        radio.timestamp = radio.timestamp.wrapping_add(160 * 50 * 86_400 * 2);
    }
    assert_eq!(host.counts(), (0..300).collect::<Vec<_>>());
    assert_eq!(host.reopened, [Why::Age; 2]);
}

#[test]
fn what_waits_is_carried_over_the_52_days() {
    let hour = Duration::from_secs(3_600);
    // from just before the last hour to the end of the 52 days and past it, a packet waiting all the time
    for jump in [hour + ms(5), hour + ms(11), 2 * hour] {
        let (mut host, mut radio) = (Host::new(Config::pcmu(7), Rules::default(), ms(0)), Radio::new(7, 1, 0));
        host.now = bizhgemu::LATEST - hour - ms(10);
        assert_eq!(host.take(&radio.next()), Taken::Queued);
        host.now += jump;
        radio.timestamp += 8 * jump.as_millis() as u32;
        assert_eq!(host.take(&radio.next()), Taken::Queued);
        host.talk(&mut radio, 50);
        host.pass(ms(200));
        assert_eq!(host.counts(), (0..52).collect::<Vec<_>>());
        assert_eq!(host.reopened, [Why::Age]);
    }
}

#[test]
fn a_clock_that_goes_back_stops_nothing() {
    for (back, why) in [(ms(400), vec![]), (Duration::from_secs(3_600), vec![Why::ClockWentBack])] {
        let start = Duration::from_secs(10_000);
        let (mut host, mut radio) = (Host::new(Config::pcmu(7), Rules::default(), start), Radio::new(7, 1, 0));
        host.talk(&mut radio, 50);
        host.now -= back;
        host.talk(&mut radio, 100);
        host.pass(ms(1_000));
        assert_eq!(host.counts(), (0..150).collect::<Vec<_>>());
        assert_eq!(host.reopened, why);
    }
}

#[test]
fn settings_are_checked_and_changed_on_request() {
    let mut wrong = Config::pcmu(7);
    wrong.clock_rate = 0;
    assert_eq!(Receiver::open(&wrong, Rules::default(), ms(0)).err(), Some(Refusal::Settings));
    let (mut host, mut radio) = (Host::new(Config::pcmu(7), Rules::default(), ms(0)), Radio::new(7, 1, 0));
    host.talk(&mut radio, 10);
    assert_eq!(host.receiver.reopen(&wrong, host.now), Err(Refusal::Settings));
    assert_eq!(host.receiver.config(), &Config::pcmu(7));
    let mut other = Config::pcma(8);
    other.max_entries = 20;
    host.receiver.reopen(&other, host.now).unwrap();
    (radio.pt, radio.ssrc) = (8, 8);
    host.talk(&mut radio, 10);
    host.pass(ms(200));
    assert_eq!(host.counts(), (0..20).collect::<Vec<_>>());
    assert_eq!(host.reopened, [Why::Host]);
}

#[test]
fn one_payload_type_for_media_and_repairs_is_told_apart_by_ssrc() {
    let mut config = Config::pcmu(7);
    config.rtx = Some(Rtx::new(0, 9));
    let (mut host, mut radio) = (Host::new(config, Rules::default(), ms(0)), Radio::new(7, 10, 0));
    host.talk(&mut radio, 1);
    let lost = radio.next();
    host.talk(&mut radio, 1);
    let repair = rtp(0, 1, 160, 9, &[&11u16.to_be_bytes(), &lost[12..]].concat());
    assert_eq!(host.take(&repair), Taken::Recovered);
    assert_eq!(host.take(&repair), Taken::Redundant);
}

#[test]
fn nothing_that_comes_in_stops_it() {
    let (mut host, mut radio) = (Host::new(Config::pcmu(7), following(), ms(0)), Radio::new(7, 10, 0));
    host.talk(&mut radio, 10);
    let whole = radio.next();
    for length in 0..12 {
        host.take(&whole[..length]);
    }
    host.take(&[0xff; 2_000]);
    host.take(&[0x80; 65_535]);
    let mut turned = whole.clone();
    turned[8] ^= 0x10;
    host.take(&turned);
    host.take(&whole);
    host.talk(&mut radio, 20);
    host.pass(ms(200));
    assert_eq!(host.counts(), (0..31).collect::<Vec<_>>());
}

/// Linear congruence, for a path that does as it likes but the same each time.
struct Dice(u64);

impl Dice {
    fn below(&mut self, most: u64) -> u64 {
        self.0 = self.0.wrapping_mul(6_364_136_223_846_793_005).wrapping_add(1_442_695_040_888_963_407);
        (self.0 >> 33) % most
    }
}

#[test]
fn an_hour_of_everything() {
    let mut config = Config::pcmu(0);
    config.max_entries = 16;
    for seed in 1..=8 {
        let mut dice = Dice(seed);
        let (mut host, mut radio) = (Host::new(config, following(), ms(0)), Radio::new(7, 1, 0));
        for _ in 0..60 {
            // a minute's worth: a second to speak, then some trouble
            host.talk(&mut radio, 50);
            let (ssrc, number, timestamp) = (dice.below(1 << 32), dice.below(65_536), dice.below(1 << 32));
            match dice.below(6) {
                0 => radio.restart(radio.ssrc, number as u16, timestamp as u32),
                1 => radio.restart(ssrc as u32, number as u16, timestamp as u32),
                2 => (0..dice.below(2_000)).for_each(|_| drop(radio.next())),
                3 => (0..dice.below(500)).for_each(|_| _ = host.take(&radio.next())),
                4 => host.now += Duration::from_secs(dice.below(86_400 * 20)),
                _ => {
                    let datagram = radio.next();
                    (0..dice.below(100)).for_each(|_| _ = host.take(&datagram));
                }
            }
            // whatever it was: within two seconds the stream is heard again, and then without a gap
            host.talk(&mut radio, 100);
            let (from, sent) = (host.heard.len(), radio.sent);
            host.talk(&mut radio, 50);
            host.pass(ms(200));
            let last = &host.counts()[from..];
            assert_eq!(last.last(), Some(&(sent + 49)), "seed {seed}");
            assert!(last.windows(2).all(|pair| pair[0] + 1 == pair[1]), "seed {seed}: {last:?}");
        }
    }
}
