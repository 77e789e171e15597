//! NACKs on the wire: the entries name what `poll_nack` names, and what a `Receiver` sends reads back as that.

use bizhgemu::rtcp::{GenericNack, LARGEST_DATAGRAM, Reporter, packets};
use bizhgemu::{Config, Mode, Queue, Receiver, Refusal, Rtx, Rules, read_nacks, read_nacks_into};
use std::time::Duration;

fn ms(milliseconds: u64) -> Duration {
    Duration::from_millis(milliseconds)
}

fn datagram(number: u16) -> Vec<u8> {
    let timestamp = u32::from(number).wrapping_mul(160).to_be_bytes();
    [&[0x80, 0][..], &number.to_be_bytes(), &timestamp, &[0, 0, 0, 42]].concat()
}

fn repair(number: u16) -> Vec<u8> {
    let mut bytes = datagram(number);
    (bytes[1], bytes[11]) = (99, 44);
    bytes.extend(number.to_be_bytes());
    bytes
}

/// Numbers below `most`, the same at each run.
struct Chance(u64);

impl Chance {
    fn below(&mut self, most: u64) -> u64 {
        self.0 = self.0.wrapping_mul(6_364_136_223_846_793_005).wrapping_add(1_442_695_040_888_963_407);
        (self.0 >> 33) % most
    }
}

/// Words of the session and the lists; what is lent to the calls is not among them.
fn alike(one: &Queue, other: &Queue) -> bool {
    let lists =
        one.waiting().eq(other.waiting()) && one.gaps().eq(other.gaps()) && one.remembered().eq(other.remembered());
    lists && format!("{one:?}") == format!("{other:?}")
}

/// Whether the entries are those of 02: each begins at the first number not yet named and names every one of its sixteen. (The numbers
/// ascend by extended number and lie within less than a cycle.)
fn pairs(numbers: &[u16]) -> Vec<u8> {
    let mut entries: Vec<(u16, u16)> = Vec::new();
    for number in numbers {
        match entries.last_mut() {
            Some((first, mask)) if number.wrapping_sub(*first) <= 16 => *mask |= 1 << (number.wrapping_sub(*first) - 1),
            _ => entries.push((*number, 0)),
        }
    }
    entries.iter().flat_map(|(first, mask)| [first.to_be_bytes(), mask.to_be_bytes()].concat()).collect()
}

/// Two queues hear the same; the one is asked for numbers, the other for entries.
#[test]
fn the_entries_name_what_poll_nack_names_and_the_queue_goes_on_alike() {
    let mut longest = 0;
    for seed in 0..24 {
        let mut chance = Chance(seed);
        let mut config = Config::pcmu(42);
        config.rtx = Some(Rtx::new(99, 44));
        config.mode = if seed % 2 == 0 { Mode::SortedQueue } else { Mode::Passthrough };
        let (mut plain, mut wire) = (Queue::open(&config).unwrap(), Queue::open(&config).unwrap());
        let (mut number, mut now) = (65_000u16.wrapping_add(seed as u16 * 20), 0);
        let loss = 1 + chance.below(60);
        for _ in 0..400 {
            now += chance.below(12);
            number = number.wrapping_add(1 + if chance.below(100) < loss { chance.below(40) as u16 } else { 0 });
            assert_eq!(plain.push(ms(now), &datagram(number)), wire.push(ms(now), &datagram(number)));
            let numbers = plain.poll_nack(ms(now)).map(<[u16]>::to_vec);
            let entries = wire.nack_wire(ms(now)).map(<[u8]>::to_vec);
            let (Ok(numbers), Ok(entries)) = (numbers, entries) else {
                panic!("refused");
            };
            assert_eq!(read_nacks(&entries).unwrap(), numbers);
            assert_eq!(entries, pairs(&numbers));
            longest = longest.max(entries.len());
            for lost in numbers.into_iter().filter(|_| chance.below(3) > 0).take(20) {
                assert_eq!(plain.push_rtx(ms(now), &repair(lost)), wire.push_rtx(ms(now), &repair(lost)));
            }
            while chance.below(2) > 0 && plain.poll(ms(now)).unwrap().is_some() {
                assert!(wire.poll(ms(now)).unwrap().is_some());
            }
            let after = wire.poll(ms(now)).unwrap().map(|packet| packet.sequence_number);
            assert_eq!(plain.poll(ms(now)).unwrap().map(|packet| packet.sequence_number), after);
            assert!(alike(&plain, &wire));
        }
    }
    assert!(longest > 40, "{longest}");
}

#[test]
fn bytes_of_ones_own_are_written_to_and_kept_behind() -> Result<(), Refusal> {
    let mut queue = Queue::open(&Config::pcmu(42))?;
    queue.push(ms(0), &datagram(1))?;
    queue.push(ms(0), &datagram(20))?;
    let mut out = vec![0xaa; 4 * 999];
    assert_eq!(queue.nack_wire_into(ms(5), &mut out[1..]), Err(Refusal::Output));
    assert!(out.iter().all(|byte| *byte == 0xaa));
    assert_eq!(queue.nack_wire_into(ms(5), &mut out)?, 8);
    assert_eq!(out[..9], [0, 2, 0xff, 0xff, 0, 19, 0, 0, 0xaa]);
    assert_eq!(queue.nack_wire_into(ms(5), &mut out)?, 0);
    let mut numbers = [0xaaaa; 35];
    assert_eq!(read_nacks_into(&out[..8], &mut numbers[..33]), Err(Refusal::Output));
    assert_eq!(read_nacks_into(&out[..8], &mut numbers)?, 18);
    assert!(numbers[..18].iter().eq(&Vec::from_iter(2..20)) && numbers[18..].iter().all(|number| *number == 0xaaaa));
    Ok(())
}

#[test]
fn every_list_of_whole_entries_is_read() {
    assert_eq!(read_nacks(&[]), Ok(Vec::new()));
    for length in 0..200 {
        let bytes: Vec<u8> = (0..length).map(|place| (place * 37 % 251) as u8).collect();
        match read_nacks(&bytes) {
            Err(refusal) => assert!(length % 4 != 0 && refusal == Refusal::NackEntries),
            Ok(numbers) => {
                let ones: u32 = bytes.chunks(4).map(|entry| 1 + entry[2].count_ones() + entry[3].count_ones()).sum();
                assert_eq!((length % 4, numbers.len()), (0, ones as usize));
            }
        }
    }
    // overlapping and repeated entries, as nobody here writes them: every number is told
    assert_eq!(read_nacks(&[0, 9, 0, 1, 0, 10, 0, 0, 0, 9, 0, 1]).unwrap(), [9, 10, 10, 9, 10]);
}

/// What the datagrams ask for.
fn asked(datagrams: &[Vec<u8>]) -> Vec<u16> {
    let nacks = datagrams.iter().map(|datagram| {
        assert!(datagram.len() <= LARGEST_DATAGRAM);
        let last = packets(datagram).expect("RTCP").last().expect("feedback is the last");
        let nack = GenericNack::read(last).expect("a generic NACK");
        assert_eq!((nack.sender_ssrc, nack.media_ssrc), (7, 42));
        read_nacks(nack.entries).unwrap()
    });
    nacks.flatten().collect()
}

#[test]
fn a_receiver_asks_for_the_same_by_packets_and_counts_alike() {
    for reporter in [Reporter::reduced_size(7), Reporter::compound(7, "box@example")] {
        let open = || Receiver::open(&Config::pcmu(42), Rules::default(), ms(1_000)).unwrap();
        let (mut plain, mut framed) = (open(), open());
        let mut many = 0;
        for (step, number) in [65_530, 65_533, 65_534, 10, 40, 41].into_iter().enumerate() {
            let now = ms(1_000 + 30 * step as u64);
            assert_eq!(plain.take(now, &datagram(number)), framed.take(now, &datagram(number)));
            let now = now + ms(5);
            let numbers = plain.nacks(now).to_vec();
            assert_eq!(asked(&framed.nack_packets(now, &reporter)), numbers);
            many += numbers.len() as u64;
        }
        assert!(many > 40);
        assert_eq!((plain.tally().nacked, framed.tally().nacked), (many, many));
        assert_eq!(plain.tally(), framed.tally());
    }
}

#[test]
fn what_does_not_fit_one_datagram_goes_in_several() {
    let mut config = Config::pcmu(42);
    (config.mode, config.max_entries) = (Mode::Passthrough, 1);
    let mut receiver = Receiver::open(&config, Rules::default(), ms(0)).unwrap();
    // one in 18 is lost: an entry to each
    let mut lost = Vec::new();
    for number in 0..5_600u16 {
        if number % 18 == 17 {
            lost.push(number);
            continue;
        }
        receiver.take(ms(0), &datagram(number));
        assert!(receiver.poll(ms(0)).is_some());
    }
    let datagrams = receiver.nack_packets(ms(5), &Reporter::reduced_size(7));
    // the last may not be seen to be missing
    lost.retain(|number| *number < 5_599);
    assert_eq!(lost.len(), 311);
    assert_eq!(datagrams.iter().map(Vec::len).collect::<Vec<_>>(), [1200, 12 + 4 * (311 - 297)]);
    assert_eq!(asked(&datagrams), lost);
    assert_eq!(receiver.nack_packets(ms(5), &Reporter::reduced_size(7)), Vec::<Vec<u8>>::new());
}
