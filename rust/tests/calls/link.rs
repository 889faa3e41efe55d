//! Bookings: what goes out comes in, what the link shows, and the constants.
use crate::board::Board;
use penguinjug::{raw, row_numbers, Command, Events, Kind, Link, Mode, Row, Settings, Status, OUTPUT};
use std::mem::{align_of, offset_of, size_of};

#[test]
fn loop_back() {
    let (mut sender, mut receiver) = (Board::normal(1), Board::normal(2));
    let mut output = [9; OUTPUT];
    let line = sender.link.send(&[0x1f, 2, 3], &mut output).unwrap();
    assert_eq!(line, [0x7e, 0x1f, 0x04, 0x06, 0x6a, 0x11, 0xfc]);
    assert_eq!(receiver.receive(line), Ok(vec![]));
    assert!(output[7..].iter().all(|octet| *octet == 9));

    let line = sender.link.fill(&mut output).unwrap();
    assert_eq!(line, [0x3e, 0x08, 0x00, 0xb8, 0xe8, 0xf8]);
    assert!(matches!(receiver.receive(line).unwrap()[..], [Kind::HandedOver(unit)] if unit.length == 5));
    assert_eq!(receiver.link.read(&receiver.pool, &receiver.descriptors, 0).unwrap()[..3], [0x1f, 2, 3]);

    let line = sender.link.fill(&mut output).unwrap();
    assert!(matches!(receiver.receive(line).unwrap()[..], [Kind::HandedOver(_)]));
    assert_eq!(receiver.link.read(&receiver.pool, &receiver.descriptors, 1).unwrap(), [0x1f, 2, 0, 0x2e, 0x3a]);
    assert_eq!(sender.link.events(), Events::SENT | Events::FILL);
}

#[test]
fn repeat_dropped() {
    let (mut sender, mut output) = (Board::normal(1), [0; OUTPUT]);
    let mut receiver = Board::open(&Settings { filter: true, ..Settings::row(Row::Normal, 4) });
    let mut kinds = Vec::new();
    for content in [[0x1f, 2, 0], [0x1f, 2, 0], [0x1f, 3, 0], [0x1f, 3, 0], [0x1f, 3, 0], [0, 0, 0]] {
        let line = sender.link.send(&content, &mut output).unwrap();
        kinds.extend(receiver.receive(line).unwrap().iter().map(Kind::number));
    }
    // The zeros that were stuffed make a whole octet, so the last flag is out too.
    assert_eq!(sender.link.raw().transmitter.count, 0);
    assert_eq!(kinds, [0, 1, 0, 1, 1, 0]);
    assert_eq!(receiver.link.counts(), raw::Counts { good: 6, over: 3, dropped: 3, lost: 0 });
    assert_eq!(receiver.link.next_slot(), 3);
}

#[test]
fn monitor_alarm() {
    let mut board = Board::open(&Settings { t: 2, ..Settings::row(Row::Emergency, 4) });
    assert_eq!(board.link.mode(), Some(Mode::Off));
    board.link.command(Command::StartFailure).unwrap();
    board.receive(&[0x7e, 0, 0, 0, 0, 0, 0x7e]).unwrap();
    assert_eq!((board.link.mode(), board.link.monitor_count()), (Some(Mode::Failure), 1));
    board.receive(&[0, 0, 0, 0, 0, 0x7e]).unwrap();
    assert_eq!((board.link.mode(), board.link.monitor_count()), (Some(Mode::Idle), 2));
    assert_eq!(board.link.events(), Events::OVER | Events::SUER);
    board.link.clear(Events::SUER).unwrap();
    assert_eq!(board.link.events(), Events::OVER);
}

#[test]
fn slots_and_wipe() {
    let mut board = Board::normal(2);
    board.receive(&[0x7e, 0, 0, 0, 0xcc, 0xc6, 0x7e]).unwrap();
    assert_eq!(board.descriptors, [Status::Good.number(), 5, Status::Empty.number(), 0]);
    assert_eq!(board.link.read(&board.pool, &board.descriptors, 0), Ok(&[0, 0, 0, 0xcc, 0xc6][..]));
    board.link.hand_back(&mut board.pool, &mut board.descriptors, 0).unwrap();
    assert_eq!(board.descriptors, [Status::Empty.number(), 0, Status::Empty.number(), 0]);
    board.link.wipe(&mut board.pool, &mut board.descriptors);
    assert_eq!(board.descriptors, [0; 4]);
    assert!(board.pool.iter().all(|octet| *octet == 0));
    assert_eq!(board.link, Link::default());
}

#[test]
fn wipe_takes_areas_of_any_length() {
    let mut link = Board::normal(1).link;
    let (mut octets, mut words) = ([7; 3], [7; 5]);
    link.wipe(&mut octets, &mut words);
    assert_eq!((octets, words), ([0; 3], [0; 5]));
    link.wipe(&mut [], &mut []);
    assert_eq!(link, Link::new());
}

#[test]
fn settings_of_a_booking() {
    assert_eq!(Link::new().settings(), None);
    let settings = Settings { mask: [1, 2, 3, 4, 5], orn: true, ..Settings::row(Row::ShortEmergency, 3) };
    let link = Board::open(&settings).link;
    assert_eq!(link.settings(), Some(settings));
    assert_eq!(link.raw().settings, settings.raw());
    let malformed = raw::Link { settings: raw::Settings { orn: 2, ..settings.raw() }, mode: 4, ..*link.raw() };
    assert_eq!((Link::from_raw(malformed).settings(), Link::from_raw(malformed).mode()), (None, None));
}

#[test]
fn rows() {
    let rows = [(Row::Normal, 64, 4), (Row::Emergency, 64, 1), (Row::ShortNormal, 32, 4), (Row::ShortEmergency, 32, 1)];
    for ((row, t, a), number) in rows.into_iter().zip(1..) {
        assert_eq!(row.number(), number);
        assert_eq!(row_numbers(number), raw::Row { m: 278, n: 16, t, d: 256, a });
        let settings = Settings::row(row, 16);
        let raw::Settings { k, m, n, filter, itu, orn, mask, .. } = settings.raw();
        assert_eq!((k, m, n, settings.t, settings.d, settings.a), (16, 278, 16, t, 256, a));
        assert_eq!((filter, itu, orn, mask), (0, 0, 0, [255; 5]));
    }
}

#[test]
fn constants_are_those_of_the_library() {
    use penguinjug::*;
    let raw::Limits { sizes, statuses, events } = limits();
    let range = |least, most| raw::Range { least, most };
    assert_eq!((sizes.slot, sizes.slots), (SLOT, range(LEAST_SLOTS, MOST_SLOTS)));
    assert_eq!((sizes.longest, sizes.counts), (range(LEAST_LONGEST, MOST_LONGEST), range(LEAST_COUNT, MOST_COUNT)));
    assert_eq!((sizes.line, sizes.record, sizes.records), (MOST_LINE, RECORD, RECORDS));
    assert_eq!((sizes.output, sizes.content), (OUTPUT, range(LEAST_CONTENT, MOST_CONTENT)));
    let raw::Statuses { empty, good, check_wrong, not_whole } = statuses;
    let numbers = [Status::Empty, Status::Good, Status::CheckWrong, Status::NotWhole].map(Status::number);
    assert_eq!([empty, good, check_wrong, not_whole], numbers);
    let raw::Events { over, busy, suer, aerm, octet, abort, long_unit, sent, fill } = events;
    let bits = [over, busy, suer, aerm, octet, abort, long_unit, sent, fill];
    let named = [
        Events::OVER,
        Events::BUSY,
        Events::SUER,
        Events::AERM,
        Events::OCTET,
        Events::ABORT,
        Events::LONG,
        Events::SENT,
        Events::FILL,
    ];
    assert_eq!(bits, named.map(Events::bits));
    assert_eq!(named.into_iter().fold(Events::default(), |all, bit| all | bit), Events::ALL);
}

#[test]
fn places_in_the_link() {
    assert_eq!((size_of::<raw::Link>(), align_of::<raw::Link>()), (338, 2));
    assert_eq!(size_of::<raw::Settings>(), 20);
    assert_eq!((offset_of!(raw::Link, counts), offset_of!(raw::Link, events)), (20, 32));
    assert_eq!((offset_of!(raw::Link, memory), offset_of!(raw::Link, line)), (38, 46));
    assert_eq!((offset_of!(raw::Link, transmitter), offset_of!(raw::Link, opened)), (50, 56));
    assert_eq!((offset_of!(raw::Link, mode), offset_of!(raw::Link, area)), (58, 59));
}

#[test]
fn events_by_name() {
    assert_eq!(format!("{:?}", Events::default()), "Events()");
    assert_eq!(format!("{:?}", Events::OVER | Events::FILL), "Events(OVER | FILL)");
    assert_eq!(format!("{:?}", Events::from_bits(0x8002)), "Events(BUSY | 0x8000)");
    let mut events = Events::OVER;
    events |= Events::BUSY;
    assert_eq!(events.bits(), 3);
    assert!(events.contains(Events::default()) && !events.contains(Events::LONG) && !events.is_empty());
}
