//! Records and how they are taken apart.
use crate::board::Board;
use penguinjug::{raw, Command, Events, Kind, Record, Row, Settings, Status, Unit, RECORDS};

/// The fill-in unit of three zeros.
const FILL_IN: [u8; 5] = [0, 0, 0, 0xcc, 0xc6];

#[test]
fn short_unit_between_flags() {
    let mut board = Board::normal(16);
    let line = [0x7e, 0, 0, 0, 0x7e];
    let mut area = [9; 5 * RECORDS];
    let mut records = board.link.receive(&line, &mut board.pool, &mut board.descriptors, &mut area).unwrap();
    assert_eq!(records.octets(), [5, 0, 3, 0, 0, 0, 0, 0, 0, 0, 0, 0, 0, 0, 0, 0]);
    assert_eq!(records.len(), 1);
    let short = Kind::Short(Unit { length: 3, first: [0; 5] });
    assert_eq!(records.next(), Some(Record { kind: short, monitor_count: 0, good_count: 0, alarm: false }));
    assert_eq!(records.len(), 0);
    assert_eq!(records.next(), None);
    assert!(records.octets().is_empty());
    assert!(area[16..].iter().all(|octet| *octet == 9));
}

#[test]
fn good_units() {
    let unit = Unit { length: 5, first: FILL_IN };
    let mut board = Board::open(&Settings { filter: true, ..Settings::row(Row::Normal, 1) });
    assert_eq!(board.receive(&between_flags(&FILL_IN)), Ok(vec![Kind::HandedOver(unit)]));
    assert_eq!(board.receive(&between_flags(&FILL_IN)), Ok(vec![Kind::Dropped(unit)]));
    board.link.command(Command::MustHandOver).unwrap();
    assert_eq!(board.receive(&between_flags(&FILL_IN)), Ok(vec![Kind::Lost(unit)]));
    assert_eq!(board.link.counts(), raw::Counts { good: 3, over: 1, dropped: 1, lost: 1 });
    assert_eq!(board.link.events(), Events::OVER | Events::BUSY);
}

#[test]
fn errored_units() {
    let unit = Unit { length: 5, first: [0; 5] };
    let mut board = Board::normal(2);
    assert_eq!(board.receive(&between_flags(&[0; 5])), Ok(vec![Kind::CheckWrong { unit, lost: false }]));
    // One zero more before the closing flag: 41 bits.
    assert_eq!(board.receive(&[0, 0, 0, 0, 0, 0xfc, 0]), Ok(vec![Kind::NotWhole { unit, lost: false }]));
    assert_eq!(board.descriptors, [Status::CheckWrong.number(), 5, Status::NotWhole.number(), 5]);
    assert_eq!(board.receive(&between_flags(&[0; 5])).map(|kinds| kinds[1]), Ok(Kind::CheckWrong { unit, lost: true }));
    assert_eq!(board.receive(&[0, 0, 0, 0, 0, 0xfc, 0]), Ok(vec![Kind::NotWhole { unit, lost: true }]));
    assert_eq!(board.link.counts(), raw::Counts { good: 0, over: 0, dropped: 0, lost: 0 });
}

#[test]
fn without_a_unit() {
    let mut board = Board::open(&Settings { m: 7, n: 4, itu: true, ..Settings::row(Row::Normal, 1) });
    assert_eq!(board.receive(&[0x7e, 0xff, 0xff]), Ok(vec![Kind::Abort]));
    assert_eq!(board.receive(&[0xff]), Ok(vec![Kind::Tick]));
    // 56 bits are gathered; above 8M + 7, which is 63, the unit is long.
    assert_eq!(board.receive(&[0x7e, 0, 0, 0, 0, 0, 0, 0]), Ok(vec![Kind::Tick, Kind::Tick]));
    assert_eq!(board.receive(&[0]), Ok(vec![Kind::Long]));
    assert_eq!(board.link.events(), Events::ABORT | Events::OCTET | Events::LONG);
}

#[test]
fn rules_of_a_record() {
    let mut good = [[0; 16]; 9];
    for (kind, record) in good.iter_mut().enumerate() {
        record[0] = kind as u8;
        record[1] = u8::from(kind == 2);
    }
    for (kind, record) in good.iter().enumerate() {
        assert_eq!(Record::decode(record).map(|record| usize::from(record.kind.number())), Some(kind));
        assert_eq!(Record::decode(&with(record, 13, 1)).map(|record| record.alarm), Some(true));
        assert_eq!(Record::decode(&with(record, 1, 2)), None);
        assert_eq!(Record::decode(&with(record, 13, 2)), None);
        assert_eq!(Record::decode(&with(record, 14, 1)), None);
        assert_eq!(Record::decode(&with(record, 15, 1)), None);
        assert_eq!(Record::decode(&with(record, 1, 0)).is_some(), kind != 2);
        assert_eq!(Record::decode(&with(record, 1, 1)).is_some(), (2..=4).contains(&kind));
        for place in [2, 3, 8, 9, 10, 11, 12] {
            assert_eq!(Record::decode(&with(record, place, 1)).is_some(), kind < 6);
        }
    }
    assert_eq!(Record::decode(&with(&good[0], 0, 9)), None);
}

#[test]
fn places_of_a_record() {
    let record = Record::decode(&[3, 1, 0x16, 1, 2, 3, 4, 5, 6, 7, 8, 9, 10, 1, 0, 0]).unwrap();
    let unit = Unit { length: 278, first: [6, 7, 8, 9, 10] };
    assert_eq!(record.kind, Kind::CheckWrong { unit, lost: true });
    assert_eq!(record.kind.unit(), Some(unit));
    assert_eq!((record.monitor_count, record.good_count, record.alarm), (0x302, 0x504, true));
}

fn with(record: &[u8; 16], place: usize, octet: u8) -> [u8; 16] {
    let mut changed = *record;
    changed[place] = octet;
    changed
}

fn between_flags(unit: &[u8]) -> Vec<u8> {
    [&[0x7e], unit, &[0x7e]].concat()
}
