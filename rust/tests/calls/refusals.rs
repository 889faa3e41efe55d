//! Every refusal, by the calls that have it to give.
use crate::board::Board;
use penguinjug::{raw, Command, Events, Link, Refusal, Row, Settings, MOST_LINE, OUTPUT, RECORDS, SLOT};

/// What every call but wipe, which is never refused, answers over a board's memory.
fn answers(board: &mut Board) -> [Result<(), Refusal>; 10] {
    let Board { link, pool, descriptors } = board;
    let settings = Settings::row(Row::Normal, 1);
    [
        link.open(&settings, pool, descriptors),
        link.receive(&[], pool, descriptors, &mut []).map(|_| ()),
        link.receive_octets(&[], pool, descriptors, &mut []).map(|_| ()),
        link.command(Command::StartFailure),
        link.clear(Events::ALL),
        link.read(pool, descriptors, 0).map(|_| ()),
        link.read_number(pool, descriptors, 0),
        link.hand_back(pool, descriptors, 0),
        link.send(&[1, 2, 3], &mut [0; OUTPUT]).map(|_| ()),
        link.fill(&mut [0; OUTPUT]).map(|_| ()),
    ]
}

/// All calls refuse the link with 1 and give it back as it is.
fn assert_malformed(link: raw::Link) {
    let mut board = Board { link: Link::from_raw(link), ..Board::normal(1) };
    assert_eq!(answers(&mut board), [Err(Refusal::LinkMalformed); 10]);
    assert_eq!(*board.link.raw(), link);
}

#[test]
fn numbers_and_words() {
    for (refusal, number) in Refusal::ALL.into_iter().zip(1..) {
        assert_eq!(refusal.number(), number);
        assert_eq!(Refusal::from_number(number), Some(refusal));
    }
    assert_eq!(Refusal::from_number(0), None);
    assert_eq!(Refusal::from_number(14), None);
    let words: Vec<String> = Refusal::ALL.iter().map(Refusal::to_string).collect();
    let readme = include_str!("../../../README.md");
    for (word, number) in words.iter().zip(1..) {
        assert!(readme.contains(&format!("| {number} | {word} |")), "{number} is not {word} in the README");
    }
}

#[test]
fn malformed_1() {
    let open = *Board::normal(1).link.raw();
    assert_malformed(raw::Link { mode: 4, ..open });
    assert_malformed(raw::Link { opened: 2, ..open });
    assert_malformed(raw::Link { counting: 2, ..open });
    assert_malformed(raw::Link { settings: raw::Settings { filter: 2, ..open.settings }, ..open });
    assert_malformed(raw::Link { settings: raw::Settings { itu: 2, ..open.settings }, ..open });
    assert_malformed(raw::Link { settings: raw::Settings { orn: 255, ..open.settings }, ..open });
    assert_malformed(raw::Link { memory: raw::Memory { alike: 2, ..open.memory }, ..open });
    assert_malformed(raw::Link { line: raw::Line { hunting: 2, ..open.line }, ..open });
    assert_malformed(raw::Link { transmitter: raw::Transmitter { flagged: 2, ..open.transmitter }, ..open });
    assert_malformed(raw::Link { transmitter: raw::Transmitter { sent: 2, ..open.transmitter }, ..open });
    assert_malformed(raw::Link { next: 1, ..open });
    assert_malformed(raw::Link { events: 1, ..*Link::new().raw() });
}

#[test]
fn malformed_comes_before_every_other_fault() {
    let mut link = Link::from_raw(raw::Link { mode: 4, ..*Link::new().raw() });
    let settings = raw::Settings { filter: 2, ..Settings::row(Row::Normal, 17).raw() };
    assert_eq!(link.open_raw(&settings, &mut [1], &mut [1]), Err(Refusal::LinkMalformed));
    assert_eq!(link.command_number(0), Err(Refusal::LinkMalformed));
    assert_eq!(link.send(&[], &mut []), Err(Refusal::LinkMalformed));
    assert_eq!(link.read(&[], &[], 9), Err(Refusal::LinkMalformed));
}

#[test]
fn closed_2_and_open_3() {
    let mut board = Board { link: Link::new(), pool: vec![0; SLOT], descriptors: vec![0; 2] };
    let Board { link, pool, descriptors } = &mut board;
    assert_eq!(link.receive(&[], pool, descriptors, &mut []).err(), Some(Refusal::LinkClosed));
    assert_eq!(link.receive_octets(&[], pool, descriptors, &mut []).err(), Some(Refusal::LinkClosed));
    assert_eq!(link.command(Command::MonitorOff), Err(Refusal::LinkClosed));
    assert_eq!(link.clear(Events::ALL), Err(Refusal::LinkClosed));
    assert_eq!(link.read(pool, descriptors, 0), Err(Refusal::LinkClosed));
    assert_eq!(link.read_number(pool, descriptors, 0), Err(Refusal::LinkClosed));
    assert_eq!(link.hand_back(pool, descriptors, 0), Err(Refusal::LinkClosed));
    assert_eq!(link.send(&[1, 2, 3], &mut [0; OUTPUT]), Err(Refusal::LinkClosed));
    assert_eq!(link.fill(&mut [0; OUTPUT]), Err(Refusal::LinkClosed));
    assert_eq!(*link, Link::new());
    assert_eq!(answers(&mut board)[0], Ok(()));
    assert_eq!(answers(&mut board)[0], Err(Refusal::LinkOpen));
}

#[test]
fn setting_4() {
    let right = Settings::row(Row::Normal, 1).raw();
    let wrong = [
        raw::Settings { filter: 2, ..right },
        raw::Settings { itu: 2, ..right },
        raw::Settings { orn: 2, ..right },
        raw::Settings { k: 0, ..right },
        raw::Settings { k: 17, ..right },
        raw::Settings { m: 6, ..right },
        raw::Settings { m: 279, ..right },
        raw::Settings { n: 0, ..right },
        raw::Settings { t: 1025, ..right },
        raw::Settings { d: 0, ..right },
        raw::Settings { a: 1025, ..right },
    ];
    for settings in wrong {
        let mut link = Link::new();
        assert_eq!(link.open_raw(&settings, &mut [0; SLOT], &mut [0; 2]), Err(Refusal::SettingOutOfRange));
        assert_eq!(link, Link::new());
    }
}

#[test]
fn memory_5_and_6() {
    let settings = Settings::row(Row::Normal, 1);
    let mut link = Link::new();
    assert_eq!(link.open(&settings, &mut [], &mut []), Err(Refusal::MemorySize));
    assert_eq!(link.open(&settings, &mut [0; SLOT + 1], &mut [0; 2]), Err(Refusal::MemorySize));
    assert_eq!(link.open(&settings, &mut [0; SLOT], &mut [0; 1]), Err(Refusal::MemorySize));
    assert_eq!(link.open(&settings, &mut [1; SLOT], &mut [0; 2]), Err(Refusal::MemoryNotZero));
    assert_eq!(link.open(&settings, &mut [0; SLOT], &mut [0, 1]), Err(Refusal::MemoryNotZero));
    assert_eq!(link, Link::new());
    let Board { mut link, mut pool, mut descriptors } = Board::normal(1);
    assert_eq!(link.receive(&[], &mut [], &mut descriptors, &mut []).err(), Some(Refusal::MemorySize));
    assert_eq!(link.receive_octets(&[], &mut pool, &mut [], &mut []).err(), Some(Refusal::MemorySize));
    assert_eq!(link.read(&pool, &[], 0), Err(Refusal::MemorySize));
    assert_eq!(link.read_number(&[], &descriptors, 0), Err(Refusal::MemorySize));
    assert_eq!(link.hand_back(&mut [], &mut [], 0), Err(Refusal::MemorySize));
}

#[test]
fn line_7_and_records_8() {
    let Board { mut link, mut pool, mut descriptors } = Board::normal(1);
    let before = link.clone();
    let (long, mut area) = ([0; MOST_LINE + 1], vec![7; RECORDS * (MOST_LINE + 1)]);
    assert_eq!(link.receive(&long, &mut pool, &mut descriptors, &mut area).err(), Some(Refusal::LineTooLong));
    assert_eq!(link.receive_octets(&long, &mut pool, &mut descriptors, &mut area).err(), Some(Refusal::LineTooLong));
    let small = &mut area[..2 * RECORDS - 1];
    assert_eq!(link.receive(&[0x7e; 2], &mut pool, &mut descriptors, small).err(), Some(Refusal::RecordsTooSmall));
    assert_eq!(link.receive_octets(&[0x7e; 2], &mut pool, &mut descriptors, small).err(), Some(Refusal::RecordsTooSmall));
    assert_eq!(link, before);
    assert!(area.iter().all(|octet| *octet == 7));
}

#[test]
fn output_9_and_content_10() {
    let mut link = Board::normal(1).link;
    let before = link.clone();
    assert_eq!(link.send(&[], &mut [0; OUTPUT - 1]), Err(Refusal::OutputTooSmall));
    assert_eq!(link.fill(&mut []), Err(Refusal::OutputTooSmall));
    let mut output = [7; OUTPUT];
    assert_eq!(link.send(&[1, 2], &mut output), Err(Refusal::ContentLength));
    assert_eq!(link.send(&[1; 277], &mut output), Err(Refusal::ContentLength));
    assert_eq!(link, before);
    assert_eq!(output, [7; OUTPUT]);
}

#[test]
fn command_11() {
    let mut link = Board::normal(1).link;
    for number in [0, 6, u16::MAX] {
        assert_eq!(link.command_number(number), Err(Refusal::CommandUnknown));
    }
    for number in 1..=5 {
        assert_eq!(link.command_number(number), Ok(()));
    }
}

#[test]
fn slot_12_and_13() {
    let Board { mut link, mut pool, mut descriptors } = Board::normal(2);
    for (slot, refusal) in [(2, Refusal::NoSuchSlot), (u16::MAX, Refusal::NoSuchSlot), (1, Refusal::SlotNotFilled)] {
        assert_eq!(link.read(&pool, &descriptors, slot), Err(refusal));
        assert_eq!(link.read_number(&pool, &descriptors, slot), Err(refusal));
        assert_eq!(link.hand_back(&mut pool, &mut descriptors, slot), Err(refusal));
    }
    descriptors[2..].copy_from_slice(&[2, 279]);
    assert_eq!(link.read(&pool, &descriptors, 1), Err(Refusal::SlotNotFilled));
    descriptors[2..].copy_from_slice(&[2, 278]);
    assert_eq!(link.read(&pool, &descriptors, 1), Ok(&pool[SLOT..][..278]));
    descriptors[2..].copy_from_slice(&[0, 0]);
    assert_eq!(link.read(&pool, &descriptors, 1), Ok(&[][..]));
}
