//! A receiver for one signalling link that goes bit by bit: the rules of the scope as a plain program, with no table and no proof.
use crate::job::{Job, Memory, FILTER, ITU, ORN, RECORD, SLOT, SLOTS};

const STATUS_EMPTY: u16 = 32768;
const STATUS_GOOD: u16 = 0;
const STATUS_CHECK_WRONG: u16 = 1;
const STATUS_NOT_WHOLE: u16 = 2;

const KIND_OVER: u8 = 0;
const KIND_DROPPED: u8 = 1;
const KIND_LOST: u8 = 2;
const KIND_CHECK_WRONG: u8 = 3;
const KIND_NOT_WHOLE: u8 = 4;
const KIND_SHORT: u8 = 5;
const KIND_LONG: u8 = 6;
const KIND_ABORT: u8 = 7;
const KIND_TICK: u8 = 8;

const EVENT_OVER: u16 = 1;
const EVENT_BUSY: u16 = 2;
const EVENT_SUER: u16 = 4;
const EVENT_OCTET: u16 = 16;
const EVENT_ABORT: u16 = 32;
const EVENT_LONG: u16 = 64;

const FILL_IN: usize = 5;
const LINK_STATUS: usize = 7;
/// Bits of a closed unit below which it is short.
const SHORTEST: usize = 40;
/// Gathered bits that belong to the closing flag.
const OF_FLAG: usize = 7;
const MOST_LONGEST: usize = 278;
/// What the check leaves over a good unit.
const GOOD: u16 = 0xF0B8;

/// The settings of a booking, without those of the alignment monitor.
struct Settings {
    longest: usize,
    octets: u16,
    threshold: u16,
    decay: u16,
    mask: [u8; 5],
    filter: bool,
    itu: bool,
    orn: bool,
}

impl Settings {
    fn row_one(switches: u64) -> Settings {
        Settings {
            longest: MOST_LONGEST,
            octets: 16,
            threshold: 64,
            decay: 256,
            mask: [255; 5],
            filter: switches & FILTER != 0,
            itu: switches & ITU != 0,
            orn: switches & ORN != 0,
        }
    }
}

/// The failure monitor. Once it has raised the alarm it is idle.
struct Monitor {
    started: bool,
    count: u16,
    event: u16,
}

impl Monitor {
    /// One event; whether it raised the alarm.
    fn take(&mut self, errored: bool, settings: &Settings) -> bool {
        if !self.started {
            return false;
        }
        if errored {
            self.count += 1;
            if self.count == settings.threshold {
                self.started = false;
                return true;
            }
        }
        self.event += 1;
        if self.event == settings.decay {
            self.event = 0;
            self.count = self.count.saturating_sub(1);
        }
        false
    }
}

/// What the filter remembers of the last good unit: length, first five octets under the mask, and whether the unit before was alike.
struct Remembered {
    length: usize,
    masked: [u8; 5],
    repeated: bool,
}

/// Four counts of good units, each modulo 65,536.
struct Counts {
    good: u16,
    over: u16,
    dropped: u16,
    lost: u16,
}

/// A record without what the link adds to it.
struct Found {
    kind: u8,
    lost: bool,
    length: usize,
    first: [u8; 5],
    alarm: bool,
}

impl Found {
    /// A happening that is no unit.
    fn bare(kind: u8, alarm: bool) -> Found {
        Found { kind, lost: false, length: 0, first: [0; 5], alarm }
    }
}

/// The memory that one call is lent, and how many records it has written.
struct Lent<'a> {
    pool: &'a mut [u8],
    descriptors: &'a mut [u16],
    records: &'a mut [u8],
    count: usize,
}

impl Lent<'_> {
    /// Puts a unit into a slot, if that is empty.
    fn store(&mut self, slot: usize, unit: &[u8], status: u16) -> bool {
        if self.descriptors[2 * slot] != STATUS_EMPTY {
            return false;
        }
        let place = &mut self.pool[SLOT * slot..SLOT * (slot + 1)];
        place[..unit.len()].copy_from_slice(unit);
        place[unit.len()..].fill(0);
        self.descriptors[2 * slot] = status;
        self.descriptors[2 * slot + 1] = unit.len() as u16;
        true
    }
}

/// A link that is open and receives.
struct Receiver {
    settings: Settings,
    ones: u8,
    hunting: bool,
    bits: usize,
    octet: u8,
    area: [u8; MOST_LONGEST],
    counting: bool,
    left: u16,
    counts: Counts,
    remembered: Option<Remembered>,
    next: usize,
    monitor: Monitor,
    events: u16,
}

impl Receiver {
    /// A new booking, with all slots empty and the failure monitor started.
    fn open(settings: Settings, descriptors: &mut [u16]) -> Receiver {
        for slot in descriptors.chunks_exact_mut(2) {
            slot.copy_from_slice(&[STATUS_EMPTY, 0]);
        }
        Receiver {
            ones: 7,
            hunting: true,
            bits: 0,
            octet: 0,
            area: [0; MOST_LONGEST],
            counting: false,
            left: settings.octets,
            counts: Counts { good: 0, over: 0, dropped: 0, lost: 0 },
            remembered: None,
            next: 0,
            monitor: Monitor { started: true, count: 0, event: 0 },
            events: 0,
            settings,
        }
    }

    /// Line octets of one call; how many records were written.
    fn receive(&mut self, octets: &[u8], mut lent: Lent) -> usize {
        for &octet in octets {
            for place in 0..8 {
                self.bit(octet >> place & 1, &mut lent);
            }
            self.end_octet(&mut lent);
        }
        lent.count
    }

    /// One line bit, by the run of ones before it.
    #[inline(always)]
    fn bit(&mut self, bit: u8, lent: &mut Lent) {
        let ones = self.ones;
        if bit == 1 {
            if ones == 6 {
                self.ones = 7;
                self.abort(lent);
            } else {
                self.ones = if ones < 7 { ones + 1 } else { 7 };
                self.gather(1, lent);
            }
        } else {
            self.ones = 0;
            if ones == 6 {
                self.flag(lent);
            } else if ones != 5 {
                self.gather(0, lent);
            }
        }
    }

    /// A bit of the unit, where one is open.
    #[inline(always)]
    fn gather(&mut self, bit: u8, lent: &mut Lent) {
        if self.hunting {
            return;
        }
        self.octet = self.octet >> 1 | bit << 7;
        self.bits += 1;
        if self.bits > 8 * self.settings.longest + OF_FLAG {
            self.long(lent);
        } else if self.bits & 7 == 0 {
            self.area[self.bits / 8 - 1] = self.octet;
        }
    }

    /// A flag closes the unit and opens the next.
    fn flag(&mut self, lent: &mut Lent) {
        if !self.hunting && self.bits > OF_FLAG {
            self.close(self.bits - OF_FLAG, lent);
        }
        self.hunting = false;
        self.bits = 0;
    }

    fn abort(&mut self, lent: &mut Lent) {
        self.hunt();
        self.events |= EVENT_ABORT;
        self.record(Found::bare(KIND_ABORT, false), lent);
    }

    fn long(&mut self, lent: &mut Lent) {
        self.hunt();
        self.events |= EVENT_LONG;
        self.record(Found::bare(KIND_LONG, false), lent);
    }

    /// The unit is dropped; with the switch for it, octet counting begins.
    fn hunt(&mut self) {
        self.hunting = true;
        self.bits = 0;
        self.counting |= self.settings.itu;
    }

    /// A unit of so many bits is closed.
    fn close(&mut self, bits: usize, lent: &mut Lent) {
        let length = bits / 8;
        let unit = &self.area[..length];
        let mut first = [0; 5];
        for (to, from) in first.iter_mut().zip(unit) {
            *to = *from;
        }
        if bits < SHORTEST {
            self.record(Found { kind: KIND_SHORT, lost: false, length, first, alarm: false }, lent);
            return;
        }
        let status = if bits & 7 != 0 {
            STATUS_NOT_WHOLE
        } else if check(unit) != GOOD {
            STATUS_CHECK_WRONG
        } else {
            STATUS_GOOD
        };
        let is_good = status == STATUS_GOOD;
        if is_good {
            self.counting = false;
            self.counts.good = self.counts.good.wrapping_add(1);
        }
        let alarm = self.event(!is_good);
        let is_dropped = is_good && self.filter(length, first);
        let lost = !is_dropped && !self.store(length, status, lent);
        if lost && is_good {
            self.remembered = None;
        }
        let kind = match status {
            STATUS_CHECK_WRONG => KIND_CHECK_WRONG,
            STATUS_NOT_WHOLE => KIND_NOT_WHOLE,
            _ => self.count(is_dropped, lost),
        };
        self.record(Found { kind, lost, length, first, alarm }, lent);
    }

    /// What became of a good unit, counted.
    fn count(&mut self, is_dropped: bool, lost: bool) -> u8 {
        let (count, kind) = if is_dropped {
            (&mut self.counts.dropped, KIND_DROPPED)
        } else if lost {
            (&mut self.counts.lost, KIND_LOST)
        } else {
            (&mut self.counts.over, KIND_OVER)
        };
        *count = count.wrapping_add(1);
        kind
    }

    /// Whether the filter drops a good unit. What it does not drop it remembers, but for a message.
    fn filter(&mut self, length: usize, first: [u8; 5]) -> bool {
        if !self.settings.filter {
            return false;
        }
        if length > LINK_STATUS {
            self.remembered = None;
            return false;
        }
        let mut masked = first;
        for (octet, mask) in masked.iter_mut().zip(self.settings.mask) {
            *octet &= mask;
        }
        let (alike, repeated) = match &self.remembered {
            Some(r) => (r.length == length && r.masked == masked, r.repeated),
            None => (false, false),
        };
        if alike && (length == FILL_IN || repeated) {
            return true;
        }
        self.remembered = Some(Remembered { length, masked, repeated: alike });
        false
    }

    /// The unit to the next slot; false if that is not empty.
    fn store(&mut self, length: usize, status: u16, lent: &mut Lent) -> bool {
        let is_stored = lent.store(self.next, &self.area[..length], status);
        if is_stored {
            self.next = (self.next + 1) % SLOTS;
            self.events |= EVENT_OVER;
        } else {
            self.events |= EVENT_BUSY;
            self.counting |= self.settings.orn;
        }
        is_stored
    }

    /// An event of the monitor; whether it raised the alarm.
    fn event(&mut self, errored: bool) -> bool {
        let alarm = self.monitor.take(errored, &self.settings);
        if alarm {
            self.events |= EVENT_SUER;
        }
        alarm
    }

    /// After an octet's eight bits: the counter, and in octet counting its tick.
    fn end_octet(&mut self, lent: &mut Lent) {
        self.left -= 1;
        if self.left > 0 {
            return;
        }
        self.left = self.settings.octets;
        if self.counting {
            self.events |= EVENT_OCTET;
            let alarm = self.event(true);
            self.record(Found::bare(KIND_TICK, alarm), lent);
        }
    }

    fn record(&mut self, found: Found, lent: &mut Lent) {
        let record = &mut lent.records[RECORD * lent.count..RECORD * (lent.count + 1)];
        record[0] = found.kind;
        record[1] = found.lost as u8;
        record[2..4].copy_from_slice(&(found.length as u16).to_le_bytes());
        record[4..6].copy_from_slice(&self.monitor.count.to_le_bytes());
        record[6..8].copy_from_slice(&self.counts.good.to_le_bytes());
        record[8..13].copy_from_slice(&found.first);
        record[13] = found.alarm as u8;
        record[14..16].fill(0);
        lent.count += 1;
    }
}

/// CRC-CCITT over octets, lowest bit first, preset FFFF. Each bit of the line is taken by itself: rustc 1.95 turns the loop that first
/// adds a whole octet to the rest into one look-up in a table of 256 words.
pub fn check(octets: &[u8]) -> u16 {
    let mut rest = 0xFFFF;
    for octet in octets {
        for place in 0..8 {
            let low = (rest ^ (octet >> place) as u16) & 1;
            rest = (rest >> 1) ^ (low * 0x8408);
        }
    }
    rest
}

/// Hands back every filled slot.
fn hand_back_filled(pool: &mut [u8], descriptors: &mut [u16]) {
    for (slot, place) in descriptors.chunks_exact_mut(2).zip(pool.chunks_exact_mut(SLOT)) {
        if slot[0] != STATUS_EMPTY {
            slot.copy_from_slice(&[STATUS_EMPTY, 0]);
            place.fill(0);
        }
    }
}

/// A line through a new link; how many records came.
#[inline(never)]
pub fn run(job: &Job, memory: &mut Memory) -> usize {
    let mut receiver = Receiver::open(Settings::row_one(job.switches), &mut memory.descriptors);
    let (mut last, mut total, mut written) = (0, 0, 0);
    let mut rest = job.line;
    for &length in job.lengths.iter().cycle() {
        if rest.is_empty() {
            break;
        }
        let (octets, later) = rest.split_at(rest.len().min(length.into()));
        rest = later;
        if last > 0 {
            hand_back_filled(&mut memory.pool, &mut memory.descriptors);
        }
        let lent = Lent { pool: &mut memory.pool, descriptors: &mut memory.descriptors, records: &mut memory.records, count: 0 };
        last = receiver.receive(octets, lent);
        total += last;
        let octets = RECORD * last;
        if octets <= memory.output.len() - written {
            memory.output[written..written + octets].copy_from_slice(&memory.records[..octets]);
            written += octets;
        } else {
            written = memory.output.len();
        }
    }
    let counts = &receiver.counts;
    let sum = counts.over.wrapping_add(counts.dropped).wrapping_add(counts.lost);
    assert_eq!(counts.good, sum, "the good count is the sum of the other three");
    std::hint::black_box(&receiver);
    total
}
