//! The calls, their refusal numbers and what they print.

use crate::booking::Booking;
use crate::records::Record;
use crate::script::Call;
use crate::slots::{Memory, Sizes, EMPTY, SLOT};

/// The board: the booking's history if the link is open, the memory and how much of it is lent.
pub struct Board {
    pub booking: Option<Booking>,
    pub memory: Memory,
    pub sizes: Sizes,
}

/// Hex in lower case, `-` for none.
pub fn hex_or_dash(octets: &[u8]) -> String {
    if octets.is_empty() {
        return "-".to_string();
    }
    octets.iter().map(|octet| format!("{octet:02x}")).collect()
}

/// The column "Calls" of the table of refusals, read by call: the numbers that the call may give.
fn faults_to_find(call: &Call) -> &'static [u8] {
    match call {
        Call::Open(_) => &[1, 3, 4, 5, 6],
        Call::Receive(_) => &[1, 2, 5, 7, 8],
        Call::Command(_) => &[1, 2, 11],
        Call::Clear(_) => &[1, 2],
        Call::Send(_) => &[1, 2, 9, 10],
        Call::Fill => &[1, 2, 9],
        Call::Read(_) | Call::Hand(_) => &[1, 2, 5, 12, 13],
        Call::Wipe => &[],
    }
}

impl Board {
    pub fn new() -> Board {
        Board { booking: None, memory: Memory::zero(), sizes: Sizes::default() }
    }

    /// The K held by the link, 0 where closed.
    pub fn k_held(&self) -> usize {
        self.booking.as_ref().map_or(0, |booking| booking.settings.k)
    }

    /// "the K given (open, row) or held by the link".
    fn k_for(&self, call: &Call) -> usize {
        match call {
            Call::Open(settings) => settings.k,
            _ => self.k_held(),
        }
    }

    /// The column "When" of the table of refusals; asked in rising number, so that the faults before are known not to be.
    fn has_fault(&self, number: u8, call: &Call) -> bool {
        let k = self.k_for(call);
        match (number, call) {
            (2, _) => self.booking.is_none(),
            (3, _) => self.booking.is_some(),
            (4, Call::Open(settings)) => !settings.in_range(),
            (5, _) => self.sizes.pool_lent(k) != SLOT * k || self.sizes.descriptors_lent(k) != 2 * k,
            (6, _) => !self.memory.is_zero(SLOT * k, 2 * k),
            (7, Call::Receive(octets)) => octets.len() > 1_024,
            (8, Call::Receive(octets)) => self.sizes.records_lent() < 48 * octets.len(),
            (9, _) => self.sizes.output_lent() < 336,
            (10, Call::Send(content)) => !(3..=276).contains(&content.len()),
            (11, Call::Command(command)) => !(1..=5).contains(command),
            (12, Call::Read(slot) | Call::Hand(slot)) => *slot >= k,
            (13, Call::Read(slot) | Call::Hand(slot)) => self.memory.status(*slot) > 2 || self.memory.length(*slot) > 278,
            // 1, "link malformed", can't be: each call gets the link as the last one left it.
            _ => false,
        }
    }

    /// "Checked in rising number, where the call has that fault to find; each is given exactly then, and success is 0."
    fn refusal(&self, call: &Call) -> u8 {
        faults_to_find(call).iter().copied().find(|number| self.has_fault(*number, call)).unwrap_or(0)
    }

    /// Makes the call and gives what it prints.
    pub fn make(&mut self, call: &Call) -> String {
        let number = self.refusal(call);
        if number != 0 {
            return refused(call, number);
        }
        match (call, &mut self.booking) {
            (Call::Wipe, _) => self.wipe(),
            (Call::Open(settings), _) => {
                // "Open marks all slots empty with length 0".
                self.memory.descriptors[..2 * settings.k].chunks_mut(2).for_each(|slot| slot.copy_from_slice(&[EMPTY, 0]));
                self.booking = Some(Booking::new(settings.clone()));
                "open 0\n".to_string()
            }
            (_, Some(booking)) => accepted(call, booking, &mut self.memory),
            (_, None) => unreachable!("a closed link is refused before"),
        }
    }

    /// "zeroes all of both and returns the new closed link".
    fn wipe(&mut self) -> String {
        self.memory = Memory::zero();
        self.booking = None;
        "wipe\n".to_string()
    }
}

/// "a refused call prints 0 and `-` for what else it answers".
fn refused(call: &Call, number: u8) -> String {
    match call {
        Call::Open(_) => format!("open {number}\n"),
        Call::Receive(_) => format!("receive {number} 0\n"),
        Call::Command(_) => format!("command {number}\n"),
        Call::Clear(_) => format!("clear {number}\n"),
        Call::Send(_) => format!("send {number} 0 -\n"),
        Call::Fill => format!("fill {number} 0 -\n"),
        Call::Read(_) => format!("read {number} -\n"),
        Call::Hand(_) => format!("hand {number}\n"),
        Call::Wipe => unreachable!("wipe never refuses"),
    }
}

/// A call on an open link that is not refused.
fn accepted(call: &Call, booking: &mut Booking, memory: &mut Memory) -> String {
    match call {
        Call::Receive(octets) => received(&booking.receive(octets, memory)),
        Call::Command(command) => {
            booking.command(*command);
            "command 0\n".to_string()
        }
        Call::Clear(bits) => {
            booking.events.cleared(*bits);
            "clear 0\n".to_string()
        }
        Call::Send(content) => put_out("send", &booking.send(content)),
        Call::Fill => put_out("fill", &booking.fill()),
        // "Read returns the first *length* octets of the slot".
        Call::Read(slot) => {
            let length = usize::from(memory.length(*slot));
            format!("read 0 {}\n", hex_or_dash(&memory.octets(*slot)[..length]))
        }
        Call::Hand(slot) => {
            memory.hand_back(*slot);
            "hand 0\n".to_string()
        }
        Call::Open(_) | Call::Wipe => unreachable!("made before"),
    }
}

/// "`receive 0 COUNT` followed by a line `record HEX` for each record".
fn received(records: &[Record]) -> String {
    let lines: String = records.iter().map(|record| format!("record {}\n", hex_or_dash(&record.octets()))).collect();
    format!("receive 0 {}\n{lines}", records.len())
}

/// "`send 0 COUNT HEX` and `fill 0 COUNT HEX`".
fn put_out(name: &str, octets: &[u8]) -> String {
    format!("{name} 0 {} {}\n", octets.len(), hex_or_dash(octets))
}
