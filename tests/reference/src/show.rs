//! The link's fields as `show` prints them, each asked of the history; and the slots as they stand.

use crate::booking::Booking;
use crate::calls::{hex_or_dash, Board};
use crate::counting;
use crate::filter::Fate;
use crate::line::octets_of;
use crate::settings::Settings;

type Fields = Vec<(&'static str, String)>;

fn flag(on: bool) -> String {
    u8::from(on).to_string()
}

fn settings_fields(settings: &Settings) -> Fields {
    vec![
        ("k", settings.k.to_string()),
        ("m", settings.m.to_string()),
        ("n", settings.n.to_string()),
        ("t", settings.t.to_string()),
        ("d", settings.d.to_string()),
        ("a", settings.a.to_string()),
        ("mask", hex_or_dash(&settings.mask)),
        ("filter", flag(settings.filter)),
        ("itu", flag(settings.itu)),
        ("orn", flag(settings.orn)),
    ]
}

fn receiver_fields(booking: &Booking) -> Fields {
    let open_unit = booking.line.gathered(booking.settings.m);
    let hunting = open_unit.is_none();
    let gathered = open_unit.unwrap_or_default();
    vec![
        ("run", booking.line.run().to_string()),
        ("hunting", flag(hunting)),
        ("bits", gathered.len().to_string()),
        ("area", hex_or_dash(&octets_of(&gathered))),
        ("counting", flag(booking.counting.is_on())),
        ("left", counting::left(booking.settings.n, booking.line.octets()).to_string()),
    ]
}

fn unit_fields(booking: &Booking) -> Fields {
    let memory = booking.good_units.memory(&booking.settings);
    let count = |fate| booking.good_units.count(fate).to_string();
    vec![
        ("memory-length", memory.length.to_string()),
        ("memory-octets", hex_or_dash(&memory.octets)),
        ("memory-alike", flag(memory.alike)),
        ("next", booking.next_slot().to_string()),
        ("good", booking.good_units.good_count().to_string()),
        ("over", count(Fate::HandedOver)),
        ("dropped", count(Fate::Dropped)),
        ("lost", count(Fate::Lost)),
    ]
}

fn monitor_fields(booking: &Booking) -> Fields {
    vec![
        ("mode", booking.monitor.mode().to_string()),
        ("monitor-count", booking.monitor.count().to_string()),
        ("event-number", booking.monitor.event_number().to_string()),
        ("events", booking.events.word().to_string()),
    ]
}

fn sender_fields(booking: &Booking) -> Fields {
    let sender = &booking.sender;
    let waiting_octet = octets_of(sender.waiting()).first().copied().unwrap_or(0);
    vec![
        ("flagged", flag(sender.flagged())),
        ("waiting", sender.waiting().len().to_string()),
        ("waiting-octet", format!("{waiting_octet:02x}")),
        ("sent", flag(sender.last().is_some())),
        ("last", hex_or_dash(&sender.last().unwrap_or([0; 2]))),
    ]
}

/// "a new link has R = 7 and hunts"; everything else is zero, off or none.
const CLOSED: &str = "\
opened 0
k 0
m 0
n 0
t 0
d 0
a 0
mask 0000000000
filter 0
itu 0
orn 0
run 7
hunting 1
bits 0
area -
counting 0
left 0
memory-length 0
memory-octets 0000000000
memory-alike 0
next 0
good 0
over 0
dropped 0
lost 0
mode off
monitor-count 0
event-number 0
events 0
flagged 0
waiting 0
waiting-octet 00
sent 0
last 0000
";

fn opened(booking: &Booking) -> String {
    let fields = [
        vec![("opened", flag(true))],
        settings_fields(&booking.settings),
        receiver_fields(booking),
        unit_fields(booking),
        monitor_fields(booking),
        sender_fields(booking),
    ];
    fields.concat().iter().map(|(name, value)| format!("{name} {value}\n")).collect()
}

/// The link's fields, `name value` a line in a fixed order, and `end`.
pub fn show(board: &Board) -> String {
    let fields = board.booking.as_ref().map_or(CLOSED.to_string(), opened);
    format!("{fields}end\n")
}

/// "`slot I STATUS LENGTH HEX` (all 280 octets) for each slot that is lent, and `end`".
pub fn slots(board: &Board) -> String {
    let memory = &board.memory;
    let slot = |i| format!("slot {i} {} {} {}\n", memory.status(i), memory.length(i), hex_or_dash(memory.octets(i)));
    let lent: String = (0..board.sizes.whole_slots(board.k_held())).map(slot).collect();
    format!("{lent}end\n")
}
