//! The console's grammar: one line of octets to one order.

use crate::settings::{row, Settings};
use crate::slots::{DESCRIPTORS, OUTPUT, POOL, RECORDS};

/// A call of the link.
#[derive(Clone, Debug, PartialEq, Eq)]
pub enum Call {
    Open(Settings),
    Receive(Vec<u8>),
    Command(usize),
    Clear(usize),
    Send(Vec<u8>),
    Fill,
    Read(usize),
    Hand(usize),
    Wipe,
}

#[derive(Clone, Copy, Debug, PartialEq, Eq)]
pub enum Area {
    Pool,
    Descriptors,
    Records,
    Output,
}

/// What a line orders.
#[derive(Clone, Debug, PartialEq, Eq)]
pub enum Order {
    Nothing,
    Call(Call),
    Size(Area, usize),
    SizeAuto,
    PokePool(usize, u8),
    PokeDescriptor(usize, u16),
    Show,
    Slots,
    Help,
}

pub const HELP: &str = "\
open K M N T D A MASK [filter] [itu] [orn]
row R K MASK [filter] [itu] [orn]
receive HEX
command C
clear BITS
send HEX
fill
read S
hand S
wipe
size pool N
size desc N
size records N
size output N
size auto
poke pool I V
poke desc I V
show
slots
help
";

/// "numbers are decimal"; "a number may have leading zeros"; none "above 65,535".
fn number(word: &[u8]) -> Option<usize> {
    let digits = |word: &[u8]| word.iter().all(u8::is_ascii_digit);
    if word.is_empty() || !digits(word) {
        return None;
    }
    let significant = word.iter().position(|digit| *digit != b'0').map_or(&[][..], |first| &word[first..]);
    if significant.len() > 5 {
        return None;
    }
    let value = significant.iter().fold(0, |value, digit| 10 * value + usize::from(digit - b'0'));
    (value <= 65_535).then_some(value)
}

fn number_up_to(word: &[u8], most: usize) -> Option<usize> {
    number(word).filter(|value| *value <= most)
}

fn nibble(digit: u8) -> Option<u8> {
    b"0123456789abcdef".iter().position(|known| *known == digit).map(|value| value as u8)
}

/// "octet strings hex in lower case"; "a missing HEX", "an odd number of hex digits" can't be read.
fn hex(word: &[u8], most: usize) -> Option<Vec<u8>> {
    if word.is_empty() || !word.len().is_multiple_of(2) || word.len() / 2 > most {
        return None;
    }
    word.chunks(2).map(|pair| Some(nibble(pair[0])? << 4 | nibble(pair[1])?)).collect()
}

/// "MASK ten hex digits; the rest of the line names the switches that are on"; "Switches in any order, each once."
fn settings(k: usize, numbers: [usize; 5], mask: &[u8], switches: &[&[u8]]) -> Option<Settings> {
    let known: [&[u8]; 3] = [b"filter", b"itu", b"orn"];
    let times = known.map(|name| switches.iter().filter(|switch| **switch == name).count());
    if times.iter().sum::<usize>() != switches.len() || times.iter().any(|count| *count > 1) {
        return None;
    }
    let mask: [u8; 5] = hex(mask, 5)?.try_into().ok()?;
    let [m, n, t, d, a] = numbers;
    let [filter, itu, orn] = times.map(|count| count == 1);
    Some(Settings { k, m, n, t, d, a, mask, filter, itu, orn })
}

fn open(arguments: &[&[u8]]) -> Option<Call> {
    let [k, m, n, t, d, a, mask, switches @ ..] = arguments else { return None };
    let numbers = [number(m)?, number(n)?, number(t)?, number(d)?, number(a)?];
    Some(Call::Open(settings(number(k)?, numbers, mask, switches)?))
}

/// "opens with row R of the settings table"; "A row that is not in the table is given to open, which refuses it (4)."
fn open_row(arguments: &[&[u8]]) -> Option<Call> {
    let [r, k, mask, switches @ ..] = arguments else { return None };
    Some(Call::Open(settings(number(k)?, row(number(r)?), mask, switches)?))
}

fn call(name: &[u8], arguments: &[&[u8]]) -> Option<Call> {
    match (name, arguments) {
        (b"open", _) => open(arguments),
        (b"row", _) => open_row(arguments),
        (b"receive", [octets]) => Some(Call::Receive(hex(octets, 1_100)?)),
        (b"command", [c]) => Some(Call::Command(number(c)?)),
        (b"clear", [bits]) => Some(Call::Clear(number(bits)?)),
        (b"send", [content]) => Some(Call::Send(hex(content, 300)?)),
        (b"fill", []) => Some(Call::Fill),
        (b"read", [slot]) => Some(Call::Read(number(slot)?)),
        (b"hand", [slot]) => Some(Call::Hand(number(slot)?)),
        (b"wipe", []) => Some(Call::Wipe),
        _ => None,
    }
}

/// "A `size` may be 0 up to its area's limit."
fn size(area: &[u8], value: &[u8]) -> Option<Order> {
    let (area, most) = match area {
        b"pool" => (Area::Pool, POOL),
        b"desc" => (Area::Descriptors, DESCRIPTORS),
        b"records" => (Area::Records, RECORDS),
        b"output" => (Area::Output, OUTPUT),
        _ => return None,
    };
    Some(Order::Size(area, number_up_to(value, most)?))
}

/// "A `poke` index is below its area's limit"; "a pool value above 255" can't be read.
fn poke(area: &[u8], index: &[u8], value: &[u8]) -> Option<Order> {
    match area {
        b"pool" => Some(Order::PokePool(number_up_to(index, POOL - 1)?, number_up_to(value, 255)? as u8)),
        b"desc" => Some(Order::PokeDescriptor(number_up_to(index, DESCRIPTORS - 1)?, number(value)? as u16)),
        _ => None,
    }
}

/// One line without its newline. `None` is "a line that can't be read".
pub fn read_line(line: &[u8]) -> Option<Order> {
    if line.is_empty() || line[0] == b'#' {
        return Some(Order::Nothing);
    }
    // "Words are separated by one space": two spaces, or one at the start or end, make an empty word, which nothing reads.
    let words: Vec<&[u8]> = line.split(|octet| *octet == b' ').collect();
    match words[..] {
        [b"size", b"auto"] => Some(Order::SizeAuto),
        [b"size", area, value] => size(area, value),
        [b"poke", area, index, value] => poke(area, index, value),
        [b"show"] => Some(Order::Show),
        [b"slots"] => Some(Order::Slots),
        [b"help"] => Some(Order::Help),
        [name, ref arguments @ ..] => Some(Order::Call(call(name, arguments)?)),
        [] => None,
    }
}

/// The lines of a script. "The last line may lack its newline."
pub fn lines(script: &[u8]) -> impl Iterator<Item = &[u8]> {
    script.strip_suffix(b"\n").unwrap_or(script).split(|octet| *octet == b'\n')
}

#[cfg(test)]
mod tests {
    use super::*;

    #[test]
    fn numbers() {
        let big = "0".repeat(300) + "65535";
        assert_eq!(number(big.as_bytes()), Some(65_535));
        assert_eq!((number(b"0"), number(b"000"), number(b"65536")), (Some(0), Some(0), None));
        assert_eq!((number(b""), number(b"+1"), number(b"-1"), number(b"1a")), (None, None, None, None));
    }

    #[test]
    fn long_lines() {
        let zeros = |count| ["command ".as_bytes(), &b"0".repeat(count), b"1"].concat();
        assert_eq!(read_line(&zeros(100_000)), Some(Order::Call(Call::Command(1))));
        assert_eq!(read_line(&b"#".repeat(100_000)), Some(Order::Nothing));
        assert_eq!(read_line(&b" ".repeat(100_000)), None);
    }

    #[test]
    fn lines_that_cannot_be_read() {
        let lines: [&[u8]; 20] = [
            b"receive",
            b"receive -",
            b"receive 7E",
            b"receive 7",
            b"receive  7e",
            b" fill",
            b"fill ",
            b"fill\r",
            b"\tfill",
            b"fill fill",
            b"row 1 16 ffffffffff itu itu",
            b"row 1 16 ffffffff",
            b"row 1 16",
            b"poke pool 4608 1",
            b"poke pool 0 256",
            b"poke desc 40 1",
            b"size desc 41",
            b"size auto 1",
            b" # remark",
            b"\xff\xfe",
        ];
        for line in lines {
            assert_eq!(read_line(line), None, "{}", String::from_utf8_lossy(line));
        }
    }
}
