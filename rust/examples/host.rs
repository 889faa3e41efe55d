//! A host that makes the calls of a list and shows all that each gives, for a comparison with a host in another language.
//!
//! A line of standard input is one call: words separated by one space, numbers decimal, octets in lower-case hex, `-` for none. POOL, DESC, ROOM and OUT
//! say how many octets or words of an area, from its start, are lent to that call:
//!
//! ```text
//! open K M N T D A MASK FILTER ITU ORN POOL DESC
//! wipe POOL DESC
//! receive POOL DESC ROOM HEX
//! octets POOL DESC ROOM HEX      receive_octets
//! command C
//! clear BITS
//! send OUT HEX
//! fill OUT
//! number POOL DESC SLOT          read_number
//! read POOL DESC SLOT
//! hand POOL DESC SLOT            hand_back
//! row R                          the numbers of a row
//! link I V                       writes octet I of the link's 338 octets
//! pool I V                       writes octet I of the pool
//! desc I V                       writes descriptor word I
//! ```
//!
//! A line of standard output is that word, the number, the count, the part (the unit of a read, the numbers of a row), the link, and the areas lent, in
//! the order pool, descriptors, records, output. Words of the link and of the descriptors stand low octet first.
use penguinjug::{raw, row_numbers, Events, Link, Records, Refusal};
use std::io::{self, BufRead, BufWriter, Write};
use std::str::{FromStr, Split};

const POOL: usize = 4608;
const WORDS: usize = 40;
const ROOM: usize = 49_200;
const OUTPUT: usize = 512;
const LINK: usize = 338;

/// The host's link and the areas that it lends.
struct Host {
    link: Link,
    pool: Vec<u8>,
    descriptors: Vec<u16>,
    records: Vec<u8>,
    output: Vec<u8>,
}

/// What a call gave, and how much of each area it was lent.
#[derive(Default)]
struct Answer {
    number: u8,
    count: usize,
    part: Option<String>,
    pool: Option<usize>,
    descriptors: Option<usize>,
    records: Option<usize>,
    output: Option<usize>,
}

type Receive = for<'a> fn(&mut Link, &[u8], &mut [u8], &mut [u16], &'a mut [u8]) -> Result<Records<'a>, Refusal>;

fn main() -> io::Result<()> {
    let mut host = Host {
        link: Link::new(),
        pool: vec![0; POOL],
        descriptors: vec![0; WORDS],
        records: vec![0; ROOM],
        output: vec![0; OUTPUT],
    };
    let mut out = BufWriter::new(io::stdout().lock());
    for (i, line) in io::stdin().lock().lines().enumerate() {
        let shown = line.ok().and_then(|line| host.line(&line)).unwrap_or_else(|| panic!("line {} is no call", i + 1));
        writeln!(out, "{shown}")?;
    }
    out.flush()
}

/// Each gives nothing where the words are not those of the call.
impl Host {
    fn line(&mut self, line: &str) -> Option<String> {
        let mut words = Words(line.split(' '));
        let word = words.next()?;
        let answer = self.call(word, &mut words)?;
        words.end()?;
        Some(self.show(word, &answer))
    }

    fn call(&mut self, word: &str, words: &mut Words) -> Option<Answer> {
        match word {
            "open" => self.open(words),
            "wipe" => self.wipe(words),
            "receive" => self.receive(words, Link::receive),
            "octets" => self.receive(words, Link::receive_octets),
            "command" => Some(Answer::of(&self.link.command_number(words.number()?))),
            "clear" => Some(Answer::of(&self.link.clear(Events::from_bits(words.number()?)))),
            "send" => self.send(words),
            "fill" => self.fill(words),
            "number" => self.read_number(words),
            "read" => self.read(words),
            "hand" => self.hand_back(words),
            "row" => row(words),
            "link" => self.write_link(words),
            "pool" => write(&mut self.pool, words),
            "desc" => write(&mut self.descriptors, words),
            _ => None,
        }
    }

    fn open(&mut self, words: &mut Words) -> Option<Answer> {
        let settings = raw::Settings {
            k: words.number()?,
            m: words.number()?,
            n: words.number()?,
            t: words.number()?,
            d: words.number()?,
            a: words.number()?,
            mask: words.octets()?.try_into().ok()?,
            filter: words.number()?,
            itu: words.number()?,
            orn: words.number()?,
        };
        let (octets, count) = (words.number()?, words.number()?);
        let (pool, descriptors) = (self.pool.get_mut(..octets)?, self.descriptors.get_mut(..count)?);
        Some(Answer::of(&self.link.open_raw(&settings, pool, descriptors)).lent(octets, count))
    }

    fn wipe(&mut self, words: &mut Words) -> Option<Answer> {
        let (octets, count) = (words.number()?, words.number()?);
        self.link.wipe(self.pool.get_mut(..octets)?, self.descriptors.get_mut(..count)?);
        Some(Answer::default().lent(octets, count))
    }

    fn receive(&mut self, words: &mut Words, call: Receive) -> Option<Answer> {
        let (octets, count, room, line) = (words.number()?, words.number()?, words.number()?, words.octets()?);
        let (pool, descriptors) = (self.pool.get_mut(..octets)?, self.descriptors.get_mut(..count)?);
        // Counted by taking each record apart, so that none may break a record's rules.
        let written = call(&mut self.link, &line, pool, descriptors, self.records.get_mut(..room)?).map(Iterator::count);
        Some(Answer { records: Some(room), ..Answer::counted(written).lent(octets, count) })
    }

    fn send(&mut self, words: &mut Words) -> Option<Answer> {
        let (room, content) = (words.number()?, words.octets()?);
        let sent = self.link.send(&content, self.output.get_mut(..room)?).map(<[u8]>::len);
        Some(Answer { output: Some(room), ..Answer::counted(sent) })
    }

    fn fill(&mut self, words: &mut Words) -> Option<Answer> {
        let room = words.number()?;
        let sent = self.link.fill(self.output.get_mut(..room)?).map(<[u8]>::len);
        Some(Answer { output: Some(room), ..Answer::counted(sent) })
    }

    fn read_number(&self, words: &mut Words) -> Option<Answer> {
        let (octets, count, slot) = (words.number()?, words.number()?, words.number()?);
        let answer = self.link.read_number(self.pool.get(..octets)?, self.descriptors.get(..count)?, slot);
        Some(Answer::of(&answer).lent(octets, count))
    }

    fn read(&self, words: &mut Words) -> Option<Answer> {
        let (octets, count, slot) = (words.number()?, words.number()?, words.number()?);
        let unit = self.link.read(self.pool.get(..octets)?, self.descriptors.get(..count)?, slot);
        Some(Answer { part: unit.ok().map(hex), ..Answer::of(&unit).lent(octets, count) })
    }

    fn hand_back(&mut self, words: &mut Words) -> Option<Answer> {
        let (octets, count, slot) = (words.number()?, words.number()?, words.number()?);
        let (pool, descriptors) = (self.pool.get_mut(..octets)?, self.descriptors.get_mut(..count)?);
        Some(Answer::of(&self.link.hand_back(pool, descriptors, slot)).lent(octets, count))
    }

    fn write_link(&mut self, words: &mut Words) -> Option<Answer> {
        let mut octets = link_octets(self.link.raw());
        let answer = write(&mut octets, words)?;
        self.link = Link::from_raw(link_of(&octets));
        Some(answer)
    }

    fn show(&self, word: &str, answer: &Answer) -> String {
        let part = answer.part.as_deref().unwrap_or("-");
        let mut line = format!("{word} {} {} {part} {}", answer.number, answer.count, hex(&link_octets(self.link.raw())));
        let descriptors = answer.descriptors.map(|n| self.descriptors[..n].iter().flat_map(|word| word.to_le_bytes()).collect());
        let areas = [
            answer.pool.map(|n| hex(&self.pool[..n])),
            descriptors.map(|octets: Vec<u8>| hex(&octets)),
            answer.records.map(|n| hex(&self.records[..n])),
            answer.output.map(|n| hex(&self.output[..n])),
        ];
        for area in areas.into_iter().flatten() {
            line.push(' ');
            line.push_str(&area);
        }
        line
    }
}

impl Answer {
    fn of<T>(result: &Result<T, Refusal>) -> Answer {
        Answer { number: result.as_ref().map_or_else(|refusal| refusal.number(), |_| 0), ..Answer::default() }
    }

    fn counted(result: Result<usize, Refusal>) -> Answer {
        Answer { count: result.unwrap_or(0), ..Answer::of(&result) }
    }

    fn lent(self, octets: usize, words: usize) -> Answer {
        Answer { pool: Some(octets), descriptors: Some(words), ..self }
    }
}

fn row(words: &mut Words) -> Option<Answer> {
    let raw::Row { m, n, t, d, a } = row_numbers(words.number()?);
    Some(Answer { part: Some(format!("{m},{n},{t},{d},{a}")), ..Answer::default() })
}

/// Writes one element of an area, by its place and its value.
fn write<T: FromStr>(area: &mut [T], words: &mut Words) -> Option<Answer> {
    let (place, value) = (words.number::<usize>()?, words.number()?);
    *area.get_mut(place)? = value;
    Some(Answer::default())
}

/// The words of a line.
struct Words<'a>(Split<'a, char>);

impl<'a> Words<'a> {
    fn next(&mut self) -> Option<&'a str> {
        self.0.next()
    }

    fn number<T: FromStr>(&mut self) -> Option<T> {
        let word = self.next()?;
        word.bytes().all(|octet| octet.is_ascii_digit()).then(|| word.parse().ok())?
    }

    fn octets(&mut self) -> Option<Vec<u8>> {
        let word = self.next()?;
        let digits = if word == "-" { &[] } else { word.as_bytes() };
        let (pairs, rest) = (digits.chunks_exact(2), digits.len() % 2);
        let octets = pairs.map(|pair| Some(digit(pair[0])? << 4 | digit(pair[1])?)).collect::<Option<Vec<u8>>>();
        octets.filter(|_| rest == 0)
    }

    fn end(&mut self) -> Option<()> {
        self.next().is_none().then_some(())
    }
}

fn digit(octet: u8) -> Option<u8> {
    match octet {
        b'0'..=b'9' => Some(octet - b'0'),
        b'a'..=b'f' => Some(octet - b'a' + 10),
        _ => None,
    }
}

fn hex(octets: &[u8]) -> String {
    const DIGITS: [char; 16] = ['0', '1', '2', '3', '4', '5', '6', '7', '8', '9', 'a', 'b', 'c', 'd', 'e', 'f'];
    match octets {
        [] => String::from("-"),
        _ => octets.iter().flat_map(|octet| [octet >> 4, octet & 15]).map(|digit| DIGITS[usize::from(digit)]).collect(),
    }
}

/// The link's fields in the order of the header.
fn link_octets(link: &raw::Link) -> Vec<u8> {
    let raw::Link { settings: s, counts: c, monitor, memory, line, transmitter: t, .. } = link;
    let mut octets = Vec::with_capacity(LINK);
    push_words(&mut octets, &[s.k, s.m, s.n, s.t, s.d, s.a]);
    octets.extend(s.mask);
    octets.extend([s.filter, s.itu, s.orn]);
    push_words(&mut octets, &[c.good, c.over, c.dropped, c.lost, monitor.count, monitor.number]);
    push_words(&mut octets, &[link.events, link.next, link.left, memory.length]);
    octets.extend(memory.octets);
    octets.push(memory.alike);
    push_words(&mut octets, &[line.bits]);
    octets.extend([line.run, line.hunting]);
    octets.extend([t.flagged, t.count, t.wait, t.sent]);
    octets.extend(t.last);
    octets.extend([link.opened, link.counting, link.mode]);
    octets.extend(link.area);
    octets
}

fn push_words(octets: &mut Vec<u8>, words: &[u16]) {
    octets.extend(words.iter().flat_map(|word| word.to_le_bytes()));
}

/// The link whose fields stand there in the order of the header.
fn link_of(octets: &[u8]) -> raw::Link {
    let f = &mut Fields(octets);
    // Fields of a literal are worked out in the order in which they are written.
    raw::Link {
        settings: raw::Settings {
            k: f.word(),
            m: f.word(),
            n: f.word(),
            t: f.word(),
            d: f.word(),
            a: f.word(),
            mask: f.octets(),
            filter: f.octet(),
            itu: f.octet(),
            orn: f.octet(),
        },
        counts: raw::Counts { good: f.word(), over: f.word(), dropped: f.word(), lost: f.word() },
        monitor: raw::Monitor { count: f.word(), number: f.word() },
        events: f.word(),
        next: f.word(),
        left: f.word(),
        memory: raw::Memory { length: f.word(), octets: f.octets(), alike: f.octet() },
        line: raw::Line { bits: f.word(), run: f.octet(), hunting: f.octet() },
        transmitter: raw::Transmitter {
            flagged: f.octet(),
            count: f.octet(),
            wait: f.octet(),
            sent: f.octet(),
            last: f.octets(),
        },
        opened: f.octet(),
        counting: f.octet(),
        mode: f.octet(),
        area: f.octets(),
    }
}

/// The octets of the fields that are still to be read.
struct Fields<'a>(&'a [u8]);

impl Fields<'_> {
    fn octets<const N: usize>(&mut self) -> [u8; N] {
        let (first, rest) = self.0.split_first_chunk().expect("a link has 338 octets");
        self.0 = rest;
        *first
    }

    fn octet(&mut self) -> u8 {
        let [octet] = self.octets();
        octet
    }

    fn word(&mut self) -> u16 {
        u16::from_le_bytes(self.octets())
    }
}
