//! A loop-back bench: what one board sends, the other receives. The receiving board drops repeats of the fill-in unit.
use penguinjug::{Kind, Link, Refusal, Row, Settings, OUTPUT, RECORDS, SLOT};

const SLOTS: usize = 4;
const MESSAGE: [u8; 8] = [0x80, 0x81, 0x05, 0xc5, 0x11, 0x40, 0x04, 0x00];

struct Board {
    link: Link,
    pool: [u8; SLOT * SLOTS],
    descriptors: [u16; 2 * SLOTS],
}

impl Board {
    fn book(filter: bool) -> Result<Board, Refusal> {
        let mut board = Board { link: Link::new(), pool: [0; SLOT * SLOTS], descriptors: [0; 2 * SLOTS] };
        let settings = Settings { filter, ..Settings::row(Row::Normal, SLOTS as u16) };
        board.link.open(&settings, &mut board.pool, &mut board.descriptors)?;
        Ok(board)
    }

    /// Feeds line octets, prints what came of them, and hands each unit's slot back.
    fn take(&mut self, line: &[u8]) -> Result<(), Refusal> {
        let mut area = [0; RECORDS * OUTPUT];
        let mut slot = self.link.next_slot();
        for record in self.link.receive(line, &mut self.pool, &mut self.descriptors, &mut area)? {
            if let Kind::Dropped(_) = record.kind {
                println!("dropped");
                continue;
            }
            let unit = self.link.read(&self.pool, &self.descriptors, slot)?;
            println!("slot {slot}:{}", unit.iter().map(|octet| format!(" {octet:02x}")).collect::<String>());
            self.link.hand_back(&mut self.pool, &mut self.descriptors, slot)?;
            slot = (slot + 1) % SLOTS as u16;
        }
        Ok(())
    }
}

fn main() -> Result<(), Refusal> {
    let (mut sender, mut receiver) = (Board::book(false)?, Board::book(true)?);
    for turn in 0..7 {
        let mut output = [0; OUTPUT];
        let line = if turn % 3 == 0 { sender.link.send(&MESSAGE, &mut output)? } else { sender.link.fill(&mut output)? };
        receiver.take(line)?;
    }
    let counts = receiver.link.counts();
    println!("good {}, handed over {}, dropped {}, lost {}; not refused", counts.good, counts.over, counts.dropped, counts.lost);
    for board in [&mut sender, &mut receiver] {
        board.link.wipe(&mut board.pool, &mut board.descriptors);
    }
    Ok(())
}
