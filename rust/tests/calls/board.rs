//! A board with its memory, as the tests use it.
use penguinjug::{Kind, Link, Refusal, Row, Settings, MOST_LINE, RECORDS, SLOT};

/// A link with its pool and descriptors.
pub struct Board {
    pub link: Link,
    pub pool: Vec<u8>,
    pub descriptors: Vec<u16>,
}

impl Board {
    /// A booking that is open.
    pub fn open(settings: &Settings) -> Board {
        let k = usize::from(settings.k);
        let mut board = Board { link: Link::new(), pool: vec![0; SLOT * k], descriptors: vec![0; 2 * k] };
        board.link.open(settings, &mut board.pool, &mut board.descriptors).expect("the settings are in range");
        board
    }

    /// Row 1 with `k` slots.
    pub fn normal(k: u16) -> Board {
        Board::open(&Settings::row(Row::Normal, k))
    }

    /// Receives by both engines, which must give the same, and gives the kinds of the records.
    pub fn receive(&mut self, line: &[u8]) -> Result<Vec<Kind>, Refusal> {
        let (mut link, mut pool, mut descriptors) = (self.link.clone(), self.pool.clone(), self.descriptors.clone());
        let (mut area, mut other) = (vec![0; RECORDS * MOST_LINE], vec![0; RECORDS * MOST_LINE]);
        let records = self.link.receive(line, &mut self.pool, &mut self.descriptors, &mut area)?;
        let same = link.receive_octets(line, &mut pool, &mut descriptors, &mut other)?;
        assert_eq!(records.octets(), same.octets());
        assert_eq!((&self.link, &self.pool, &self.descriptors), (&link, &pool, &descriptors));
        Ok(records.map(|record| record.kind).collect())
    }
}
