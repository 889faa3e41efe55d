//! One booking: the whole history since opening, and what a closed unit, a long one, an abort and a tick add to it.

use crate::counting::{self, OctetCounting};
use crate::events::{EventBit, Events};
use crate::filter::{Fate, GoodUnits};
use crate::line::{Found, Line};
use crate::monitor::{Kind, Monitor};
use crate::records::{Record, RecordKind};
use crate::sending::Sender;
use crate::settings::Settings;
use crate::slots::Memory;
use crate::unit::{Quality, Unit};

#[derive(Clone, Debug)]
pub struct Booking {
    pub settings: Settings,
    pub line: Line,
    pub good_units: GoodUnits,
    pub monitor: Monitor,
    pub counting: OctetCounting,
    pub events: Events,
    pub sender: Sender,
    /// Units that went to a slot since opening, errored ones too.
    units_in_slots: usize,
}

impl Booking {
    /// "monitor off, all counts zero; ... no event bit set, octet counting off": a history in which nothing happened.
    pub fn new(settings: Settings) -> Booking {
        Booking {
            settings,
            line: Line::default(),
            good_units: GoodUnits::default(),
            monitor: Monitor::default(),
            counting: OctetCounting::default(),
            events: Events::default(),
            sender: Sender::default(),
            units_in_slots: 0,
        }
    }

    /// "next slot moves on, round the ring".
    pub fn next_slot(&self) -> usize {
        self.units_in_slots % self.settings.k
    }

    /// The line octets of one accepted receive, and its records: those of each octet's bits in the order on the line, then
    /// that octet's tick ("once for each line octet after its eight bits").
    pub fn receive(&mut self, octets: &[u8], memory: &mut Memory) -> Vec<Record> {
        let before = self.line.octets();
        self.line.append(octets);
        let mut findings = self.line.findings_from(8 * before, self.settings.m).into_iter().peekable();
        let mut records = Vec::new();
        for octet in before..self.line.octets() {
            while let Some(finding) = findings.next_if(|finding| finding.at / 8 == octet) {
                records.push(self.found(finding.what, memory));
            }
            // "At zero it reloads; in octet counting that is one errored event and sets OCT."
            if counting::reaches_zero(self.settings.n, octet + 1) && self.counting.is_on() {
                self.events.came(EventBit::Oct);
                let alarm = self.monitor_event(true);
                records.push(self.record(RecordKind::OctetTick, None, false, alarm));
            }
        }
        records
    }

    fn found(&mut self, what: Found, memory: &mut Memory) -> Record {
        let (bit, kind) = match what {
            Found::Closed(bits) => return self.closed(&Unit::of(&bits), memory),
            Found::Long => (EventBit::Long, RecordKind::Long),
            Found::Abort => (EventBit::Abort, RecordKind::Abort),
        };
        self.events.came(bit);
        // "Octet counting begins at a long unit or an abort (itu on)".
        if self.settings.itu {
            self.counting.begins();
        }
        self.record(kind, None, false, false)
    }

    /// "What happens to a closed unit, in order".
    fn closed(&mut self, unit: &Unit, memory: &mut Memory) -> Record {
        // "short: dropped unchecked and ... seen by neither monitor nor filter".
        if unit.quality == Quality::Short {
            return self.record(RecordKind::Short, Some(unit), false, false);
        }
        // "1. A good unit ends octet counting".
        if unit.is_good() {
            self.counting.ends();
        }
        // "2. The monitor takes one event, errored or not."
        let alarm = self.monitor_event(!unit.is_good());
        // "3. A good unit goes to the filter." "4. If not dropped, it goes to the next slot if that is empty".
        let fate = if unit.is_good() && self.good_units.drops(unit, &self.settings) {
            Fate::Dropped
        } else {
            self.place_in_next_slot(unit, memory)
        };
        if unit.is_good() {
            self.good_units.append(unit, fate);
        }
        // "5. Its record is written."
        let kind = match (unit.quality, fate) {
            (Quality::CheckWrong, _) => RecordKind::CheckWrong,
            (Quality::NotWhole, _) => RecordKind::NotWhole,
            (_, Fate::HandedOver) => RecordKind::HandedOver,
            (_, Fate::Dropped) => RecordKind::Dropped,
            (_, Fate::Lost) => RecordKind::GoodButLost,
        };
        self.record(kind, Some(unit), fate == Fate::Lost, alarm)
    }

    /// "it goes to the next slot if that is empty ... If it isn't empty the unit is lost (BSY); with orn on, octet counting
    /// begins."
    fn place_in_next_slot(&mut self, unit: &Unit, memory: &mut Memory) -> Fate {
        let slot = self.next_slot();
        if memory.is_empty(slot) {
            memory.fill(slot, &unit.octets, unit.status());
            self.units_in_slots += 1;
            self.events.came(EventBit::HandedOver);
            return Fate::HandedOver;
        }
        self.events.came(EventBit::Bsy);
        if self.settings.orn {
            self.counting.begins();
        }
        Fate::Lost
    }

    /// One event for the monitor; tells whether it raised SUER or AERM.
    fn monitor_event(&mut self, errored: bool) -> bool {
        match self.monitor.event(errored) {
            Some(Kind::Failure) => self.events.came(EventBit::Suer),
            Some(Kind::Alignment) => self.events.came(EventBit::Aerm),
            None => return false,
        }
        true
    }

    fn record(&self, kind: RecordKind, unit: Option<&Unit>, lost: bool, alarm: bool) -> Record {
        Record {
            kind,
            lost,
            length: unit.map_or(0, |unit| unit.octets.len()),
            monitor_count: self.monitor.count(),
            good_count: self.good_units.good_count(),
            first: unit.map_or([0; 5], Unit::first_five),
            alarm,
        }
    }

    /// "1 monitor off (its counts stay), 2 start failure monitor, 3 start alignment monitor, 4 next unit must be handed over
    /// (empties the filter), 5 enter octet counting."
    pub fn command(&mut self, number: usize) {
        match number {
            1 => self.monitor.stop(),
            2 => self.monitor.start(Kind::Failure, &self.settings),
            3 => self.monitor.start(Kind::Alignment, &self.settings),
            4 => self.good_units.command_4(),
            _ => self.counting.begins(),
        }
    }

    pub fn send(&mut self, content: &[u8]) -> Vec<u8> {
        self.events.came(EventBit::Sent);
        self.sender.send(content)
    }

    /// "Before any content ... no event bit is set."
    pub fn fill(&mut self) -> Vec<u8> {
        if self.sender.last().is_some() {
            self.events.came(EventBit::FillInSent);
        }
        self.sender.fill()
    }
}
