//! The error monitors (SUERM and AERM), told by the events since the last start.

use crate::settings::Settings;

#[derive(Clone, Copy, Debug, PartialEq, Eq)]
pub enum Kind {
    Failure,
    Alignment,
}

/// One start and the events that the monitor counted after it: none once it is stopped or idle.
#[derive(Clone, Debug)]
struct Run {
    kind: Kind,
    threshold: usize,
    /// Every how many events there is a decay point; none in alignment mode ("there is no lowering").
    decay: Option<usize>,
    /// For each event whether it was errored.
    events: Vec<bool>,
    /// heights[n]: errored events less decay points among the first n events.
    heights: Vec<i64>,
    /// lows[n]: the least of heights[0] to heights[n].
    lows: Vec<i64>,
    stopped: bool,
}

/// All starts since opening.
#[derive(Clone, Debug, Default)]
pub struct Monitor {
    runs: Vec<Run>,
}

impl Run {
    fn is_decay_point(&self, event: usize) -> bool {
        self.decay.is_some_and(|decay| event.is_multiple_of(decay))
    }

    /// The greatest balance of a stretch that ends at the last event ("errored events less decay points before its last
    /// event"): a stretch that begins after event s has the height before the last event, less heights[s], and the last
    /// event itself; it is greatest where heights[s] is least.
    fn greatest_balance(&self) -> i64 {
        let Some(last) = self.events.last() else { return 0 };
        let before = self.events.len() - 1;
        self.heights[before] - self.lows[before] + i64::from(*last)
    }

    /// "count T raises SUER and the monitor goes idle"; "threshold A raises AERM and idles likewise".
    fn alarmed(&self) -> bool {
        self.greatest_balance() >= self.threshold as i64
    }

    /// The count: at the alarm the balance itself ("both counts kept"), else the height over the lowest one since the
    /// start ("the count is lowered, not below 0").
    fn count(&self) -> i64 {
        let events = self.events.len();
        if self.alarmed() {
            self.greatest_balance()
        } else {
            self.heights[events] - self.lows[events]
        }
    }

    /// "otherwise the event number rises, and at every D-th event, a decay point, it returns to 0"; the alarm's own event
    /// does not raise it. "In alignment mode the event number stays 0".
    fn event_number(&self) -> usize {
        let raising = self.events.len() - usize::from(self.alarmed());
        self.decay.map_or(0, |decay| raising % decay)
    }

    fn append(&mut self, errored: bool) {
        self.events.push(errored);
        let events = self.events.len();
        let height = self.heights[events - 1] + i64::from(errored) - i64::from(self.is_decay_point(events));
        self.heights.push(height);
        self.lows.push(height.min(self.lows[events - 1]));
    }
}

impl Monitor {
    /// "Starting sets both counts to zero."
    pub fn start(&mut self, kind: Kind, settings: &Settings) {
        let (threshold, decay) = match kind {
            Kind::Failure => (settings.t, Some(settings.d)),
            Kind::Alignment => (settings.a, None),
        };
        let (heights, lows) = (vec![0], vec![0]);
        self.runs.push(Run { kind, threshold, decay, events: Vec::new(), heights, lows, stopped: false });
    }

    /// "1 monitor off (its counts stay)".
    pub fn stop(&mut self) {
        if let Some(run) = self.runs.last_mut() {
            run.stopped = true;
        }
    }

    /// "Idle and off count nothing." Tells which monitor the event alarmed.
    pub fn event(&mut self, errored: bool) -> Option<Kind> {
        let run = self.runs.last_mut().filter(|run| !run.stopped && !run.alarmed())?;
        run.append(errored);
        run.alarmed().then_some(run.kind)
    }

    pub fn count(&self) -> usize {
        self.runs.last().map_or(0, |run| run.count() as usize)
    }

    pub fn event_number(&self) -> usize {
        self.runs.last().map_or(0, Run::event_number)
    }

    pub fn mode(&self) -> &'static str {
        match self.runs.last() {
            None => "off",
            Some(run) if run.stopped => "off",
            Some(run) if run.alarmed() => "idle",
            Some(Run { kind: Kind::Failure, .. }) => "failure",
            Some(Run { kind: Kind::Alignment, .. }) => "alignment",
        }
    }
}

#[cfg(test)]
mod tests {
    use super::*;
    use crate::settings::Settings;

    fn settings(t: usize, d: usize, a: usize) -> Settings {
        Settings { k: 1, m: 278, n: 16, t, d, a, mask: [0; 5], filter: false, itu: false, orn: false }
    }

    /// The Monitor paragraph word for word, step by step: count, event number, alarm.
    fn step(kind: Kind, with: &Settings, state: (usize, usize), errored: bool) -> (usize, usize, bool) {
        let (mut count, mut number) = state;
        count += usize::from(errored);
        if count == if kind == Kind::Failure { with.t } else { with.a } {
            return (count, number, true);
        }
        if kind == Kind::Failure {
            number += 1;
            if number == with.d {
                number = 0;
                count = count.saturating_sub(1);
            }
        }
        (count, number, false)
    }

    #[test]
    fn the_stretches_agree_with_the_steps() {
        let mut seed = 12345u32;
        for trial in 0..2000usize {
            let with = settings(1 + trial % 7, 1 + trial / 7 % 9, 1 + trial % 5);
            let kind = if trial % 3 == 0 { Kind::Alignment } else { Kind::Failure };
            let mut monitor = Monitor::default();
            monitor.start(kind, &with);
            let mut state = (0, 0);
            for _ in 0..120 {
                seed = seed.wrapping_mul(1_664_525).wrapping_add(1_013_904_223);
                let errored = ((seed >> 24) as usize).is_multiple_of(2 + trial % 11);
                let (count, number, alarm) = step(kind, &with, state, errored);
                assert_eq!(monitor.event(errored), alarm.then_some(kind));
                assert_eq!((monitor.count(), monitor.event_number()), (count, number));
                if alarm {
                    assert_eq!((monitor.mode(), monitor.event(true)), ("idle", None));
                    break;
                }
                state = (count, number);
            }
        }
    }

    fn alarm_at(t: usize, d: usize, events: impl Iterator<Item = bool>) -> Option<usize> {
        let mut monitor = Monitor::default();
        monitor.start(Kind::Failure, &settings(t, d, 4));
        events.map(|errored| monitor.event(errored)).position(|alarm| alarm.is_some()).map(|before| before + 1)
    }

    #[test]
    fn proved_cases_8_to_11() {
        let never = std::iter::repeat_n(true, 5000);
        assert_eq!(alarm_at(64, 256, std::iter::repeat_n(true, 300)), Some(64));
        assert_eq!(alarm_at(64, 256, (1..=400).map(|event| event > 255)), Some(320));
        assert_eq!(alarm_at(64, 256, (1..=900).map(|event| event > 511)), Some(576));
        assert_eq!(alarm_at(2, 1, never), None);
        assert_eq!(alarm_at(1, 256, (1..=9).map(|event| event > 4)), Some(5));
    }
}
