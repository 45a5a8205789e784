//! The running clock of a day, handed on from train to train.

use super::day::Day;

#[derive(Clone, Copy)]
pub struct Clock {
    /// The last train's station, 0 or 1, and its departure.
    pub last: Option<(usize, u32)>,
    /// How often the next train was another station's.
    pub changes: usize,
    /// The trains left at each station.
    pub left: [usize; 2],
    pub value: i64,
}

impl Clock {
    /// The clock once a station's next train has left; the value is that train's alone.
    #[inline(always)]
    pub fn alone(self, day: &Day, station: usize, figures: &[i32]) -> Clock {
        let (departure, changes) = match self.last {
            None => (0, self.changes),
            Some((last, second)) if last == station => (second + day.headway, self.changes),
            Some((_, second)) => (second + day.running, self.changes + 1),
        };
        let mut left = self.left;
        left[station] -= 1;
        Clock {
            last: Some((station, departure)),
            changes,
            left,
            value: day.objective.cost(figures, departure + day.running),
        }
    }

    /// The same with the train's cost joined to the value so far.
    #[inline]
    pub fn next(self, day: &Day, station: usize, figures: &[i32]) -> Clock {
        let mut clock = self.alone(day, station, figures);
        if self.last.is_some() {
            clock.value = day.objective.joined(self.value, clock.value);
        }
        clock
    }
}
