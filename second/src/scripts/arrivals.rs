//! Late traces whose ticks arrive shuffled, or delayed by the two models: wholly accepted, or with fewer runs allowed than the order needs.

use crate::arrivals::{self, Arrivals, ARRIVALS, BURSTY};
use crate::calls::{self, Size, MOST_GAPS};
use crate::rule::Kind;
use crate::script::Script;
use crate::shapes;

pub fn heading(arrivals: &Arrivals) -> String {
    let name = match arrivals {
        Arrivals::Shuffled => "shuffled",
        Arrivals::Delayed(model) if *model == BURSTY => "bursty",
        Arrivals::Delayed(_) => "perturbed",
    };
    format!("# arrivals {name}")
}

pub fn write(script: &mut Script) {
    for arrivals in ARRIVALS {
        script.heading(&heading(&arrivals));
        script.wholly_accepted(&arrivals);
        script.few_runs_allowed(&arrivals);
    }
}

impl Script {
    /// Each tick comes once, and K is at least what the order needs.
    fn wholly_accepted(&mut self, arrivals: &Arrivals) {
        for count in [1, 2, 3, 5, 8, 13, 30] {
            let order = arrivals.order(count, &mut self.random);
            self.arrive(1 + count as u64 % 3, count as u64, &order);
        }
        for (steps, count) in [(1, 400), (2, 300), (7, 500), (100, 400), (256, 700)] {
            let order = arrivals.order(count, &mut self.random);
            self.arrive(steps, MOST_GAPS, &order);
        }
        for (steps, count) in [(1, 300), (32, 600)] {
            let order = arrivals.order(count, &mut self.random);
            self.arrive(steps, u64::from(arrivals::most_runs(&order)), &order);
        }
    }

    /// K is less than the order needs; then all that was refused comes again, and some of what was taken.
    fn few_runs_allowed(&mut self, arrivals: &Arrivals) {
        for (steps, count, part) in [
            (1, 200, 0),
            (1, 300, 50),
            (2, 250, 75),
            (5, 400, 50),
            (16, 500, 75),
            (64, 300, 25),
            (100, 400, 99),
            (256, 500, 99),
        ] {
            let order = arrivals.order(count, &mut self.random);
            // So many hundredths of what it needs.
            let gaps = u64::from(arrivals::most_runs(&order)) * part / 100;
            for tick in self.arrive(steps, gaps.max(1), &order) {
                if !self.holds(tick) || self.chance(6) {
                    self.arrived(tick);
                }
            }
            self.sweep(5, count as u32 / 8, 9);
        }
    }

    /// A late trace of these ticks, or all of them as much later, and lookups; answers the ticks.
    fn arrive(&mut self, steps: u64, gaps: u64, order: &[u32]) -> Vec<u32> {
        let first = self.random.choice(&[0, 1, 64_000]);
        let ticks: Vec<u32> = order.iter().map(|&tick| first + tick).collect();
        self.open_fitting(Kind::Late, Size::Steps(steps), gaps);
        for &tick in &ticks {
            self.arrived(tick);
        }
        let step = order.len() as u32 / 12 + 1;
        self.sweep(first.wrapping_sub(1), step, 14);
        self.worst();
        ticks
    }

    /// The square wave's reading at this tick.
    fn arrived(&mut self, tick: u32) {
        self.late(tick, shapes::square(u64::from(tick)));
    }

    fn holds(&self, tick: u32) -> bool {
        let session = &self.session;
        calls::lookup(session.state, session.lent_numbers(), tick).is_ok()
    }
}
