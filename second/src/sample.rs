//! A sample trace: the coil pin of a good relay, with the two-reading drop that such a relay shows.

use crate::random::Random;
use std::fmt::Write;

/// The first tick of each phase, where the trace is as long as the shipped one, and its millivolts.
const PHASES: [(i64, i64); 6] = [
    (0, 60),
    (360, 12_050),
    (720, 60),
    (1_080, 12_050),
    (1_960, 60),
    (2_240, 12_050),
];
pub const READINGS: u64 = 2_400;
/// What is made of the shipped trace is stored, so it names its steps.
const STEPS: u64 = 32;
/// Readings that a switching takes.
const RAMP: i64 = 4;
const NOISE: i64 = 18;
/// The first tick of the drop, where the trace is as long as the shipped one, and its readings.
const DROP: i64 = 1_500;
const DROP_READINGS: i64 = 2;
const DROP_LEVEL: i64 = 7_400;

/// The shipped trace.
pub fn shipped() -> String {
    format!("steps {STEPS}\n{}", readings(READINGS))
}

/// So many readings, one a line, in order, as the listing program reads them, and no steps named. In a longer trace each phase is longer,
/// but switching takes as many readings as ever, and so does the drop.
pub fn readings(readings: u64) -> String {
    let readings = readings as i64;
    let mut random = Random::new(1);
    let mut lines = String::new();
    for tick in 0..readings {
        let noise = random.between(-NOISE, NOISE);
        writeln!(lines, "{}", quiet_level(tick, readings) + noise)
            .expect("a string takes any text");
    }
    lines
}

fn quiet_level(tick: i64, readings: i64) -> i64 {
    let moved = |first: i64| first * readings / READINGS as i64;
    let drop = moved(DROP);
    if (drop..drop + DROP_READINGS).contains(&tick) {
        return DROP_LEVEL;
    }
    let phase = PHASES.partition_point(|&(first, _)| moved(first) <= tick) - 1;
    let (first, level) = PHASES[phase];
    let since = tick - moved(first);
    if phase == 0 || since >= RAMP {
        return level;
    }
    let (_, level_before) = PHASES[phase - 1];
    level_before + (level - level_before) * (since + 1) / (RAMP + 1)
}
