//! Orders in which the readings of the first so many ticks arrive: shuffled, or delayed by the model of source document 003, section VII-C.
//!
//! Reading i is delayed with the probability p(i) = ((1 - χ) ρ + χ I) / (I + ρ), where I is 1 if reading i - 1 was delayed and else 0; there
//! is none before the first. A delayed reading comes later by 0 to L places, each as likely; of those that come to one place the least
//! delayed is first. Here ρ and χ are thousandths, so p(i) is a fraction of whole numbers, and the coin is one number drawn below its denominator.
//!
//! | Model | ρ | χ | L | p after one in time | p after a delayed one | share delayed |
//! |---|---|---|---|---|---|---|
//! | bursty | 0.05 | 0.95 | 120 | 0.05 | 0.907 | 0.350 |
//! | perturbation | 0.9 | 0.1 | 6 | 0.9 | 0.479 | 0.633 |

use crate::random::Random;

const ONE: u64 = 1000;

/// `independence` is ρ, which may not be 0, and `correlation` is χ, both in thousandths; `lag` is L.
#[derive(Clone, Copy, Debug, PartialEq, Eq)]
pub struct Model {
    pub independence: u64,
    pub correlation: u64,
    pub lag: u64,
}

pub const BURSTY: Model = Model {
    independence: 50,
    correlation: 950,
    lag: 120,
};

pub const PERTURBATION: Model = Model {
    independence: 900,
    correlation: 100,
    lag: 6,
};

impl Model {
    /// p(i) as numerator and denominator.
    pub fn probability(&self, delayed_before: bool) -> (u64, u64) {
        let [rho, chi] = [self.independence, self.correlation];
        let indicator = u64::from(delayed_before) * ONE;
        ((ONE - chi) * rho + chi * indicator, (indicator + rho) * ONE)
    }

    /// For each tick how much it is delayed; nothing for one in time.
    pub fn delays(&self, count: usize, random: &mut Random) -> Vec<Option<u64>> {
        let mut delays = Vec::with_capacity(count);
        let mut delayed = false;
        for _ in 0..count {
            let (numerator, denominator) = self.probability(delayed);
            delayed = random.below(denominator) < numerator;
            delays.push(delayed.then(|| random.below(self.lag + 1)));
        }
        delays
    }
}

/// The ticks in the order of their arrival.
pub fn order(delays: &[Option<u64>]) -> Vec<u32> {
    let place = |tick: u32| {
        let delay = delays[tick as usize].unwrap_or(0);
        (u64::from(tick) + delay, delay)
    };
    let mut ticks: Vec<u32> = (0..delays.len() as u32).collect();
    ticks.sort_by_key(|&tick| place(tick));
    ticks
}

/// Every order as likely.
pub fn shuffled(count: usize, random: &mut Random) -> Vec<u32> {
    let mut ticks: Vec<u32> = (0..count as u32).collect();
    for place in (1..count).rev() {
        ticks.swap(place, random.below(place as u64 + 1) as usize);
    }
    ticks
}

/// The most unbroken runs there are while these ticks arrive, each once.
pub fn most_runs(order: &[u32]) -> u32 {
    let mut arrived = vec![false; order.len() + 2];
    let mut runs = 0;
    let mut most = 0;
    for &tick in order {
        // Moved up by one, so that each has one before it.
        let place = tick as usize + 1;
        arrived[place] = true;
        runs = runs + 1 - u32::from(arrived[place - 1]) - u32::from(arrived[place + 1]);
        most = most.max(runs);
    }
    most
}

/// How the ticks of a trace arrive.
#[derive(Clone, Copy, Debug, PartialEq, Eq)]
pub enum Arrivals {
    Shuffled,
    Delayed(Model),
}

pub const ARRIVALS: [Arrivals; 3] = [
    Arrivals::Shuffled,
    Arrivals::Delayed(BURSTY),
    Arrivals::Delayed(PERTURBATION),
];

impl Arrivals {
    pub fn order(&self, count: usize, random: &mut Random) -> Vec<u32> {
        match self {
            Arrivals::Shuffled => shuffled(count, random),
            Arrivals::Delayed(model) => order(&model.delays(count, random)),
        }
    }
}
