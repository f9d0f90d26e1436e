//! The orders of arrival are those of their models.

use second::arrivals::{self, Arrivals, Model, ARRIVALS, BURSTY, PERTURBATION};
use second::random::Random;

const MODELS: [Model; 2] = [BURSTY, PERTURBATION];

#[test]
fn every_order_is_a_permutation() {
    let mut random = Random::new(31);
    for arrivals in ARRIVALS {
        for count in (0..40).chain([400, 1_000]) {
            let mut order = arrivals.order(count, &mut random);
            if count > 100 {
                assert!(!order.is_sorted());
            }
            order.sort();
            assert_eq!(order, Vec::from_iter(0..count as u32));
        }
    }
}

#[test]
fn every_order_of_few_ticks_is_met_by_shuffling() {
    let mut random = Random::new(32);
    let mut met = std::collections::BTreeMap::new();
    for _ in 0..24_000 {
        let order = Arrivals::Shuffled.order(4, &mut random);
        *met.entry(order).or_insert(0) += 1;
    }
    assert_eq!(met.len(), 24);
    assert!(met.values().all(|times| (850..1_150).contains(times)));
}

#[test]
fn the_probability_is_the_formulas() {
    for model in MODELS {
        let [rho, chi] = [model.independence, model.correlation].map(|part| part as f64 / 1_000.0);
        for (delayed_before, indicator) in [(false, 0.0), (true, 1.0)] {
            let (numerator, denominator) = model.probability(delayed_before);
            let formula = ((1.0 - chi) * rho + chi * indicator) / (indicator + rho);
            assert!((numerator as f64 / denominator as f64 - formula).abs() < 1e-12);
        }
    }
}

#[test]
fn as_many_are_delayed_as_the_formula_gives_and_by_at_most_the_lag() {
    for model in MODELS {
        let delays = model.delays(1_000_000, &mut Random::new(33));
        let [after_in_time, after_delayed] = [false, true].map(|delayed_before| {
            let (numerator, denominator) = model.probability(delayed_before);
            numerator as f64 / denominator as f64
        });
        // The share that one step of the chain leaves as it is.
        let share = after_in_time / (1.0 + after_in_time - after_delayed);
        let lags: Vec<u64> = delays.iter().flatten().copied().collect();
        assert!((lags.len() as f64 / delays.len() as f64 - share).abs() < 0.01);
        for lag in 0..=model.lag {
            let times = lags.iter().filter(|&&there| there == lag).count() as f64;
            let even = lags.len() as f64 / (model.lag + 1) as f64;
            assert!((times / even - 1.0).abs() < 0.1, "{times} of {even}");
        }
        assert!(lags.iter().all(|&lag| lag <= model.lag));
    }
}

#[test]
fn bursts_are_longer_than_perturbations() {
    let stretch = |model: Model| {
        let delays = model.delays(100_000, &mut Random::new(34));
        let stretches = delays
            .split(Option::is_none)
            .filter(|some| !some.is_empty());
        delays.iter().flatten().count() as f64 / stretches.count() as f64
    };
    let [bursty, perturbation] = MODELS.map(stretch);
    assert!(
        bursty > 8.0 && perturbation < 2.5,
        "{bursty} {perturbation}"
    );
}

#[test]
fn the_most_runs_are_counted() {
    for (order, most) in [
        (vec![], 0),
        (vec![0], 1),
        (vec![2, 1, 0], 1),
        (vec![0, 2, 4, 1, 3], 3),
        (vec![3, 0, 2, 1], 2),
    ] {
        assert_eq!(arrivals::most_runs(&order), most);
    }
}

#[test]
fn a_delayed_reading_comes_after_those_of_the_ticks_it_is_late_by() {
    let delays = [Some(2), None, None, Some(1), Some(0), Some(9)];
    assert_eq!(arrivals::order(&delays), [1, 2, 0, 4, 3, 5]);
    let delays = [Some(1), Some(0), None];
    assert_eq!(arrivals::order(&delays), [1, 0, 2]);
}
