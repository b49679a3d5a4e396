//! No difference between the model and the Rust; and every mistake made on purpose is found.

use driver::compare::{compare, compare_with, model_answers, Lines, Tally};
use driver::engine::{Wrong, WRONGS};
use driver::generate::{enumerated, random, Tagged};
use driver::rng::Rng;

const SEED: u64 = 3;

fn scripts() -> Vec<Tagged> {
    let mut all = enumerated(SEED);
    let mut rng = Rng::new(SEED);
    all.extend((0..200).map(|i| random(&mut rng, i, 60)));
    all
}

/// Does some script show the mistake?
fn found(scripts: &[Tagged], wrong: Wrong) -> bool {
    scripts.iter().any(|s| {
        let text = model_answers(&s.script, wrong);
        compare(&s.script, &mut Lines::new(&text), &mut Tally::new()).0.is_err()
    })
}

#[test]
fn the_model_is_the_rust() {
    std::panic::set_hook(Box::new(|_| {}));
    assert!(!found(&scripts(), Wrong::Nothing));
}

#[test]
fn every_mistake_is_found() {
    std::panic::set_hook(Box::new(|_| {}));
    let scripts = scripts();
    let missed: Vec<&str> = WRONGS.iter().filter(|w| !found(&scripts, w.1)).map(|w| w.0).collect();
    assert!(missed.is_empty(), "{:?}", missed);
}

/// Mistakes that the Rust does not show: in our refusals, our stores' other places, our score's table, or a streak that is held.
const OURS: &[Wrong] = &[
    Wrong::TruncateQ,
    Wrong::StreakUnheld,
    Wrong::FlagFirst,
    Wrong::PlaceOffByOne,
    Wrong::StoredBeforeScan,
    Wrong::RestCleared,
    Wrong::EventLimit,
    Wrong::FlushUnlent,
    Wrong::KindTwice,
];

#[test]
fn the_rust_alone_finds_the_others() {
    std::panic::set_hook(Box::new(|_| {}));
    let scripts = scripts();
    let mut missed = vec![];
    for (name, wrong) in WRONGS.iter().filter(|w| !OURS.contains(&w.1)) {
        let found = scripts.iter().any(|s| {
            let text = model_answers(&s.script, *wrong);
            compare_with(*wrong, &s.script, &mut Lines::new(&text), &mut Tally::new())
                .0
                .is_err()
        });
        if !found {
            missed.push(name);
        }
    }
    assert!(missed.is_empty(), "{:?}", missed);
}
