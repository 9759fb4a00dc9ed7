//! Whole sessions on the proved library against the model: what they print byte by byte, and what
//! they leave in image and store.
#![cfg(feature = "session")]

use model::coverage::Coverage;
use model::proved::session::Library;
use model::random::Random;
use model::script::Script;
use model::shrink::{report, smallest};
use model::subject::compare;
use std::time::{Duration, Instant};

const SEEDS: [u64; 4] = [81, 82, 83, 84];
/// Of all seeds together.
const MOST_LINES: u64 = 2_000_000;
const MOST_TIME: Duration = Duration::from_secs(60);
/// Short sessions try many plans, long ones come to states that take many calls.
const LINES_OF_A_SESSION: [usize; 3] = [30, 300, 3_000];

/// Adds a session that both run alike.
fn compare_one(random: &mut Random, coverage: &mut Coverage) {
    let most_lines = random.pick(&LINES_OF_A_SESSION);
    let script = Script::drawn(random, most_lines);
    match compare(&mut Library, &script) {
        Ok(outcome) => coverage.add(&script, &outcome.output),
        Err(_) => {
            let small = smallest(script, &mut |script| compare(&mut Library, script).is_err());
            let difference = compare(&mut Library, &small).expect_err("still different");
            panic!("{}", report(&small, &difference));
        }
    }
}

#[test]
fn random_sessions() {
    let start = Instant::now();
    let mut coverage = Coverage::default();
    let mut randoms = SEEDS.map(Random::new);
    while coverage.lines < MOST_LINES && start.elapsed() < MOST_TIME {
        for random in &mut randoms {
            compare_one(random, &mut coverage);
        }
    }
    let per_second = coverage.lines as f64 / start.elapsed().as_secs_f64();
    println!("{coverage}\n{per_second:.0} lines/s, the model's among them");
    assert_eq!(coverage.rarer_than(3), []);
}
