//! Every query on the proved library against the model, when sessions are over that were cut after
//! any line: of every area, at both sides of each border of its sub-areas.
#![cfg(feature = "session")]

use model::answers::{compare, cut, left_by, places, report};
use model::answers::{Answers, Asked, Place, State, Tried, Try, Worn};
use model::proved::queries::ask;
use model::proved::session::Library;
use model::random::Random;
use model::script::Script;
use model::shrink::smallest;
use model::subject::{play, Model};

const SEED: u64 = 95;
const SESSIONS: u32 = 1_000;
const CUTS_OF_A_SESSION: u32 = 4;
const MOST_LINES: usize = 200;

/// Adds a session after which both answer alike.
fn compare_one(script: Script, tried: &mut Tried) {
    if compare(&Library, &script, tried).is_err() {
        let mut ignored = Tried::default();
        let mut differ = |script: &Script| compare(&Library, script, &mut ignored).is_err();
        let small = smallest(script, &mut differ);
        let difference =
            compare(&Library, &small, &mut Tried::default()).expect_err("still different");
        panic!("{}", report(&small, &difference));
    }
}

/// The session itself is that without queries, and a number is the area's in all its bits.
fn check_session(script: &Script) {
    let place = places(&script.plan)[0];
    let area = usize::try_from(place.area).expect("an area's number fits usize");
    let (outcome, _) = ask(script, script.lending.memory(), area, place.address);
    assert_eq!(outcome, play(&mut Model, script));
    let unknown = |area: usize| ask(script, script.lending.memory(), area, place.address).1;
    assert_eq!(unknown(1 << 32), unknown(9), "{script:?}");
    assert_eq!(unknown(usize::MAX), unknown(9), "{script:?}");
}

#[test]
fn queries_after_sessions() {
    let mut random = Random::new(SEED);
    let mut tried = Tried::default();
    for _ in 0..SESSIONS {
        let script = Script::drawn(&mut random, MOST_LINES);
        check_session(&script);
        for _ in 0..CUTS_OF_A_SESSION {
            compare_one(cut(&mut random, &script), &mut tried);
        }
    }
    println!("{tried}");
    assert_eq!(tried.rarer_than(50), []);
    for (state, least) in
        [(State::Running, 1_500), (State::CancelledRuns, 400), (State::Suspended, 200)]
    {
        for asked in Asked::ALL {
            let count = tried.count(Try::Accepted(asked, state));
            assert!(count >= least, "{asked:?} with {state:?}: only {count}");
        }
    }
    for worn in Worn::ALL {
        let count = tried.count(Try::Wear(worn));
        assert!(count >= 200, "{worn:?}: only {count}");
    }
}

/// Of 65,536 sectors in each erase: "which sticks at 4,294,967,295".
#[test]
fn sums_stick() {
    let (limit, origin) = (4_294_967_295, Place { area: 0, address: 0 });
    for (erases, sum) in [(65_535, 4_294_901_760), (65_536, limit), (65_537, limit)] {
        let script = Script::wearing_out(erases);
        let (outcome, answers) = ask(&script, script.lending.memory(), 0, origin.address);
        assert_eq!(answers.wear_info.value.sum, sum, "{erases} erases");
        assert_eq!(answers, Answers::of(left_by(&script).as_ref(), origin), "{erases} erases");
        assert!(outcome == play(&mut Model, &script), "{erases} erases");
    }
}
