//! Random lists of calls over a plan: as values for the checks of the demands, and as the lines of a
//! printed session.
//!
//! The lists are drawn without looking at any state, so any part of one is again a list that can be
//! run. What makes jobs run to their end, fail, be tried again and wait for each other is the choice
//! of plans, of ranges that mostly fit the plan, and of moods in which the devices answer.

mod busy;
mod calls;
mod lines;
mod rewrites;
mod spots;
mod suspensions;

pub use busy::{busy_calls, busy_plan};
pub use calls::{steps, Memory, Step};
pub use lines::{job_lines, lines, lines_of, text, Line};

use crate::plan::Plan;
use crate::plans::{draw_marks, draw_sizes, draw_wear, full, largest, small, valid};
use crate::plans::{plan_e, plan_f, plan_t, plan_v, plan_w};
use crate::random::Random;
use crate::session::BENCH_SUM_LIMIT;

/// A plan that the bench takes.
pub fn bench_plan(random: &mut Random) -> Plan {
    match random.below(16) {
        0 => named(random),
        1 => {
            let mut plan = largest();
            if random.one_in(2) {
                draw_sizes(random, &mut plan);
            }
            draw_marks(random, &mut plan);
            draw_wear(random, &mut plan);
            plan
        }
        2 => medium(random),
        3 => full(random),
        _ => small(random),
    }
}

/// As they are in half of the cases, with wear records in the others.
fn named(random: &mut Random) -> Plan {
    let mut plan = match random.below(6) {
        0 => plan_t(),
        1 => plan_v(),
        2 => plan_w(),
        3 => plan_e(random.pick(&[2, 3, 5])),
        _ => plan_f(random.pick(&[2, 3, 5])),
    };
    if random.one_in(2) {
        draw_wear(random, &mut plan);
    }
    plan
}

/// A random valid plan on the bench.
fn medium(random: &mut Random) -> Plan {
    loop {
        let plan = valid(random);
        if plan.device_sum() <= BENCH_SUM_LIMIT {
            return plan;
        }
    }
}
