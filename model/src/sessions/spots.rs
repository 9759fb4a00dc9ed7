//! Sub-areas at their places in their areas, and jobs drawn on them.

use super::calls::target_in;
use crate::calls::Call;
use crate::jobs::{Operation, Target};
use crate::plan::Plan;
use crate::random::Random;
use crate::segments::{self, Placed};

#[derive(Clone)]
pub(super) struct Spot<'a> {
    pub(super) area: usize,
    pub(super) priority: u16,
    pub(super) placed: Placed<'a>,
}

/// All of a plan, area by area.
pub(super) fn spots(plan: &Plan) -> impl Iterator<Item = Spot<'_>> {
    (0..plan.areas.len()).flat_map(|area| {
        let priority = plan.areas[area].priority;
        segments::placed(plan, area).map(move |placed| Spot { area, priority, placed })
    })
}

impl Spot<'_> {
    pub(super) fn device(&self) -> usize {
        usize::from(self.placed.sub_area.device)
    }

    pub(super) fn number(&self) -> u32 {
        u32::try_from(self.area).expect("at most 8 areas")
    }

    pub(super) fn job(&self, random: &mut Random, operation: Operation) -> Call {
        let unit = operation.unit(self.placed.sub_area);
        Call::Job(operation, self.target(random, unit))
    }

    pub(super) fn target(&self, random: &mut Random, unit: u32) -> Target {
        target_in(random, self.area, [&self.placed; 2], |_| unit)
    }
}
