//! What the audit says of a plan: its devices, its areas, and which area can stand before which on what
//! device.

use super::{below_of_a_stretch, lies_on};
use crate::plan::{Chip, Plan};
use std::cmp::Ordering;

pub fn of(plan: &Plan) -> Vec<String> {
    let devices = (0..plan.devices.len()).map(|device| device_line(plan, device));
    let areas = (0..plan.areas.len()).flat_map(|area| area_lines(plan, area));
    let pairs = (0..plan.areas.len()).flat_map(|area| pair_lines(plan, area));
    devices.chain(areas).chain(pairs).collect()
}

fn device_line(plan: &Plan, number: usize) -> String {
    let device = &plan.devices[number];
    let (bytes, patience) = (device.bytes(), device.patience);
    let marked = match device.chip {
        Chip::Plain => "",
        Chip::Suspending => " suspends",
        Chip::Clearing => " suspends clears",
    };
    format!("device {number} bytes {}..{} patience {patience}{marked}", bytes.start, bytes.end - 1)
}

fn area_lines(plan: &Plan, number: usize) -> Vec<String> {
    let area = &plan.areas[number];
    let rank = 1 + plan.areas.iter().filter(|other| other.priority > area.priority).count();
    let (priority, first) = (area.priority, u128::from(area.logical_start));
    let last = first + plan.area_size(number) - 1;
    let window = match area.window() {
        window if window.is_empty() => "none".to_string(),
        window => format!("{}..{}", window.start, window.end - 1),
    };
    let mut lines = vec![format!(
        "area {number} rank {rank} priority {priority} logical {first}..{last} window {window}"
    )];
    let devices = (0..plan.devices.len()).filter(|device| lies_on(plan, number, *device));
    lines.extend(devices.map(|device| format!("area {number} on device {device}")));
    lines
}

/// The other areas that an area's jobs can stand behind, on each device that both have bytes on.
fn pair_lines(plan: &Plan, area: usize) -> Vec<String> {
    let mut lines = Vec::new();
    for other in (0..plan.areas.len()).filter(|other| *other != area) {
        let meet = |device: &usize| [area, other].iter().all(|one| lies_on(plan, *one, *device));
        for device in (0..plan.devices.len()).filter(meet) {
            let said = pair_said(plan, area, other, device);
            lines.push(format!("pair {area} behind {other} device {device} {said}"));
        }
    }
    lines
}

fn pair_said(plan: &Plan, area: usize, other: usize, device: usize) -> String {
    let below = below_of_a_stretch(&plan.devices[device]);
    let below = format!("below: each stretch adds at most {below} by Demand3.below");
    match plan.areas[other].priority.cmp(&plan.areas[area].priority) {
        Ordering::Greater => {
            let above = format!("above: each job of area {other} adds at most its own");
            format!("{above} by Demands.above-bounded")
        }
        Ordering::Equal => format!("above if accepted later by FirstCome, else {below}"),
        Ordering::Less => below,
    }
}
