//! Plans: the records of document 01, "The plan", with the device marks of Req 02 and 03 of document 02 and
//! the wear records of Req 05, and loading, questions 1 to 8 of "Questions at the door" and 20 of Req 05.
//!
//! Sums and products of fields are exact: they are taken in 64 or 128 bits, where none can wrap.

use std::ops::Range;

pub const DEVICE_MARK: [u8; 2] = [0x44, 0x56];
pub const SUSPENDING_DEVICE_MARK: [u8; 2] = [0x44, 0x53];
pub const CLEARING_DEVICE_MARK: [u8; 2] = [0x44, 0x46];
pub const AREA_MARK: [u8; 2] = [0x41, 0x52];
pub const SUB_AREA_MARK: [u8; 2] = [0x53, 0x42];
pub const WEAR_MARK: [u8; 2] = [0x57, 0x52];

/// Question 2: "1 to 8 areas".
pub const MOST_AREAS: usize = 8;
/// Question 3: "the sum of lengths at most 16,777,216".
pub const DEVICE_SUM_LIMIT: u32 = 16_777_216;
/// Question 4: "Windows end at or below 65,536".
pub const WINDOW_LIMIT: u32 = 65_536;
/// Question 7: "logical start plus size at most 4,294,967,295".
pub const LOGICAL_LIMIT: u32 = 4_294_967_295;

#[derive(Clone, Copy, Debug, PartialEq, Eq)]
pub struct Device {
    pub start: u32,
    pub length: u32,
    pub patience: u16,
    pub chip: Chip,
}

/// What the chip of a device is able to do, told by the mark of its record. The plainest is the first.
#[derive(Clone, Copy, Debug, PartialEq, Eq, PartialOrd, Ord)]
pub enum Chip {
    Plain,
    /// "A device record with mark hex 44 53, laid out as before, means the chip can pause."
    Suspending,
    /// "On NOR flash a write can turn a bit from 1 to 0 and never back. Plans gain a device mark hex 44
    /// 46 for such a chip, which can pause too; the layout is the old one."
    Clearing,
}

#[derive(Clone, Copy, Debug, PartialEq, Eq)]
pub struct Area {
    pub priority: u16,
    pub logical_start: u32,
    pub window_start: u32,
    pub window_length: u32,
}

#[derive(Clone, Copy, Debug, PartialEq, Eq)]
pub struct SubArea {
    pub area: u8,
    pub device: u8,
    /// A physical address: byte `start` of the image, not counted from the device's start.
    pub start: u32,
    pub sector: u32,
    pub sector_burst: u32,
    pub page: u32,
    pub page_burst: u32,
    pub smallest_read: u32,
    pub largest_read: u32,
    pub sector_count: u32,
    pub write_retries: u8,
    pub erase_retries: u8,
}

/// What a sub-area's sectors are made for: "For each sub-area the plan may gain a record".
#[derive(Clone, Copy, Debug, PartialEq, Eq)]
pub struct WearRecord {
    pub sub_area: u8,
    /// Cycles per sector.
    pub endurance: u32,
}

/// The records of a plan; a record's number is its index within its kind.
#[derive(Clone, Debug, Default, PartialEq, Eq)]
pub struct Plan {
    pub devices: Vec<Device>,
    pub areas: Vec<Area>,
    pub sub_areas: Vec<SubArea>,
    /// "after all others"
    pub wear_records: Vec<WearRecord>,
}

impl Device {
    /// The image bytes of the device.
    pub fn bytes(&self) -> Range<u64> {
        let start = u64::from(self.start);
        start..start + u64::from(self.length)
    }
}

impl Chip {
    pub const ALL: [Chip; 3] = [Chip::Plain, Chip::Suspending, Chip::Clearing];

    pub fn mark(self) -> [u8; 2] {
        match self {
            Chip::Plain => DEVICE_MARK,
            Chip::Suspending => SUSPENDING_DEVICE_MARK,
            Chip::Clearing => CLEARING_DEVICE_MARK,
        }
    }

    fn marked(mark: [u8; 2]) -> Option<Chip> {
        Chip::ALL.into_iter().find(|chip| chip.mark() == mark)
    }

    /// Can a running erase give way to another request?
    pub fn can_suspend(self) -> bool {
        match self {
            Chip::Plain => false,
            Chip::Suspending | Chip::Clearing => true,
        }
    }

    /// Do writes turn bits from 1 to 0 and never back?
    pub fn only_clears(self) -> bool {
        match self {
            Chip::Plain | Chip::Suspending => false,
            Chip::Clearing => true,
        }
    }
}

impl Area {
    /// The job store bytes of the area.
    pub fn window(&self) -> Range<u64> {
        let start = u64::from(self.window_start);
        start..start + u64::from(self.window_length)
    }
}

impl SubArea {
    /// "A sub-area has sector times sector count bytes."
    pub fn size(&self) -> u64 {
        u64::from(self.sector) * u64::from(self.sector_count)
    }

    /// The image bytes of the sub-area. The end fits: (2^32 - 1)^2 + (2^32 - 1) is below 2^64.
    pub fn bytes(&self) -> Range<u64> {
        let start = u64::from(self.start);
        start..start + self.size()
    }
}

impl Plan {
    /// The sum of the device lengths.
    pub fn device_sum(&self) -> u64 {
        self.devices.iter().map(|d| u64::from(d.length)).sum()
    }

    /// The size of an area's logical space: "its sub-areas joined in plan order".
    pub fn area_size(&self, area: usize) -> u128 {
        let own = self.sub_areas.iter().filter(|s| usize::from(s.area) == area);
        own.map(|s| u128::from(s.size())).sum()
    }

    /// What the wear record of a sub-area says; none if the sub-area has no record.
    pub fn endurance(&self, sub_area: usize) -> Option<u32> {
        let mut records = self.wear_records.iter();
        records.find(|record| usize::from(record.sub_area) == sub_area).map(|r| r.endurance)
    }
}

/// A question about a plan of whole records, answered with yes or no.
type Question = fn(&Plan) -> bool;

/// Loads a plan, or gives the number of the first question answered "no". Each question is asked
/// over the whole plan before the next.
pub fn load(bytes: &[u8]) -> Result<Plan, u8> {
    let plan = whole_records(bytes).ok_or(1)?;
    let questions: [(u8, Question); 8] = [
        (2, counts_allowed),
        (3, devices_joined),
        (4, windows_apart),
        (5, sizes_fit),
        (6, sub_areas_placed),
        (7, areas_formed),
        (8, sub_areas_apart),
        (20, wear_recorded),
    ];
    for (number, answer) in questions {
        if !answer(&plan) {
            return Err(number);
        }
    }
    Ok(plan)
}

/// Question 1: "Whole records with known marks, in the order of kinds?" Gives the records if so.
///
/// A kind may be absent here; question 2 asks for the counts.
pub fn whole_records(bytes: &[u8]) -> Option<Plan> {
    let mut reader = Reader { rest: bytes };
    let mut plan = Plan::default();
    while !reader.rest.is_empty() {
        match reader.take()? {
            WEAR_MARK => plan.wear_records.push(reader.wear_record()?),
            _ if !plan.wear_records.is_empty() => return None,
            SUB_AREA_MARK => plan.sub_areas.push(reader.sub_area()?),
            _ if !plan.sub_areas.is_empty() => return None,
            AREA_MARK => plan.areas.push(reader.area()?),
            _ if !plan.areas.is_empty() => return None,
            mark => {
                let chip = Chip::marked(mark)?;
                plan.devices.push(reader.device(chip)?);
            }
        }
    }
    Some(plan)
}

/// Question 2: "1 to 4 devices, 1 to 8 areas, 1 to 32 sub-areas?"
pub fn counts_allowed(plan: &Plan) -> bool {
    (1..=4).contains(&plan.devices.len())
        && (1..=MOST_AREAS).contains(&plan.areas.len())
        && (1..=32).contains(&plan.sub_areas.len())
}

/// Question 3: "Devices: the first starts at 0, each next where the last ended, lengths and
/// patience at least 1, the sum of lengths at most 16,777,216?"
pub fn devices_joined(plan: &Plan) -> bool {
    let mut last_end = 0;
    for device in &plan.devices {
        if device.bytes().start != last_end {
            return false;
        }
        last_end = device.bytes().end;
    }
    let at_least_1 = |d: &Device| d.length >= 1 && d.patience >= 1;
    plan.devices.iter().all(at_least_1) && plan.device_sum() <= u64::from(DEVICE_SUM_LIMIT)
}

/// Question 4: "Windows end at or below 65,536 and share no byte (length 0 allowed)?"
///
/// A window of length 0 ends at its start and shares no byte wherever it lies.
pub fn windows_apart(plan: &Plan) -> bool {
    let windows: Vec<_> = plan.areas.iter().map(Area::window).collect();
    windows.iter().all(|w| w.end <= u64::from(WINDOW_LIMIT)) && share_no_byte(&windows)
}

/// Question 5: "No size or sector count 0; sector a multiple of page and of smallest read; each
/// burst of its unit; largest read of smallest?"
pub fn sizes_fit(plan: &Plan) -> bool {
    plan.sub_areas.iter().all(|s| no_size_is_0(s) && multiples_hold(s))
}

/// The sizes are sector, page, smallest and largest read and both bursts.
fn no_size_is_0(s: &SubArea) -> bool {
    let reads = [s.smallest_read, s.largest_read];
    let sizes = [s.sector, s.sector_burst, s.page, s.page_burst];
    !sizes.contains(&0) && !reads.contains(&0) && s.sector_count != 0
}

fn multiples_hold(s: &SubArea) -> bool {
    s.sector.is_multiple_of(s.page)
        && s.sector.is_multiple_of(s.smallest_read)
        && s.sector_burst.is_multiple_of(s.sector)
        && s.page_burst.is_multiple_of(s.page)
        && s.largest_read.is_multiple_of(s.smallest_read)
}

/// Question 6: "Area and device known, physical start a multiple of sector, sub-area inside its
/// device?"
pub fn sub_areas_placed(plan: &Plan) -> bool {
    plan.sub_areas.iter().all(|s| {
        let area_known = usize::from(s.area) < plan.areas.len();
        let inside = match plan.devices.get(usize::from(s.device)) {
            Some(device) => is_inside(&s.bytes(), &device.bytes()),
            None => false,
        };
        area_known && s.start.is_multiple_of(s.sector) && inside
    })
}

/// Question 7: "Area numbers never falling, each area with a sub-area, logical start plus size at
/// most 4,294,967,295?"
///
/// The sum itself is held against the limit; logical spaces of different areas may overlap.
pub fn areas_formed(plan: &Plan) -> bool {
    let numbers = || plan.sub_areas.iter().map(|s| usize::from(s.area));
    numbers().is_sorted()
        && plan.areas.iter().enumerate().all(|(number, area)| {
            let logical_end = u128::from(area.logical_start) + plan.area_size(number);
            numbers().any(|n| n == number) && logical_end <= u128::from(LOGICAL_LIMIT)
        })
}

/// Question 8: "No byte in two sub-areas?"
pub fn sub_areas_apart(plan: &Plan) -> bool {
    let spans: Vec<_> = plan.sub_areas.iter().map(SubArea::bytes).collect();
    share_no_byte(&spans)
}

/// Question 20: "Refused: 20 asked after 8 when a wear record names an unknown or repeated sub-area or
/// endurance 0."
///
/// Of more than 32 records two name the same sub-area, or one names none.
pub fn wear_recorded(plan: &Plan) -> bool {
    let is_right = |(index, record): (usize, &WearRecord)| {
        let is_known = usize::from(record.sub_area) < plan.sub_areas.len();
        let mut earlier = plan.wear_records[..index].iter();
        let is_repeated = earlier.any(|other| other.sub_area == record.sub_area);
        is_known && !is_repeated && record.endurance != 0
    };
    plan.wear_records.iter().enumerate().all(is_right)
}

fn is_inside(inner: &Range<u64>, outer: &Range<u64>) -> bool {
    outer.start <= inner.start && inner.end <= outer.end
}

/// No two of the spans have a byte in common.
fn share_no_byte(spans: &[Range<u64>]) -> bool {
    spans.iter().enumerate().all(|(index, one)| {
        let later = &spans[index + 1..];
        later.iter().all(|other| one.start.max(other.start) >= one.end.min(other.end))
    })
}

/// Takes the fields of records from the front of the plan's bytes; `None` where the bytes run out.
struct Reader<'a> {
    rest: &'a [u8],
}

impl Reader<'_> {
    fn take<const WIDTH: usize>(&mut self) -> Option<[u8; WIDTH]> {
        let (taken, rest) = self.rest.split_first_chunk()?;
        self.rest = rest;
        Some(*taken)
    }

    fn u8(&mut self) -> Option<u8> {
        Some(u8::from_le_bytes(self.take()?))
    }

    fn u16(&mut self) -> Option<u16> {
        Some(u16::from_le_bytes(self.take()?))
    }

    fn u32(&mut self) -> Option<u32> {
        Some(u32::from_le_bytes(self.take()?))
    }

    /// "Device: physical start 4, length 4, patience 2."
    fn device(&mut self, chip: Chip) -> Option<Device> {
        Some(Device { start: self.u32()?, length: self.u32()?, patience: self.u16()?, chip })
    }

    /// "Area: priority 2, logical start 4, window start 4, window length 4."
    fn area(&mut self) -> Option<Area> {
        Some(Area {
            priority: self.u16()?,
            logical_start: self.u32()?,
            window_start: self.u32()?,
            window_length: self.u32()?,
        })
    }

    /// "Sub-area: area 1, device 1, physical start 4, sector 4, sector burst 4, page 4, page burst
    /// 4, smallest read 4, largest read 4, sector count 4, write retries 1, erase retries 1."
    fn sub_area(&mut self) -> Option<SubArea> {
        Some(SubArea {
            area: self.u8()?,
            device: self.u8()?,
            start: self.u32()?,
            sector: self.u32()?,
            sector_burst: self.u32()?,
            page: self.u32()?,
            page_burst: self.u32()?,
            smallest_read: self.u32()?,
            largest_read: self.u32()?,
            sector_count: self.u32()?,
            write_retries: self.u8()?,
            erase_retries: self.u8()?,
        })
    }

    /// "mark hex 57 52: sub-area 1 byte, endurance 4 bytes (cycles per sector)".
    fn wear_record(&mut self) -> Option<WearRecord> {
        Some(WearRecord { sub_area: self.u8()?, endurance: self.u32()? })
    }
}
