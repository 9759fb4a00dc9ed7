//! Answers to queries that are wrong on purpose: those of the model, changed.

use super::wear;
use model::answers::{left_by, Answers, Place, Queried};
use model::manager::{JobInfo, Manager, MemoryInfo, RequestInfo, Waits};
use model::script::Script;
use model::segments;

/// From the manager, what is asked and the right answers to the wrong ones.
type Change = Box<dyn Fn(&Manager, Place, &mut Answers)>;

pub struct WrongAnswers {
    pub name: String,
    change: Change,
}

impl Queried for WrongAnswers {
    fn after<'a>(&'a self, script: &'a Script) -> Box<dyn Fn(Place) -> Answers + 'a> {
        let manager = left_by(script);
        Box::new(move |place| {
            let mut answers = Answers::of(manager.as_ref(), place);
            if let Some(manager) = &manager {
                (self.change)(manager, place, &mut answers);
            }
            answers
        })
    }
}

pub fn wrong(
    name: impl Into<String>,
    change: impl Fn(&Manager, Place, &mut Answers) + 'static,
) -> WrongAnswers {
    WrongAnswers { name: name.into(), change: Box::new(change) }
}

/// No mutant: the fields are taken apart and put together again.
pub fn right_answers() -> WrongAnswers {
    wrong("the right answers", |_, _, answers| {
        set_job_info(answers, &|_| {});
        set_memory_info(answers, &|_| {});
    })
}

pub fn all() -> Vec<WrongAnswers> {
    let mut all = of_fields("job info", set_job_info);
    all.extend(of_fields("memory info", set_memory_info));
    all.extend(of_jobs());
    all.extend(of_requests());
    all.extend(of_memory());
    all.extend(of_refusals());
    all.extend(wear::of_charges());
    all.extend(wear::of_answers());
    all.extend(wear::of_refusals());
    all
}

const JOB_INFO_FIELDS: usize = 13;
const MEMORY_INFO_FIELDS: usize = 10;

/// Changes the fields of an accepted job info, in the order of the paper's list.
fn set_job_info(answers: &mut Answers, change: &dyn Fn(&mut [u32; JOB_INFO_FIELDS])) {
    let info = answers.job_info.value;
    let (waits, request) = (info.waits, info.request);
    let mut fields = [
        u32::from(info.job_type),
        info.address,
        info.length,
        u32::from(info.result),
        info.processed,
        waits.own,
        waits.above,
        waits.below,
        waits.locked,
        request.device,
        request.physical_address,
        request.length,
        request.polls,
    ];
    change(&mut fields);
    let [job_type, address, length, result, processed, own, above, below, locked, request @ ..] =
        fields;
    let [device, physical_address, request_length, polls] = request;
    answers.job_info.value = JobInfo {
        // A number that does not fit shows as well.
        job_type: u8::try_from(job_type).unwrap_or(u8::MAX),
        address,
        length,
        result: u8::try_from(result).unwrap_or(u8::MAX),
        processed,
        waits: Waits { own, above, below, locked },
        request: RequestInfo { device, physical_address, length: request_length, polls },
    };
}

/// The same of memory info, in the order of 000, 8.2.9.
fn set_memory_info(answers: &mut Answers, change: &dyn Fn(&mut [u32; MEMORY_INFO_FIELDS])) {
    let info = answers.memory_info.value;
    let mut fields = [
        info.logical_start_address,
        info.physical_start_address,
        info.max_offset,
        info.erase_sector_size,
        info.erase_sector_burst_size,
        info.min_read_size,
        info.write_page_size,
        info.max_read_size,
        info.write_page_burst_size,
        info.hw_id,
    ];
    change(&mut fields);
    answers.memory_info.value = MemoryInfo {
        logical_start_address: fields[0],
        physical_start_address: fields[1],
        max_offset: fields[2],
        erase_sector_size: fields[3],
        erase_sector_burst_size: fields[4],
        min_read_size: fields[5],
        write_page_size: fields[6],
        max_read_size: fields[7],
        write_page_burst_size: fields[8],
        hw_id: fields[9],
    };
}

/// Changes the fields of an accepted info.
type Set<const COUNT: usize> = fn(&mut Answers, &dyn Fn(&mut [u32; COUNT]));

/// Each field left out, and each two exchanged.
fn of_fields<const COUNT: usize>(info: &str, set: Set<COUNT>) -> Vec<WrongAnswers> {
    let left_out = (0..COUNT).map(|field| {
        wrong(format!("{info} without field {field}"), move |_, _, answers| {
            set(answers, &|fields| fields[field] = 0);
        })
    });
    let pairs = (0..COUNT).flat_map(|one| (one + 1..COUNT).map(move |other| (one, other)));
    let exchanged = pairs.map(|(one, other)| {
        wrong(format!("fields {one} and {other} of {info} exchanged"), move |_, _, answers| {
            set(answers, &|fields| fields.swap(one, other));
        })
    });
    left_out.chain(exchanged).collect()
}

/// What is said of a job.
fn of_jobs() -> Vec<WrongAnswers> {
    vec![
        wrong("a cancelled job whose request runs is idle", |manager, place, answers| {
            if known(manager, place).is_some_and(|area| manager.is_cancelled(area)) {
                answers.status.value = 0;
            }
        }),
        wrong("the result of a pending job is 0", |_, _, answers| {
            if answers.status.value == 1 {
                answers.result.value = 0;
                answers.job_info.value.result = 0;
            }
        }),
        wrong("the processed length counts the running request", |_, _, answers| {
            answers.processed.value += answers.job_info.value.request.length;
        }),
        wrong("no processed length after the end", |_, _, answers| {
            if answers.status.value == 0 {
                answers.processed.value = 0;
            }
        }),
        wrong("no job after the end", |_, _, answers| {
            if answers.status.value == 0 {
                answers.job_info.value = JobInfo::default();
            }
        }),
    ]
}

/// The request fields of job info.
fn of_requests() -> Vec<WrongAnswers> {
    vec![
        wrong("the request of the next area", |manager, place, answers| {
            let next = Place { area: place.area + 1, ..place };
            if known(manager, place).is_some() {
                let info = Answers::of(Some(manager), next).job_info;
                answers.job_info.value.request = info.value.request;
            }
        }),
        wrong("the request of a suspended erase", |manager, place, answers| {
            let devices = 0..manager.plan().devices.len();
            let erases = devices.filter_map(|device| manager.suspended(device));
            for erase in erases.filter(|erase| Some(erase.area) == known(manager, place)) {
                answers.job_info.value.request = RequestInfo::from(&erase);
            }
        }),
        wrong("no request of a cancelled job", |manager, place, answers| {
            if known(manager, place).is_some_and(|area| manager.is_cancelled(area)) {
                answers.job_info.value.request = RequestInfo::default();
            }
        }),
    ]
}

fn of_memory() -> Vec<WrongAnswers> {
    vec![
        wrong("the area's logical start", |manager, place, answers| {
            if let (Some(area), 0) = (known(manager, place), answers.memory_info.number) {
                let start = manager.plan().areas[area].logical_start;
                answers.memory_info.value.logical_start_address = start;
            }
        }),
        wrong("the physical address itself", |_, place, answers| {
            if answers.memory_info.number == 0 {
                let info = &mut answers.memory_info.value;
                info.physical_start_address += place.address - info.logical_start_address;
            }
        }),
        wrong("the size as the largest offset", |_, _, answers| {
            if answers.memory_info.number == 0 {
                answers.memory_info.value.max_offset += 1;
            }
        }),
        wrong("the sub-area of the next byte", |manager, place, answers| {
            let next = Place { address: place.address.saturating_add(1), ..place };
            let info = Answers::of(Some(manager), next).memory_info;
            if answers.memory_info.number == 0 && info.number == 0 {
                answers.memory_info = info;
            }
        }),
    ]
}

fn of_refusals() -> Vec<WrongAnswers> {
    vec![
        wrong("unknown areas are area 0", |manager, place, answers| {
            if known(manager, place).is_none() {
                *answers = Answers::of(Some(manager), Place { area: 0, ..place });
            }
        }),
        wrong("memory info of the byte behind the area", |manager, place, answers| {
            if answers.memory_info.number == 12 {
                let last = Place { address: place.address.wrapping_sub(1), ..place };
                answers.memory_info = Answers::of(Some(manager), last).memory_info;
            }
        }),
        wrong("refused memory info names a device", |_, _, answers| {
            if answers.memory_info.number == 12 {
                answers.memory_info.value.hw_id = 1;
            }
        }),
    ]
}

fn known(manager: &Manager, place: Place) -> Option<usize> {
    let area = segments::index(u64::from(place.area));
    (area < manager.plan().areas.len()).then_some(area)
}
