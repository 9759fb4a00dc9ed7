//! Sessions of ever new seeds, compared until the time is up or a difference is found, which is made
//! small and saved.

use crate::coverage::Coverage;
use crate::random::Random;
use crate::script::Script;
use crate::shrink::{report, smallest};
use crate::subject::{compare, Subject};
use std::fs;
use std::io;
use std::path::{Path, PathBuf};
use std::time::{Duration, Instant};

const MOST_LINES: usize = 400;
const BETWEEN_REPORTS: Duration = Duration::from_secs(1);

/// How a run ends.
pub enum Ending {
    /// After these sessions.
    NoDifference(Coverage),
    /// Saved here.
    Difference(PathBuf),
}

/// Compares one session for each seed from `seed` on. `tell` gets a line of progress every second.
pub fn fuzz(
    subject: &mut dyn Subject,
    seed: u64,
    time: Duration,
    folder: &Path,
    tell: &mut dyn FnMut(&str),
) -> io::Result<Ending> {
    let start = Instant::now();
    let mut told = start;
    let mut coverage = Coverage::default();
    for seed in seed.. {
        if start.elapsed() >= time {
            break;
        }
        let script = Script::drawn(&mut Random::new(seed), MOST_LINES);
        match compare(subject, &script) {
            Ok(outcome) => coverage.add(&script, &outcome.output),
            Err(_) => return save(subject, seed, script, folder).map(Ending::Difference),
        }
        if told.elapsed() >= BETWEEN_REPORTS {
            told = Instant::now();
            tell(&progress(&coverage, start.elapsed(), seed));
        }
    }
    Ok(Ending::NoDifference(coverage))
}

fn progress(coverage: &Coverage, elapsed: Duration, seed: u64) -> String {
    let (sessions, lines) = (coverage.sessions, coverage.lines);
    let per_second = lines as f64 / elapsed.as_secs_f64();
    let seconds = elapsed.as_secs();
    format!("{seconds} s, seed {seed}: {sessions} sessions, {lines} lines, {per_second:.0} lines/s")
}

/// Saves the smallest session found from this one on that shows a difference.
fn save(
    subject: &mut dyn Subject,
    seed: u64,
    script: Script,
    folder: &Path,
) -> io::Result<PathBuf> {
    let small = smallest(script, &mut |script| compare(subject, script).is_err());
    let difference = compare(subject, &small).expect_err("only sessions that differ are kept");
    fs::create_dir_all(folder)?;
    let file = folder.join(format!("seed-{seed}.txt"));
    fs::write(&file, report(&small, &difference))?;
    Ok(file)
}
