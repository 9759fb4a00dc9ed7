//! The audit of a plan and a list of jobs, both files, on standard output: what the proved program `audit`
//! is to print.

use model::audit::audit_text;
use std::fs;
use std::io::{self, Write};
use std::process::ExitCode;

fn main() -> io::Result<ExitCode> {
    let arguments: Vec<_> = std::env::args_os().skip(1).collect();
    let [plan, jobs] = &arguments[..] else {
        eprintln!("audit PLAN JOBS: the plan's bytes, and lines 'type area address length'");
        return Ok(ExitCode::FAILURE);
    };
    let plan = fs::read(plan).ok();
    let mut output = io::stdout().lock();
    output.write_all(&audit_text(plan.as_deref(), &fs::read(jobs)?))?;
    output.flush()?;
    Ok(ExitCode::SUCCESS)
}
