//! The bench program of "A printed session": loads plan.bin of the current directory, reads lines
//! from standard input and answers on standard output.

use model::session::{Session, PLAN_LIMIT};
use std::fs::File;
use std::io::{self, Read, Write};

fn main() -> io::Result<()> {
    let plan = read_plan().ok();
    let mut output = io::stdout().lock();
    let mut session = match Session::open(plan.as_deref()) {
        Ok(session) => session,
        // The input is not read.
        Err(answer) => return writeln!(output, "{answer}"),
    };
    let mut input = io::stdin().lock();
    let mut chunk = vec![0; 65_536];
    loop {
        let length = input.read(&mut chunk)?;
        if length == 0 {
            break;
        }
        output.write_all(&session.feed(&chunk[..length]))?;
        output.flush()?;
    }
    output.write_all(&session.finish())?;
    output.flush()
}

/// The bytes of plan.bin, but no more than it takes to see that they are too many.
fn read_plan() -> io::Result<Vec<u8>> {
    let mut bytes = Vec::new();
    let limit = u64::try_from(PLAN_LIMIT + 1).expect("a small number");
    File::open("plan.bin")?.take(limit).read_to_end(&mut bytes)?;
    Ok(bytes)
}
