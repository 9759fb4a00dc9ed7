//! Looks for a session on which the proved library and the model differ: `fuzz SECONDS FOLDER
//! [SEED]`. Without a seed it takes one from the clock. The smallest difference found is saved in
//! the folder.

use model::fuzz::{fuzz, Ending};
use model::proved::session::Library;
use std::env;
use std::error::Error;
use std::path::Path;
use std::process::ExitCode;
use std::time::{Duration, SystemTime};

fn main() -> Result<ExitCode, Box<dyn Error>> {
    let arguments: Vec<_> = env::args().skip(1).collect();
    let [seconds, folder, rest @ ..] = arguments.as_slice() else {
        return Err("fuzz SECONDS FOLDER [SEED]".into());
    };
    let seed = match rest {
        [seed, ..] => seed.parse()?,
        [] => SystemTime::now().duration_since(SystemTime::UNIX_EPOCH)?.as_secs() << 20,
    };
    println!("from seed {seed}");
    let time = Duration::from_secs(seconds.parse()?);
    match fuzz(&mut Library, seed, time, Path::new(folder), &mut |line| println!("{line}"))? {
        Ending::NoDifference(coverage) => {
            println!("{coverage}\nno difference");
            Ok(ExitCode::SUCCESS)
        }
        Ending::Difference(file) => {
            println!("a difference, saved in {}", file.display());
            Ok(ExitCode::FAILURE)
        }
    }
}
