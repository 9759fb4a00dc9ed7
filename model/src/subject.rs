//! Subjects that run whole sessions, and the comparison of two of them: what they print byte by
//! byte, and what they leave in image and store.

use crate::script::Script;
use crate::session::Session;

/// Something that runs the sessions of the bench.
pub trait Subject {
    /// Runs a session over the lent image and store and gives all that it prints.
    fn session(&mut self, plan: &[u8], input: &[u8], image: &mut [u8], store: &mut [u8])
        -> Vec<u8>;
}

/// The model as a subject.
pub struct Model;

impl Subject for Model {
    fn session(
        &mut self,
        plan: &[u8],
        input: &[u8],
        image: &mut [u8],
        store: &mut [u8],
    ) -> Vec<u8> {
        match Session::lent(plan, image.to_vec(), store.to_vec()) {
            Ok(mut session) => {
                let mut output = session.feed(input);
                output.extend(session.finish());
                image.copy_from_slice(&session.image);
                store.copy_from_slice(&session.store);
                output
            }
            Err(answer) => format!("{answer}\n").into_bytes(),
        }
    }
}

/// All that can be seen of a session.
#[derive(Clone, Debug, PartialEq, Eq)]
pub struct Outcome {
    pub output: Vec<u8>,
    pub image: Vec<u8>,
    pub store: Vec<u8>,
}

/// Two outcomes of one script that are not the same.
#[derive(Clone, Debug)]
pub struct Difference {
    pub expected: Outcome,
    pub found: Outcome,
}

/// Runs a script from its start.
pub fn play(subject: &mut dyn Subject, script: &Script) -> Outcome {
    let (mut image, mut store) = script.lending.memory();
    let output = subject.session(&script.plan, &script.input(), &mut image, &mut store);
    Outcome { output, image, store }
}

/// The outcome of the model if the subject's is the same.
pub fn compare(subject: &mut dyn Subject, script: &Script) -> Result<Outcome, Box<Difference>> {
    let (expected, found) = (play(&mut Model, script), play(subject, script));
    if expected == found {
        Ok(expected)
    } else {
        Err(Box::new(Difference { expected, found }))
    }
}

impl Difference {
    /// Where the outcomes part, for a person to read.
    pub fn place(&self) -> String {
        let parts = [
            ("image", &self.expected.image, &self.found.image),
            ("store", &self.expected.store, &self.found.store),
        ];
        if self.expected.output != self.found.output {
            return first_line(&self.expected.output, &self.found.output);
        }
        let differing = parts.iter().find(|(_, expected, found)| expected != found);
        let (name, expected, found) = differing.expect("the outcomes differ");
        let byte = expected.iter().zip(*found).position(|(one, other)| one != other);
        let byte = byte.expect("memory keeps its length");
        format!("byte {byte} of the {name}: {} for {}", found[byte], expected[byte])
    }
}

fn first_line(expected: &[u8], found: &[u8]) -> String {
    let lines = |output: &[u8]| -> Vec<String> {
        let lines = output.split(|byte| *byte == b'\n');
        lines.map(|line| String::from_utf8_lossy(line).into_owned()).collect()
    };
    let (expected, found) = (lines(expected), lines(found));
    let same = expected.iter().zip(&found).take_while(|(one, other)| one == other).count();
    let line = |lines: &[String]| lines.get(same).cloned().unwrap_or_default();
    format!("line {} of the output: '{}' for '{}'", same + 1, line(&found), line(&expected))
}
