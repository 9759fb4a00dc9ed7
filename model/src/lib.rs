//! An independent model of the memory access manager of document 01 with Req 01 to 05 of document 02, of
//! which Req 04 changes no answer.
//!
//! The model is written from these documents and the list of readings alone, in the plainest form that
//! can be held against their sentences. It shares no code with the proved library; with feature
//! `proved` the tests run both on the same inputs and compare every field of the answers.
//!
//! The rules:
//!
//! - [`plan`]: the records of a plan, and loading (questions 1 to 8 and 20);
//! - [`jobs`]: job types, results, ranges and answers, the terms of the calls;
//! - [`segments`]: the mapping and the cutting of jobs into pieces;
//! - [`admission`]: the questions asked of calls (10 to 19);
//! - [`manager`]: jobs, locks, releases, cancels, rounds and queries, with question 9;
//! - [`wait_book`]: the definition that the counts of demand 3 are held against;
//! - [`session`]: the bench program of the printed session;
//! - [`audit`]: reach and waits of jobs, told from a plan and a list of them.
//!
//! What tries them:
//!
//! - [`calls`]: calls as values;
//! - [`demands`]: the three demands, checked after every call;
//! - [`plans`]: making plans, valid, small and wounded ones, from records to bytes;
//! - [`sessions`]: making lists of calls and lines of sessions;
//! - [`named`]: the table of plans whose number follows from the paper by hand;
//! - [`random`]: the deterministic generator behind everything random;
//! - [`script`], [`subject`]: whole sessions as values, and the comparison of two that run them;
//! - [`answers`]: the queries when a session is over, and their comparison;
//! - [`coverage`]: what the sessions tried;
//! - [`shrink`]: the smallest session that still shows a difference, and its report;
//! - [`fuzz`]: sessions of ever new seeds;
//! - [`histogram`]: how often each number came up;
//! - [`loops`]: calls, burst tests and cuts in loops, as the benchmarks time them;
//! - [`race`]: several ways to the same sum, timed in turn;
//! - `proved`: the proved library, called through its C interface (feature `proved`).

pub mod admission;
pub mod answers;
pub mod audit;
pub mod calls;
pub mod coverage;
pub mod demands;
pub mod fuzz;
pub mod histogram;
pub mod jobs;
pub mod loops;
pub mod manager;
pub mod named;
pub mod plan;
pub mod plans;
#[cfg(feature = "proved")]
pub mod proved;
pub mod race;
pub mod random;
pub mod script;
pub mod segments;
pub mod session;
pub mod sessions;
pub mod shrink;
pub mod subject;
pub mod wait_book;
