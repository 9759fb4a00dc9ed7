//! A round in the wait book: what becomes of every running request, and the books that follow.

use super::{Entry, Numbers, Station, Task, WaitBook};
use crate::admission;
use crate::jobs::{Answer, Operation};
use crate::segments::{index, Piece};
use std::cmp::{Ordering, Reverse};

/// What the first half of a round makes of a device.
#[derive(Clone, Copy, Debug, PartialEq, Eq)]
pub enum Fate {
    /// Nothing ran.
    Unasked,
    /// The request runs on, polled once more.
    RunsOn,
    Ends(Finished),
}

/// A request that a round finishes.
#[derive(Clone, Copy, Debug, PartialEq, Eq)]
pub struct Finished {
    pub area: usize,
    pub operation: Operation,
    pub piece: Piece,
    /// Of the piece in its job: the lengths of the pieces before it.
    pub offset: u64,
    pub outcome: Outcome,
}

#[derive(Clone, Copy, Debug, PartialEq, Eq)]
pub enum Outcome {
    Done,
    /// Done, but a byte differs or is not 255.
    Inconsistent,
    /// After so many of the request's bytes; 0 if the driver dropped it.
    Failed {
        acted: u64,
    },
}

/// What the second half of a round makes of a device.
enum Turn {
    Stays,
    /// What the area needs next: its piece or the lock.
    Begins(usize),
    /// The area's running erase is suspended, and the other's piece starts.
    GivesWay {
        area: usize,
        polls: u64,
        to: usize,
    },
    /// The area's suspended erase runs again.
    Resumes {
        area: usize,
        polls: u64,
    },
}

impl Turn {
    /// Does the turn change the entry of the area?
    fn moves(&self, number: usize) -> bool {
        match self {
            Turn::Stays => false,
            Turn::Begins(area) | Turn::GivesWay { area, .. } | Turn::Resumes { area, .. } => {
                *area == number
            }
        }
    }
}

impl WaitBook {
    /// The book after a round that is lent this memory, and the number that the questions give it.
    pub fn round(self, answers: [Answer; 4], image: &[u8], store: &[u8]) -> (WaitBook, u8) {
        match admission::round(&self.plan, image.len(), store.len()) {
            Err(number) => (self, number),
            Ok(()) => {
                let fates = self.fates(answers, image, store);
                let answered = self.with_one_more_round().after_answers(&fates);
                let answered = answered.with_done_erases(&fates);
                (answered.after_starts().after_counting(), 0)
            }
        }
    }

    /// What becomes of each device, in their order, if a round with this memory is accepted. All of
    /// it is seen as it was before the round: requests that run at one time are of different areas,
    /// whose windows and sub-areas share no byte.
    pub fn fates(&self, answers: [Answer; 4], image: &[u8], store: &[u8]) -> Vec<Fate> {
        let fate = |(device, answer): (usize, Answer)| match self.stations[device] {
            Station::Nothing | Station::LockedFor(_) => Fate::Unasked,
            Station::Runs { area, piece, polls } => {
                let patience = u64::from(self.plan.devices[device].patience);
                match answer {
                    Answer::Pending if polls + 1 < patience => Fate::RunsOn,
                    Answer::Pending => self.fails(area, piece, 0),
                    Answer::Failed(k) => self.fails(area, piece, u64::from(k)),
                    Answer::Done => self.is_done(area, piece, image, store),
                }
            }
        };
        (0..self.stations.len()).zip(answers).map(fate).collect()
    }

    fn fails(&self, area: usize, piece: Piece, after: u64) -> Fate {
        self.ends(area, piece, Outcome::Failed { acted: after.min(piece.length) })
    }

    fn is_done(&self, area: usize, piece: Piece, image: &[u8], store: &[u8]) -> Fate {
        let (operation, offset) = self.at_work(area);
        let image_part = &image[piece.bytes()];
        let holds = match operation {
            Operation::Compare => {
                let window = &store[index(u64::from(self.plan.areas[area].window_start))..];
                image_part.iter().eq(window[index(offset)..].iter().take(image_part.len()))
            }
            Operation::BlankCheck => !image_part.iter().any(|byte| *byte != 255),
            Operation::Write | Operation::Read | Operation::Erase => true,
        };
        self.ends(area, piece, if holds { Outcome::Done } else { Outcome::Inconsistent })
    }

    fn ends(&self, area: usize, piece: Piece, outcome: Outcome) -> Fate {
        let (operation, offset) = self.at_work(area);
        Fate::Ends(Finished { area, operation, piece, offset, outcome })
    }

    /// The operation of an area whose request runs, and the offset of that request in its job.
    fn at_work(&self, area: usize) -> (Operation, u64) {
        let entry = &self.entries[area];
        match entry.work.as_ref().map(|work| &work.task) {
            Some(Task::Pieces(operation, pieces)) => {
                (*operation, pieces[..entry.next].iter().map(|piece| piece.length).sum())
            }
            Some(Task::LockOf(_)) | None => unreachable!("only pieces run"),
        }
    }

    /// "An accepted round adds 1 to the rounds of every pending job".
    fn with_one_more_round(self) -> WaitBook {
        let one_more = |entry: Entry| {
            let rounds = entry.numbers.rounds + u128::from(entry.is_pending);
            Entry { numbers: Numbers { rounds, ..entry.numbers }, ..entry }
        };
        WaitBook { entries: self.entries.into_iter().map(one_more).collect(), ..self }
    }

    /// The first half.
    fn after_answers(self, fates: &[Fate]) -> WaitBook {
        let station = |(station, fate): (Station, &Fate)| match (station, fate) {
            (Station::Runs { area, piece, polls }, Fate::RunsOn) => {
                Station::Runs { area, piece, polls: polls + 1 }
            }
            (Station::Runs { .. }, Fate::Ends(_)) => Station::Nothing,
            _ => station,
        };
        let entry = |(number, entry): (usize, Entry)| {
            let finished = fates.iter().find_map(|fate| match fate {
                Fate::Ends(finished) if finished.area == number => Some(finished),
                _ => None,
            });
            match finished {
                Some(finished) => entry.after(finished),
                None => entry,
            }
        };
        WaitBook {
            stations: self.stations.into_iter().zip(fates).map(station).collect(),
            entries: self.entries.into_iter().enumerate().map(entry).collect(),
            plan: self.plan,
            order: self.order,
            erased: self.erased,
        }
        .without_ended()
    }

    /// The second half. Each job needs one device, so what one device does is no matter for the
    /// others.
    fn after_starts(self) -> WaitBook {
        let turns: Vec<_> = (0..self.stations.len()).map(|device| self.turn(device)).collect();
        let stations = self.stations.iter().zip(&turns);
        let stations = stations.map(|(station, turn)| self.station_after(*station, turn)).collect();
        let entry =
            |(number, entry): (usize, Entry)| match turns.iter().find(|turn| turn.moves(number)) {
                Some(turn) => entry.after_turn(turn),
                None => entry,
            };
        let entries = self.entries.into_iter().enumerate().map(entry).collect();
        let (plan, order, erased) = (self.plan, self.order, self.erased);
        WaitBook { stations, entries, plan, order, erased }.without_ended()
    }

    fn station_after(&self, station: Station, turn: &Turn) -> Station {
        let runs = |area: usize, polls: u64| {
            let piece = self.entries[area].next_piece();
            piece.map(|piece| Station::Runs { area, piece, polls })
        };
        match *turn {
            Turn::Stays => station,
            Turn::Begins(area) | Turn::GivesWay { to: area, .. } => {
                runs(area, 0).unwrap_or(Station::LockedFor(area))
            }
            Turn::Resumes { area, polls } => runs(area, polls).expect("an erase has a piece"),
        }
    }

    /// What becomes of a device: locked it starts nothing, free it takes the first in the order of
    /// ranks. "When, in a round's second half, the highest ranked ready job there (...) outranks the
    /// running erase's area and its next piece is no erase, the erase is parked with its polls kept
    /// and that piece starts." "After each piece the parked erase resumes, unless the highest ranked
    /// ready job again qualifies. One erase is parked per chip".
    fn turn(&self, device: usize) -> Turn {
        let first = self.first_ready(device);
        let over = |erasing: usize| first.filter(|area| self.goes_over(*area, erasing));
        match (self.stations[device], self.suspended_on(device)) {
            (Station::Nothing, None) => first.map_or(Turn::Stays, Turn::Begins),
            (Station::Nothing, Some((area, polls))) => {
                over(area).map_or(Turn::Resumes { area, polls }, Turn::Begins)
            }
            (Station::Runs { area, polls, .. }, None) if self.may_give_way(device, area) => {
                over(area).map_or(Turn::Stays, |to| Turn::GivesWay { area, polls, to })
            }
            (Station::Runs { .. } | Station::LockedFor(_), _) => Turn::Stays,
        }
    }

    /// Of the jobs that need a device, and of which nothing runs or is suspended, the first in the
    /// order of ranks.
    fn first_ready(&self, device: usize) -> Option<usize> {
        let is_ready = |area: &usize| {
            let entry = &self.entries[*area];
            entry.needs() == Some(device) && entry.suspended.is_none() && !self.runs_for(*area)
        };
        let ready = (0..self.entries.len()).filter(is_ready);
        ready.min_by_key(|area| self.rank(*area))
    }

    /// "A device record with mark hex 44 53, laid out as before, means the chip can pause", and one with
    /// mark hex 44 46 "can pause too". Only an erase gives way there.
    fn may_give_way(&self, device: usize, area: usize) -> bool {
        self.plan.devices[device].chip.can_suspend() && self.entries[area].is_erase()
    }

    /// Does a ready job go over the erase of an area? "A lock request has no piece and parks
    /// nothing."
    fn goes_over(&self, area: usize, erasing: usize) -> bool {
        let entry = &self.entries[area];
        self.rank(area) < self.rank(erasing) && !entry.is_erase() && !entry.is_lock()
    }

    /// "Each job still pending adds 1 to own if its request runs; else, if another area's request
    /// runs on the device it needs, to above if that area ranks above the job's, to below if under
    /// it; else, if that device is locked, to locked." "The wait counts, in the wait book too, and
    /// job info take a parked erase as not running".
    fn after_counting(self) -> WaitBook {
        let ranks: Vec<_> = (0..self.entries.len()).map(|area| self.rank(area)).collect();
        let WaitBook { plan, stations, entries, order, erased } = self;
        let counted = |(area, entry): (usize, Entry)| {
            let own = stations.iter().any(
                |station| matches!(station, Station::Runs { area: runner, .. } if *runner == area),
            );
            let n = entry.numbers;
            let numbers = match entry.needs().map(|device| stations[device]) {
                Some(_) if own => Numbers { own: n.own + 1, ..n },
                Some(Station::Runs { area: other, .. }) => match ranks[other].cmp(&ranks[area]) {
                    Ordering::Less => Numbers { above: n.above + 1, ..n },
                    Ordering::Equal => n,
                    Ordering::Greater => Numbers { below: n.below + 1, ..n },
                },
                Some(Station::LockedFor(_)) => Numbers { locked: n.locked + 1, ..n },
                Some(Station::Nothing) | None => n,
            };
            Entry { numbers, ..entry }
        };
        let entries = entries.into_iter().enumerate().map(counted).collect();
        WaitBook { plan, stations, entries, order, erased }
    }

    /// Sorts pending areas by rank, the highest first: "the larger priority is above"; "Areas of
    /// equal priority shall be ranked by acceptance: the earlier accepted job is above."
    fn rank(&self, area: usize) -> (Reverse<u16>, Option<usize>) {
        let place = self.order.iter().position(|pending| *pending == area);
        (Reverse(self.plan.areas[area].priority), place)
    }
}

impl Entry {
    /// The entry after its request ended.
    fn after(self, finished: &Finished) -> Entry {
        let entry = match finished.outcome {
            Outcome::Done => self.with_piece_done(finished.piece),
            Outcome::Inconsistent => return self.ended_by_round(),
            Outcome::Failed { .. } if self.retries_left == 0 => return self.ended_by_round(),
            Outcome::Failed { .. } => Entry { retries_left: self.retries_left - 1, ..self },
        };
        if entry.is_cancelled || entry.next_piece().is_none() {
            entry.ended_by_round()
        } else {
            entry
        }
    }

    fn with_piece_done(mut self, piece: Piece) -> Entry {
        self.done.push(piece);
        let entry = Entry { next: self.next + 1, ..self };
        let retries_left = entry.next_piece().map_or(0, |next| next.retries);
        Entry { retries_left, ..entry }
    }

    /// The entry of an area that a turn changes: a lock given ends its request.
    fn after_turn(self, turn: &Turn) -> Entry {
        match *turn {
            Turn::GivesWay { polls, .. } => Entry { suspended: Some(polls), ..self },
            Turn::Resumes { .. } => Entry { suspended: None, ..self },
            Turn::Begins(_) if self.is_lock() => self.ended_by_round(),
            Turn::Begins(_) | Turn::Stays => self,
        }
    }

    fn ended_by_round(self) -> Entry {
        Entry { is_pending: false, round_ended_it: true, ..self }
    }
}
