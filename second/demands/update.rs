//! The update lock of 02, No. 1, held against a random run of the desk by brute force. The
//! matrix and the table of grants stand here once more, in words of their own.

use super::Seen;
use crate::desk::{Answer, Cell, Desk, Holder, Status};
use crate::words::Mode::{self, I, S, U, X};
use crate::words::{has_cell, Line};
use std::collections::BTreeMap;

/// May be granted beside what another job holds: S and U beside S, I beside I.
pub fn lets(held: Mode, asked: Mode) -> bool {
    matches!((held, asked), (S, S | U) | (I, I))
}

/// May be held by two jobs at once: S with S, S with U, I with I.
pub fn together(one: Mode, other: Mode) -> bool {
    matches!((one, other), (S, S) | (S, U) | (U, S) | (I, I))
}

/// What a job holds after a grant, by what it held before.
pub fn grown(held: Option<Mode>, letter: u8) -> Mode {
    match (held, letter) {
        (None | Some(S), b'r') => S,
        (None | Some(S), b'u') | (Some(U), b'r' | b'u') => U,
        (None | Some(I), b'i') => I,
        _ => X,
    }
}

/// A mode covers what leaves it as it is.
pub fn enough(held: Option<Mode>, letter: u8) -> bool {
    held == Some(grown(held, letter))
}

pub fn others(cell: &Cell, job: u32) -> Vec<&Holder> {
    cell.holders.iter().filter(|holder| holder.job != job).collect()
}

/// All statements that need no memory, for one more step and its history records.
pub fn update(seen: &Seen, events: &[Line]) -> Result<(), String> {
    nobody_beside(seen)?;
    one_writer(seen.after)?;
    promotions(seen.after)?;
    modes(seen)?;
    records(seen, events)?;
    answer(seen)
}

/// While a job holds U or X on a cell no other job gets a lock there, or a bigger one.
pub fn nobody_beside(seen: &Seen) -> Result<(), String> {
    for (number, cell) in seen.before.cells.iter().enumerate() {
        let after = &seen.after.cells[number];
        for strong in cell.holders.iter().filter(|holder| matches!(holder.mode, U | X)) {
            let ended = seen.ended() == Some(strong.job);
            for other in others(after, strong.job) {
                demand!(
                    ended || cell.held_by(other.job) == Some(other.mode),
                    "u: {other:?} came to cell {number} beside {strong:?}"
                );
            }
        }
    }
    Ok(())
}

/// At most one job holds U or X on a cell.
pub fn one_writer(desk: &Desk) -> Result<(), String> {
    for (number, cell) in desk.cells.iter().enumerate() {
        let strong: Vec<u32> = cell
            .holders
            .iter()
            .filter(|holder| matches!(holder.mode, U | X))
            .map(|holder| holder.job)
            .collect();
        demand!(strong.len() <= 1, "u: {strong:?} hold U or X on cell {number}");
    }
    Ok(())
}

/// Only the front of a queue may be a promotion, and no waiter holds what covers its request.
pub fn promotions(desk: &Desk) -> Result<(), String> {
    for (number, cell) in desk.cells.iter().enumerate() {
        for (place, waiter) in cell.queue.iter().enumerate() {
            let held = cell.held_by(waiter.job);
            demand!(place == 0 || held.is_none(), "u: {waiter:?} waits behind others for cell {number}");
            demand!(!enough(held, waiter.letter), "u: {waiter:?} waits for cell {number} and has {held:?}");
            let wanted = grown(held, waiter.letter);
            demand!(
                waiter.mode == wanted,
                "u: {waiter:?} waits for cell {number}, the table has {wanted:?}"
            );
        }
    }
    Ok(())
}

/// A go and a wake leave exactly the mode that the table says.
pub fn modes(seen: &Seen) -> Result<(), String> {
    for grant in seen.granted() {
        let number = grant.cell as usize;
        let wanted = grown(seen.before.cells[number].held_by(grant.job), grant.letter);
        let held = seen.after.cells[number].held_by(grant.job);
        demand!(held == Some(wanted), "u: after {grant:?} {held:?} is held, the table has {wanted:?}");
    }
    Ok(())
}

/// Each grant is recorded, a `u` as `r`, and a history has no other letter than the paper's.
pub fn records(seen: &Seen, events: &[Line]) -> Result<(), String> {
    for event in events {
        demand!(b"rwicak".contains(&event.letter), "u: the record {event:?}");
    }
    let actions: Vec<Line> = events.iter().copied().filter(|event| has_cell(event.letter)).collect();
    let letter = |asked: u8| if asked == b'u' { b'r' } else { asked };
    let wanted: Vec<Line> =
        seen.granted().iter().map(|grant| Line { letter: letter(grant.letter), ..*grant }).collect();
    demand!(actions == wanted, "u: {wanted:?} recorded as {actions:?}");
    Ok(())
}

/// The rules once more: a holder goes where its new mode is let in by every other holder, and a job
/// new to the cell where also nobody waits; else age decides, against all that are there.
pub fn answer(seen: &Seen) -> Result<(), String> {
    let Line { letter, job, cell } = seen.asked;
    if !has_cell(letter) || cell > 63 || seen.before.status(job) != Some(Status::Running) {
        return Ok(());
    }
    let cell = &seen.before.cells[cell as usize];
    let held = cell.held_by(job);
    let others = others(cell, job);
    let waiters: Vec<u32> = match held {
        Some(_) => Vec::new(),
        None => cell.queue.iter().map(|waiter| waiter.job).collect(),
    };
    let let_in = others.iter().all(|other| lets(other.mode, grown(held, letter)));
    let oldest = others.iter().all(|other| job < other.job) && waiters.iter().all(|&other| job < other);
    let wanted = if enough(held, letter) || let_in && waiters.is_empty() {
        Answer::Go(job)
    } else if oldest {
        Answer::Wait(job)
    } else {
        Answer::Back(job)
    };
    let got = seen.outcome.answer;
    demand!(
        got == wanted,
        "u: with {held:?}, others {others:?} and {waiters:?} waiting: {wanted:?}, not {got:?}"
    );
    Ok(())
}

/// Since which step a job holds a cell, and since which it holds U there.
pub struct Hold {
    pub since: usize,
    pub update: Option<usize>,
}

/// The holds under way, by cell and job.
#[derive(Default)]
pub struct Holds {
    pub step: usize,
    pub all: BTreeMap<(usize, u32), Hold>,
}

impl Holds {
    pub fn see(&mut self, seen: &Seen) -> Result<(), String> {
        self.step += 1;
        self.sent_back_by_a_reader(seen)?;
        self.all.retain(|&(number, job), _| seen.after.cells[number].held_by(job).is_some());
        for (number, cell) in seen.after.cells.iter().enumerate() {
            for holder in &cell.holders {
                let new = Hold { since: self.step, update: None };
                let hold = self.all.entry((number, holder.job)).or_insert(new);
                if holder.mode == U && hold.update.is_none() {
                    hold.update = Some(self.step);
                }
            }
        }
        Ok(())
    }

    /// A job that holds U and asks for `w` or `i` is sent back only where an older job holds S, and has
    /// held it without a break since before the U was given.
    pub fn sent_back_by_a_reader(&self, seen: &Seen) -> Result<(), String> {
        let Line { letter, job, cell } = seen.asked;
        if seen.outcome.answer != Answer::Back(job) || !matches!(letter, b'w' | b'i') {
            return Ok(());
        }
        let cell = cell as usize;
        let Some(given) = self.all.get(&(cell, job)).and_then(|hold| hold.update) else {
            return Ok(());
        };
        let reads = |other: &&Holder| {
            let before = self.all.get(&(cell, other.job)).is_some_and(|hold| hold.since < given);
            other.mode == S && other.job < job && before
        };
        let found = seen.before.cells[cell].holders.iter().find(reads);
        demand!(
            found.is_some(),
            "u: {job} had U on cell {cell} from step {given}, and went back for nobody"
        );
        Ok(())
    }
}
