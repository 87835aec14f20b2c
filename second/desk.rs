//! The desk: jobs by number, and for each cell its holders and its queue.

use crate::words::*;
use std::collections::VecDeque;

/// 01, Jobs and their numbers: what an open job is.
#[derive(Clone, Copy, PartialEq, Debug)]
pub enum Status {
    Running,
    Waiting,
    SentBack,
}

#[derive(Clone, PartialEq, Debug)]
pub struct Job {
    pub number: u32,
    pub status: Status,
}

#[derive(Clone, PartialEq, Debug)]
pub struct Holder {
    pub job: u32,
    pub mode: Mode,
}

/// A waiter asked with `letter` and waits to hold the cell in `mode`.
#[derive(Clone, PartialEq, Debug)]
pub struct Waiter {
    pub job: u32,
    pub letter: u8,
    pub mode: Mode,
}

#[derive(Clone, PartialEq, Debug, Default)]
pub struct Cell {
    pub holders: Vec<Holder>,
    pub queue: VecDeque<Waiter>,
}

impl Cell {
    /// The mode in which the job holds this cell.
    pub fn held_by(&self, job: u32) -> Option<Mode> {
        self.holders.iter().find(|holder| holder.job == job).map(|holder| holder.mode)
    }

    /// Rules 2 to 4, and 02, No. 1: the mode may be granted beside every holder other than the job
    /// itself.
    pub fn agrees(&self, job: u32, mode: Mode) -> bool {
        self.holders.iter().all(|holder| holder.job == job || granted_beside(holder.mode, mode))
    }

    /// Rules 2 and 3: older (smaller) than every holder other than the job itself.
    pub fn older_than_holders(&self, job: u32) -> bool {
        self.holders.iter().all(|holder| holder.job == job || job < holder.job)
    }

    /// Rule 3: older than every waiter of this cell.
    pub fn older_than_waiters(&self, job: u32) -> bool {
        self.queue.iter().all(|waiter| job < waiter.job)
    }

    /// The job holds the cell in this mode from now on; a promotion replaces its old mode.
    pub fn hold(&mut self, job: u32, mode: Mode) {
        self.holders.retain(|holder| holder.job != job);
        self.holders.push(Holder { job, mode });
    }

    /// Rule 4: the first waiter leaves the queue and holds what it asked for, if it
    /// agrees with the other holders.
    pub fn grant_first(&mut self) -> Option<Waiter> {
        let first = self.queue.front()?;
        if !self.agrees(first.job, first.mode) {
            return None;
        }
        let waiter = self.queue.pop_front()?;
        self.hold(waiter.job, waiter.mode);
        Some(waiter)
    }
}

/// 01, Refusals by number: "go, wait, back or a refusal that carries its number".
#[derive(Clone, Copy, PartialEq, Debug)]
pub enum Answer {
    Go(u32),
    Wait(u32),
    Back(u32),
    No(u8),
}

/// An answer with the step's wakes beside it.
#[derive(Clone, PartialEq, Debug)]
pub struct Outcome {
    pub answer: Answer,
    pub wakes: Vec<Line>,
}

impl Outcome {
    pub fn alone(answer: Answer) -> Outcome {
        Outcome { answer, wakes: Vec::new() }
    }
}

/// What the programs need of a desk: of this one, or of the timestamp desk (02, No. 6).
pub trait AnyDesk: Sized {
    /// Whether a sent back job stays open, for a retry.
    const KEEPS_SENT_BACK: bool;

    fn start(first: u32) -> Result<Self, u8>;

    fn step(&mut self, asked: Line) -> Outcome;
}

impl AnyDesk for Desk {
    const KEEPS_SENT_BACK: bool = true;

    fn start(first: u32) -> Result<Desk, u8> {
        Desk::start(first)
    }

    fn step(&mut self, asked: Line) -> Outcome {
        Desk::step(self, asked)
    }
}

/// 01, Jobs and their numbers: the number to give first; refusal 10.
pub fn first_number(first: u32) -> Result<u64, u8> {
    if first == 0 {
        Err(START_ZERO)
    } else {
        Ok(u64::from(first))
    }
}

/// 01, Refusals by number: "begin tests 7, then 6", by the next number to give and the open jobs.
pub fn refusal_of_begin(next: u64, open: usize) -> Option<u8> {
    if next > u64::from(LAST_NUMBER) {
        Some(NUMBERS_OUT)
    } else if open == PLACES {
        Some(PLACES_FULL)
    } else {
        None
    }
}

/// The next number to give, the open jobs (in order of number) and the 64 cells.
#[derive(Clone, PartialEq, Debug)]
pub struct Desk {
    pub next: u64,
    pub jobs: Vec<Job>,
    pub cells: Vec<Cell>,
}

impl Desk {
    /// 01, Jobs and their numbers: a fresh desk; refusal 10.
    pub fn start(first: u32) -> Result<Desk, u8> {
        Ok(Desk { next: first_number(first)?, jobs: Vec::new(), cells: vec![Cell::default(); CELLS] })
    }

    pub fn status(&self, job: u32) -> Option<Status> {
        self.jobs.iter().find(|open| open.number == job).map(|open| open.status)
    }

    pub fn set_status(&mut self, job: u32, status: Status) {
        if let Some(open) = self.jobs.iter_mut().find(|open| open.number == job) {
            open.status = status;
        }
    }

    /// One request, one answer. Fields a kind does not use are not read.
    pub fn step(&mut self, asked: Line) -> Outcome {
        if let Some(number) = self.refusal(asked) {
            return Outcome::alone(Answer::No(number));
        }
        match asked.letter {
            BEGIN => self.begin(),
            COMMIT | GIVE_UP => self.close(asked.job),
            RETRY => self.retry(asked.job),
            _ => self.ask(asked),
        }
    }

    /// 01, Refusals by number: 1; for begin 7, 6; else 3, 4, 5, 8, 2.
    pub fn refusal(&self, asked: Line) -> Option<u8> {
        let Line { letter, job, cell } = asked;
        if !REQUEST_LETTERS.contains(&letter) {
            return Some(NO_SUCH_KIND);
        }
        if letter == BEGIN {
            return self.refusal_of_begin();
        }
        match self.status(job) {
            None => Some(JOB_NOT_OPEN),
            Some(Status::Waiting) if letter != GIVE_UP => Some(JOB_WAITING),
            Some(Status::SentBack) if letter == COMMIT || has_cell(letter) => Some(JOB_SENT_BACK),
            Some(Status::Running) if letter == RETRY => Some(JOB_RUNNING),
            Some(_) if has_cell(letter) && cell as usize >= CELLS => Some(NO_SUCH_CELL),
            Some(_) => None,
        }
    }

    pub fn refusal_of_begin(&self) -> Option<u8> {
        refusal_of_begin(self.next, self.jobs.len())
    }

    /// 01, The desk's rules: "Begin opens a running job that holds nothing."
    pub fn begin(&mut self) -> Outcome {
        let number = self.next as u32;
        self.next += 1;
        self.jobs.push(Job { number, status: Status::Running });
        Outcome::alone(Answer::Go(number))
    }

    /// Rule 4 for commit and give-up: the job is closed.
    pub fn close(&mut self, job: u32) -> Outcome {
        self.jobs.retain(|open| open.number != job);
        Outcome { answer: Answer::Go(job), wakes: self.end_run(job) }
    }

    /// Rule 4 for back: the job keeps its number and its place.
    pub fn back(&mut self, job: u32) -> Outcome {
        self.set_status(job, Status::SentBack);
        Outcome { answer: Answer::Back(job), wakes: self.end_run(job) }
    }

    /// Rule 5.
    pub fn retry(&mut self, job: u32) -> Outcome {
        self.set_status(job, Status::Running);
        Outcome::alone(Answer::Go(job))
    }

    /// Rule 4: drop the job's locks and its place in a queue, then grant waiters, cell
    /// by cell, from the front, up to the first that does not agree.
    pub fn end_run(&mut self, job: u32) -> Vec<Line> {
        for cell in &mut self.cells {
            cell.holders.retain(|holder| holder.job != job);
            cell.queue.retain(|waiter| waiter.job != job);
        }
        let mut wakes = Vec::new();
        for number in 0..CELLS {
            while let Some(waiter) = self.cells[number].grant_first() {
                self.set_status(waiter.job, Status::Running);
                wakes.push(Line { letter: waiter.letter, job: waiter.job, cell: number as u32 });
            }
        }
        wakes
    }

    /// Read, write, increment and `u` by a running job: rule 1, 2 or 3.
    pub fn ask(&mut self, asked: Line) -> Outcome {
        match self.cells[asked.cell as usize].held_by(asked.job) {
            Some(held) if covers(held, needs(asked.letter)) => Outcome::alone(Answer::Go(asked.job)),
            Some(held) => self.promote(asked, held),
            None => self.ask_anew(asked),
        }
    }

    /// Rule 2, and 02, No. 1: a promotion is granted when its new mode agrees with the other holders
    /// (for X: when there are none), whoever waits; age is held against every other holder.
    pub fn promote(&mut self, asked: Line, held: Mode) -> Outcome {
        let Line { letter, job, .. } = asked;
        let mode = held_after(Some(held), letter);
        let cell = &mut self.cells[asked.cell as usize];
        if cell.agrees(job, mode) {
            cell.hold(job, mode);
            Outcome::alone(Answer::Go(job))
        } else if cell.older_than_holders(job) {
            cell.queue.push_front(Waiter { job, letter, mode });
            self.wait(job)
        } else {
            self.back(job)
        }
    }

    /// Rule 3: a job that does not hold the cell.
    pub fn ask_anew(&mut self, asked: Line) -> Outcome {
        let Line { letter, job, .. } = asked;
        let mode = held_after(None, letter);
        let cell = &mut self.cells[asked.cell as usize];
        if cell.queue.is_empty() && cell.agrees(job, mode) {
            cell.hold(job, mode);
            Outcome::alone(Answer::Go(job))
        } else if cell.older_than_holders(job) && cell.older_than_waiters(job) {
            cell.queue.push_back(Waiter { job, letter, mode });
            self.wait(job)
        } else {
            self.back(job)
        }
    }

    /// Rules 2 and 3: the job waits from now on.
    pub fn wait(&mut self, job: u32) -> Outcome {
        self.set_status(job, Status::Waiting);
        Outcome::alone(Answer::Wait(job))
    }
}

/// 01, Lines, "History records": the step's events on either desk; `c`, `a`, `k` before the wakes. A
/// record's letter is the letter asked (docs/DECISIONS.md, "Records of rule 1"), and `r` for `u`,
/// however it was granted (02, No. 1).
pub fn history_of(asked: Line, outcome: &Outcome) -> Vec<Line> {
    let mut events = Vec::new();
    match outcome.answer {
        Answer::Go(_) if asked.letter != BEGIN && asked.letter != RETRY => events.push(asked),
        Answer::Back(job) => events.push(Line { letter: SENT_BACK, job, cell: 0 }),
        _ => {}
    }
    events.extend(&outcome.wakes);
    events.iter().map(|event| Line { letter: recorded(event.letter), ..*event }).collect()
}
