//! The demands, held against a random run of the desk by brute force. They read with the larger
//! matrix of 02, No. 1; what that request promises of its own stands in `demands/update.rs`, what is
//! demanded of the history in `demands/history.rs`, and what No. 3 promises of chains in
//! `demands/chain.rs`. What No. 6 promises of the timestamp desk stands in `demands/stamps.rs`.

use crate::desk::{history_of, Answer, Cell, Desk, Holder, Outcome, Status};
use crate::make::chains::Shaper;
use crate::make::requests::Maker;
use crate::make::Chance;
use crate::words::*;
use chain::chains;
use std::collections::{BTreeMap, BTreeSet};
use update::{enough, grown, lets, together, update, Holds};

/// Ends the function with the text if the statement does not hold.
macro_rules! demand {
    ($holds:expr, $($text:tt)*) => {
        if !$holds {
            return Err(format!($($text)*));
        }
    };
}

pub mod chain;
pub mod history;
pub mod stamps;
pub mod update;

/// A wait under way: what was asked, the mode it is for, and the jobs that held the cell
/// or stood ahead when it asked and have not ended that run since.
pub struct Wait {
    pub asked: Line,
    pub mode: Mode,
    pub runs: BTreeSet<u32>,
}

/// One step as the watch sees it: the desk before and after, the request, what came of it.
pub struct Seen<'a> {
    pub before: &'a Desk,
    pub asked: Line,
    pub outcome: &'a Outcome,
    pub after: &'a Desk,
}

impl Seen<'_> {
    /// The job whose run ended in this step.
    pub fn ended(&self) -> Option<u32> {
        match self.outcome.answer {
            Answer::Back(job) => Some(job),
            Answer::Go(job) if matches!(self.asked.letter, COMMIT | GIVE_UP) => Some(job),
            _ => None,
        }
    }

    /// The actions granted in this step.
    pub fn granted(&self) -> Vec<Line> {
        let mut granted = self.outcome.wakes.clone();
        if matches!(self.outcome.answer, Answer::Go(_)) && has_cell(self.asked.letter) {
            granted.push(self.asked);
        }
        granted
    }
}

pub fn holds_nothing(desk: &Desk, job: u32) -> bool {
    desk.cells.iter().all(|cell| cell.held_by(job).is_none())
}

pub fn queues_of(desk: &Desk, job: u32) -> usize {
    desk.cells.iter().map(|cell| cell.queue.iter().filter(|waiter| waiter.job == job).count()).sum()
}

pub fn numbers_with(desk: &Desk, status: Status) -> Vec<u32> {
    desk.jobs.iter().filter(|job| job.status == status).map(|job| job.number).collect()
}

/// Other holders of the cell and those ahead in its queue.
pub fn in_the_way(cell: &Cell, job: u32) -> BTreeSet<u32> {
    let holders = cell.holders.iter().map(|holder| holder.job).filter(|&holder| holder != job);
    let ahead = cell.queue.iter().map(|waiter| waiter.job).take_while(|&waiter| waiter != job);
    holders.chain(ahead).collect()
}

/// Watches a desk from its start and holds it against the demands.
#[derive(Default)]
pub struct Watch {
    pub given: BTreeSet<u32>,
    pub waits: BTreeMap<u32, Wait>,
    pub history: Vec<Line>,
    pub committed: Vec<(usize, Line)>,
    pub holds: Holds,
}

impl Watch {
    /// All statements, for one more step.
    pub fn see(&mut self, seen: &Seen) -> Result<(), String> {
        self.refusals(seen)?;
        self.numbers(seen)?;
        runs_end_clean(seen)?;
        places_and_queues(seen.after)?;
        somebody_runs(seen.after)?;
        older_than_in_the_way(seen.after)?;
        oldest_not_sent_back(seen)?;
        locks(seen)?;
        self.nobody_forgotten(seen)?;
        let events = history_of(seen.asked, seen.outcome);
        self.events(seen, &events)?;
        update(seen, &events)?;
        self.holds.see(seen)?;
        chains(seen.after)
    }

    /// g: the table of refusals, all rows looked at, the first that applies counts.
    pub fn table(&self, desk: &Desk, asked: Line) -> Option<u8> {
        let Line { letter, job, cell } = asked;
        let begin = letter == b'b';
        let action = matches!(letter, b'r' | b'w' | b'i' | b'u');
        let open = job != 0 && desk.jobs.iter().any(|open| open.number == job);
        let waiting = open && queues_of(desk, job) > 0;
        let sent_back = open && numbers_with(desk, Status::SentBack).contains(&job);
        let running = open && !waiting && !sent_back;
        let rows = [
            (1, ![98, 99, 97, 116, 114, 119, 105, 117].contains(&letter)),
            (7, begin && self.given.contains(&4_294_967_295)),
            (6, begin && desk.jobs.len() == 32),
            (3, !begin && !open),
            (4, !begin && waiting && letter != b'a'),
            (5, sent_back && (action || letter == b'c')),
            (8, running && letter == b't'),
            (2, action && cell > 63),
        ];
        rows.iter().find(|row| row.1).map(|row| row.0)
    }

    /// g: each refusal exactly when the table says, and it changes nothing.
    pub fn refusals(&self, seen: &Seen) -> Result<(), String> {
        let got = match seen.outcome.answer {
            Answer::No(number) => Some(number),
            _ => None,
        };
        let wanted = self.table(seen.before, seen.asked);
        demand!(got == wanted, "g: the table says {wanted:?}, the desk {got:?}");
        if got.is_some() {
            demand!(seen.outcome.wakes.is_empty(), "g: a refusal with wakes");
            demand!(seen.before == seen.after, "g: a refusal changed the desk");
        }
        Ok(())
    }

    /// c: a later begin gives a larger number, and none twice; other answers name the asker.
    pub fn numbers(&mut self, seen: &Seen) -> Result<(), String> {
        let (Answer::Go(job) | Answer::Wait(job) | Answer::Back(job)) = seen.outcome.answer else {
            return Ok(());
        };
        if seen.asked.letter != BEGIN {
            demand!(job == seen.asked.job, "c: answer for {job} to a request of {}", seen.asked.job);
            return Ok(());
        }
        demand!(
            self.given.iter().all(|&given| given < job),
            "c: begin gave {job}, which is not new and largest"
        );
        demand!(seen.after.status(job) == Some(Status::Running), "g: begun job {job} does not run");
        demand!(holds_nothing(seen.after, job), "g: begun job {job} holds something");
        self.given.insert(job);
        Ok(())
    }

    /// b: a waiter has its cell once all runs in its way when it asked are over.
    pub fn nobody_forgotten(&mut self, seen: &Seen) -> Result<(), String> {
        if let Some(job) = seen.ended() {
            for wait in self.waits.values_mut() {
                wait.runs.remove(&job);
            }
            self.waits.remove(&job);
        }
        for (&job, wait) in &self.waits {
            let waits = seen.after.status(job) == Some(Status::Waiting);
            demand!(
                !waits || !wait.runs.is_empty(),
                "b: {job} still waits, and every run in its way is over"
            );
            if !waits {
                granted_at_last(seen, job, wait)?;
            }
        }
        self.waits.retain(|&job, _| seen.after.status(job) == Some(Status::Waiting));
        if let Answer::Wait(job) = seen.outcome.answer {
            self.note_wait(seen, job)?;
        }
        let waiting = numbers_with(seen.after, Status::Waiting);
        demand!(
            waiting.iter().eq(self.waits.keys()),
            "b: {waiting:?} wait, but not all of them by an answer"
        );
        Ok(())
    }

    pub fn note_wait(&mut self, seen: &Seen, job: u32) -> Result<(), String> {
        let number = seen.asked.cell as usize;
        let runs = in_the_way(&seen.after.cells[number], job);
        demand!(runs.len() <= 31, "b: {} runs in the way of {job}", runs.len());
        demand!(!runs.is_empty(), "b: {job} waits with nobody in its way");
        let mode = grown(seen.before.cells[number].held_by(job), seen.asked.letter);
        self.waits.insert(job, Wait { asked: seen.asked, mode, runs });
        Ok(())
    }
}

/// b: who stops waiting without giving up was woken in this step, runs, and holds the mode
/// it asked for (that it covers the action is looked at in `locks`).
pub fn granted_at_last(seen: &Seen, job: u32, wait: &Wait) -> Result<(), String> {
    let asked = wait.asked;
    let woken = seen.outcome.wakes.iter().filter(|&&wake| wake == Line { job, ..asked }).count();
    demand!(woken == 1, "b: {job} stopped waiting and was woken {woken} times");
    demand!(seen.after.status(job) == Some(Status::Running), "b: woken {job} does not run");
    let held = seen.after.cells[asked.cell as usize].held_by(job);
    demand!(held == Some(wait.mode), "b: woken {job} holds {held:?}, not {:?}", wait.mode);
    Ok(())
}

/// a: whenever a job waits, some younger job is live and not waiting.
pub fn somebody_runs(desk: &Desk) -> Result<(), String> {
    let running = numbers_with(desk, Status::Running);
    for waiter in numbers_with(desk, Status::Waiting) {
        demand!(running.iter().any(|&job| job > waiter), "a: {waiter} waits and no younger job runs");
    }
    Ok(())
}

/// d: every waiter is older than each job in its way.
pub fn older_than_in_the_way(desk: &Desk) -> Result<(), String> {
    for cell in &desk.cells {
        for waiter in &cell.queue {
            let way = in_the_way(cell, waiter.job);
            demand!(
                way.iter().all(|&job| waiter.job < job),
                "d: {} waits, in its way are {way:?}",
                waiter.job
            );
        }
    }
    Ok(())
}

/// c: a job older than every other live job is never sent back.
pub fn oldest_not_sent_back(seen: &Seen) -> Result<(), String> {
    if let Answer::Back(job) = seen.outcome.answer {
        let older =
            seen.before.jobs.iter().any(|other| other.status != Status::SentBack && other.number < job);
        demand!(older, "c: {job} was sent back and was the oldest live job");
    }
    Ok(())
}

/// f: locks agree, cover what is granted, come by grants alone and stay until the run's end.
pub fn locks(seen: &Seen) -> Result<(), String> {
    let granted = seen.granted();
    for (number, cell) in seen.after.cells.iter().enumerate() {
        for (place, one) in cell.holders.iter().enumerate() {
            for other in &cell.holders[..place] {
                demand!(one.job != other.job, "f: {} holds cell {number} twice", one.job);
                let agree = together(one.mode, other.mode);
                demand!(agree, "f: cell {number} held by {one:?} and {other:?}");
            }
            let live = seen.after.status(one.job).is_some_and(|status| status != Status::SentBack);
            demand!(live, "f: cell {number} held by {}, which is not live", one.job);
            let new = seen.before.cells[number].held_by(one.job) != Some(one.mode);
            let grant = granted.iter().any(|grant| grant.job == one.job && grant.cell as usize == number);
            demand!(!new || grant, "f: cell {number} came to {one:?} without a grant");
        }
        for old in &seen.before.cells[number].holders {
            let bigger = |mode: Mode| mode == Mode::X || (old.mode, mode) == (Mode::S, Mode::U);
            let stays = cell.held_by(old.job).is_some_and(|mode| mode == old.mode || bigger(mode));
            demand!(
                stays || seen.ended() == Some(old.job),
                "f: {} lost cell {number} within its run",
                old.job
            );
        }
    }
    for grant in granted {
        let held = seen.after.cells[grant.cell as usize].held_by(grant.job);
        demand!(enough(held, grant.letter), "f: {grant:?} granted under {held:?}");
    }
    Ok(())
}

/// g: what commit, give-up, back and retry leave behind.
pub fn runs_end_clean(seen: &Seen) -> Result<(), String> {
    let job = seen.asked.job;
    let (open_before, open_after) = (seen.before.jobs.len(), seen.after.jobs.len());
    let status = seen.after.status(job);
    let idle = holds_nothing(seen.after, job) && queues_of(seen.after, job) == 0;
    match (seen.outcome.answer, seen.asked.letter) {
        (Answer::Go(_), COMMIT | GIVE_UP) => {
            demand!(status.is_none() && open_after + 1 == open_before, "g: closed {job} keeps its place");
            demand!(idle, "g: closed {job} still holds or waits");
        }
        (Answer::Back(_), _) => {
            demand!(
                status == Some(Status::SentBack) && open_after == open_before,
                "g: sent back {job} is {status:?}"
            );
            demand!(idle, "g: sent back {job} still holds or waits");
        }
        (Answer::Go(_), RETRY) => {
            demand!(
                status == Some(Status::Running) && open_after == open_before,
                "g: retried {job} is {status:?}"
            );
            demand!(idle, "g: retried {job} holds or waits");
        }
        _ => {}
    }
    let wakes = &seen.outcome.wakes;
    demand!(seen.ended().is_some() || wakes.is_empty(), "g: wakes, and no run ended");
    demand!(wakes.windows(2).all(|pair| pair[0].cell <= pair[1].cell), "g: wakes not in order of cells");
    Ok(())
}

/// g: at most 32 open; each waiter in one queue; queues from younger to older, and who is
/// first is blocked by somebody's held mode.
pub fn places_and_queues(desk: &Desk) -> Result<(), String> {
    demand!(desk.jobs.len() <= 32, "g: {} open jobs", desk.jobs.len());
    let numbers: BTreeSet<u32> = desk.jobs.iter().map(|job| job.number).collect();
    demand!(numbers.len() == desk.jobs.len() && !numbers.contains(&0), "g: open numbers {numbers:?}");
    for job in &desk.jobs {
        let wanted = usize::from(job.status == Status::Waiting);
        let queues = queues_of(desk, job.number);
        demand!(queues == wanted, "g: {} is {:?} and stands in {queues} queues", job.number, job.status);
    }
    for (number, cell) in desk.cells.iter().enumerate() {
        let queue: Vec<u32> = cell.queue.iter().map(|waiter| waiter.job).collect();
        demand!(queue.windows(2).all(|pair| pair[0] > pair[1]), "g: the queue of cell {number} is {queue:?}");
        demand!(queue.iter().all(|job| numbers.contains(job)), "g: not all of {queue:?} are open");
        if let Some(first) = cell.queue.front() {
            let blocks = |holder: &Holder| holder.job != first.job && !lets(holder.mode, first.mode);
            demand!(cell.holders.iter().any(blocks), "g: nothing blocks {} on cell {number}", first.job);
        }
    }
    Ok(())
}

/// The number at which a random run of so many steps starts: mostly 1, at times near an edge.
pub fn start_of(seed: u64, count: u64) -> u32 {
    let few = (count / 10 + 1).min(1_000) as u32;
    match seed % 8 {
        3 => (1 << 31) - few.min(50),
        5 => LAST_NUMBER - Chance(seed).below(few as usize) as u32,
        7 => LAST_NUMBER - 31 - Chance(seed).below(4) as u32,
        _ => 1,
    }
}

/// A random run of a desk under watch; the first violation with its step. Two of three seeds draw their
/// steps as `make steps` does, and the third has the shapes of `make asked`.
pub fn demands(seed: u64, count: u64) -> Result<(), String> {
    let maker = Maker::new(seed, start_of(seed, count), LAST_NUMBER, seed % 2 == 0);
    let mut shaper = Shaper::over(maker);
    let mut watch = Watch::default();
    for number in 1..=count {
        let asked = if seed % 3 == 2 { shaper.step() } else { shaper.maker.choose_step() };
        let before = shaper.maker.desk.clone();
        let outcome = shaper.maker.desk.step(asked);
        let seen = Seen { before: &before, asked, outcome: &outcome, after: &shaper.maker.desk };
        watch.see(&seen).map_err(|text| format!("step {number}, {asked:?}: {text}"))?;
        if number % 100 == 0 {
            watch.nowhere_dirty().map_err(|text| format!("after step {number}: {text}"))?;
        }
    }
    watch.whole_history().map_err(|text| format!("after step {count}: {text}"))
}
