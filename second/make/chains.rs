//! Requests that make jobs wait for one another (02, No. 3): chains of up to 32 jobs, queues, cells with
//! several holders, promotions that wait, chains apart and chains that meet. As lines for the program
//! `chain`, and as steps by numbers with questions between.

use super::lines::{odd_line, spoil_line};
use super::plans::{line, plan, shape};
use super::requests::{fill_unused, spoil_step, Maker};
use super::step_text;
use crate::chain::QUESTION;
use crate::desk::{Job, Status};
use crate::lines::{put_fields, read_request};
use crate::words::*;
use std::collections::VecDeque;

/// What is made: jobs are begun and retried, and a plan made for them, which comes next; then requests that
/// end no wait; then loose ones, as `make requests` has them; then jobs are closed or sent back; and so on.
#[derive(Clone, Copy, PartialEq)]
pub enum Phase {
    Fill,
    Stay,
    Loose,
    Clear,
}

/// How one round goes; `between` is a percent.
pub struct Round {
    /// one line of all jobs that run, with no request between
    pub long: bool,
    /// the jobs that are to be open before the plan, and those sent back that stay so
    pub open: usize,
    pub left_back: usize,
    /// loose requests between those of the plan, and how many come after it that end no wait, and any
    pub between: usize,
    pub stay: usize,
    pub loose: usize,
    /// the jobs that the clearing leaves open, and whether it sends back and closes none
    pub keep: usize,
    pub send_back: bool,
}

/// Makes requests in rounds; a desk runs beside. `rubbish` and `questions` are percents.
pub struct Shaper {
    pub maker: Maker,
    pub planned: VecDeque<Line>,
    pub phase: Phase,
    pub round: Round,
    pub rubbish: usize,
    pub questions: usize,
}

impl Shaper {
    pub fn new(seed: u64, first: u32) -> Shaper {
        Shaper::over(Maker::new(seed, first, LAST_NUMBER, seed % 4 == 1))
    }

    pub fn over(mut maker: Maker) -> Shaper {
        let rubbish = maker.chance.of(&[0, 0, 0, 2, 5, 15]);
        let questions = maker.chance.of(&[25, 50, 75]);
        let round = Shaper::round(&mut maker);
        Shaper { maker, planned: VecDeque::new(), phase: Phase::Fill, round, rubbish, questions }
    }

    pub fn round(maker: &mut Maker) -> Round {
        let chance = &mut maker.chance;
        let long = chance.percent(25);
        Round {
            long,
            open: match chance.below(6) {
                _ if long => PLACES,
                0..=2 => PLACES,
                3 => chance.between(2, 6),
                4 => chance.between(4, 16),
                _ => chance.between(12, 31),
            },
            left_back: chance.of(&[0, 0, 0, 1, 3]),
            between: if long { 0 } else { chance.of(&[0, 0, 0, 5, 20]) },
            stay: chance.of(&[0, 10, 40, 80]),
            loose: chance.of(&[1, 4, 15, 40]),
            keep: if chance.percent(60) { 0 } else { chance.below(24) },
            send_back: chance.percent(25),
        }
    }

    /// The next request.
    pub fn next(&mut self) -> Line {
        loop {
            if !self.planned.is_empty() && self.maker.chance.percent(self.round.between) {
                return self.loosely();
            }
            if let Some(asked) = self.planned.pop_front() {
                return asked;
            }
            let asked = match self.phase {
                Phase::Fill => self.fill(),
                Phase::Stay => self.one_gentle(),
                Phase::Loose => self.one_loose(),
                Phase::Clear => self.clear(),
            };
            match asked {
                Some(asked) => return asked,
                None => self.next_phase(),
            }
        }
    }

    pub fn next_phase(&mut self) {
        self.phase = match self.phase {
            Phase::Fill => {
                let mut jobs = self.jobs_with(Status::Running);
                if jobs.len() > 1 {
                    let chance = &mut self.maker.chance;
                    let jams = if self.round.long { line(&jobs) } else { shape(chance, &mut jobs) };
                    self.planned = plan(chance, &self.maker.desk, &jams).into();
                }
                Phase::Stay
            }
            Phase::Stay => Phase::Loose,
            Phase::Loose => Phase::Clear,
            Phase::Clear => {
                self.round = Shaper::round(&mut self.maker);
                Phase::Fill
            }
        };
    }

    pub fn jobs_with(&self, status: Status) -> Vec<u32> {
        self.maker.desk.jobs.iter().filter(|job| job.status == status).map(|job| job.number).collect()
    }

    /// A retry or a begin, as long as the plan is to have more jobs.
    pub fn fill(&mut self) -> Option<Line> {
        let back = self.jobs_with(Status::SentBack);
        let desk = &self.maker.desk;
        if back.len() > self.round.left_back {
            let job = self.maker.chance.of(&back);
            return Some(Line { letter: RETRY, job, cell: 0 });
        }
        let more = desk.jobs.len() < self.round.open && desk.refusal_of_begin().is_none();
        more.then_some(Line { letter: BEGIN, job: 0, cell: 0 })
    }

    /// A loose request by which nobody stops waiting, if one is soon found.
    pub fn one_gentle(&mut self) -> Option<Line> {
        self.round.stay = self.round.stay.checked_sub(1)?;
        let waiting = self.jobs_with(Status::Waiting);
        for _ in 0..20 {
            let asked = self.loosely();
            let mut desk = self.maker.desk.clone();
            desk.step(asked);
            if waiting.iter().all(|&job| desk.status(job) == Some(Status::Waiting)) {
                return Some(asked);
            }
        }
        None
    }

    pub fn one_loose(&mut self) -> Option<Line> {
        self.round.loose = self.round.loose.checked_sub(1)?;
        Some(self.loosely())
    }

    /// A loose request. Where each number left is needed to fill the places it hardly ever closes a job.
    pub fn loosely(&mut self) -> Line {
        loop {
            let asked = self.maker.choose();
            let closes =
                matches!(asked.letter, COMMIT | GIVE_UP) && self.maker.desk.status(asked.job).is_some();
            if !closes || self.may_close() || self.maker.chance.percent(5) {
                return asked;
            }
        }
    }

    /// The numbers left fill all places that would be free then.
    pub fn may_close(&self) -> bool {
        let desk = &self.maker.desk;
        let left = (u64::from(LAST_NUMBER) + 1).saturating_sub(desk.next);
        desk.jobs.len() as u64 + left > PLACES as u64
    }

    /// An end of some job, or a request for which a running job is sent back and lets go.
    pub fn clear(&mut self) -> Option<Line> {
        if self.round.send_back || !self.may_close() {
            return self.send_back();
        }
        let desk = &self.maker.desk;
        if desk.jobs.len() <= self.round.keep {
            return None;
        }
        let Job { number: job, status } = desk.jobs[self.maker.chance.below(desk.jobs.len())];
        let commits = status == Status::Running && self.maker.chance.percent(80);
        Some(Line { letter: if commits { COMMIT } else { GIVE_UP }, job, cell: 0 })
    }

    /// A write by a running job that holds something, of a cell that an older one holds or waits for.
    pub fn send_back(&mut self) -> Option<Line> {
        let mut found = Vec::new();
        for job in self.jobs_with(Status::Running) {
            let cells = &self.maker.desk.cells;
            let holds = cells.iter().any(|cell| cell.held_by(job).is_some());
            let goes_back = self.maker.cells_that(|cell| {
                let oldest = cell.older_than_holders(job) && cell.older_than_waiters(job);
                !cell.agrees(job, Mode::X) && !oldest
            });
            if holds {
                found.extend(goes_back.iter().map(|&cell| Line { letter: WRITE, job, cell }));
            }
        }
        let done = found.is_empty() || self.maker.chance.percent(4);
        (!done).then(|| self.maker.chance.of(&found))
    }

    /// For lines: the next request as text without its newline, or between them a spoilt one or rubbish.
    pub fn line(&mut self) -> Vec<u8> {
        let mut line = Vec::new();
        if self.maker.chance.percent(self.rubbish) {
            put_fields(&mut line, self.maker.choose());
            let chance = &mut self.maker.chance;
            line = if chance.percent(70) { spoil_line(chance, &line) } else { odd_line(chance) };
        } else {
            put_fields(&mut line, self.next());
        }
        if let Ok(asked) = read_request(&[&line[..], b"\n"].concat()) {
            self.maker.desk.step(asked);
        }
        line
    }

    /// For numbers: the next request, or between them a spoilt one, with anything in unused fields.
    pub fn step(&mut self) -> Line {
        let mut asked = if self.maker.chance.percent(self.rubbish) {
            let mut loose = self.maker.choose();
            spoil_step(&mut self.maker.chance, self.maker.desk.next, &mut loose);
            loose
        } else {
            self.next()
        };
        fill_unused(&mut self.maker.chance, &mut asked);
        asked
    }

    /// For numbers: a step or a question, as text without its newline.
    pub fn asked(&mut self) -> Vec<u8> {
        if self.maker.chance.percent(self.questions) {
            let (job, places) = (self.job_asked_about(), self.places_lent());
            return format!("{QUESTION} {job} {places}").into_bytes();
        }
        let asked = self.step();
        self.maker.desk.step(asked);
        step_text(asked)
    }

    /// Mostly a waiting job, and often the oldest; or one that runs, was sent back, is closed, or is none.
    pub fn job_asked_about(&mut self) -> u32 {
        let status = match self.maker.chance.below(20) {
            0..=10 => Status::Waiting,
            11..=13 => Status::Running,
            14..=16 => Status::SentBack,
            _ => return self.nobody(),
        };
        let mut jobs = self.jobs_with(status);
        if jobs.is_empty() {
            jobs = self.maker.desk.jobs.iter().map(|job| job.number).collect();
        }
        match jobs.first() {
            None => self.nobody(),
            Some(&oldest) if self.maker.chance.percent(30) => oldest,
            Some(_) => self.maker.chance.of(&jobs),
        }
    }

    /// A number that is hardly ever open: closed, never given, or an open one but for a high bit.
    pub fn nobody(&mut self) -> u32 {
        let next = self.maker.desk.next as u32;
        let chance = &mut self.maker.chance;
        let past = next.wrapping_sub(1 + chance.below(70) as u32);
        let high = past.wrapping_add(chance.of(&[256, 65_536, 1 << 31]));
        let anything = chance.number() as u32;
        let far = next.wrapping_add(chance.below(40) as u32);
        chance.of(&[0, LAST_NUMBER, next, past, past, past, high, far, anything])
    }

    /// Mostly enough places.
    pub fn places_lent(&mut self) -> u32 {
        let chance = &mut self.maker.chance;
        match chance.below(10) {
            0..=4 => 32,
            5..=7 => chance.of(&[0, 1, 31, 33, 64]),
            8 => chance.between(0, 70) as u32,
            _ => chance.of(&[2, 30, 63, 65, 256, 288, 65_536, LAST_NUMBER]),
        }
    }
}
