//! Requests for the timestamp desk (02, No. 6), as lines and as numbers, by a desk that runs beside: jobs that
//! come late with old numbers, ties, jobs sent back that are asked for again and begun anew, and refusals.

use super::requests::{action, as_line, as_step, hot_cells, some_cell, stranger, wanted_jobs};
use super::Chance;
use crate::desk::{Answer, Outcome};
use crate::stamps::Stamps;
use crate::words::*;
use std::collections::VecDeque;

/// What a read, write, increment or `u` is to come to: anything, go, back, or go by a number that is the
/// job's own.
#[derive(Clone, Copy, PartialEq)]
pub enum Aim {
    Any,
    Goes,
    Back,
    Tie,
}

/// How requests are chosen for some tens of steps; shares are percents, but for those of the letters (`r`,
/// `w`, `u`, `i`) and of the aims, which are weights.
pub struct StampMix {
    pub hot: Vec<u32>,
    pub hot_share: usize,
    pub jobs: usize,
    pub begin: usize,
    pub letters: [usize; 4],
    pub aims: [usize; 4],
    /// of one of the three oldest jobs
    pub old: usize,
    pub end: usize,
    pub commit: usize,
    /// after a sending back: the job is asked for again; a new one asks the same
    pub again: usize,
    pub anew: usize,
    pub prod: usize,
}

/// Makes requests by running a desk beside. If `tidy`, no cell is read while another open job's write or
/// increment of it may still be taken back, so that the history is clean.
pub struct StampMaker {
    pub chance: Chance,
    pub desk: Stamps,
    pub mix: StampMix,
    pub mix_left: usize,
    pub spoil: usize,
    pub hoard: bool,
    pub tidy: bool,
    /// what comes next, if anything is planned
    pub plan: VecDeque<Line>,
    /// the jobs closed last
    pub gone: VecDeque<u32>,
    /// for each cell the open jobs that have written or incremented it
    pub wrote: Vec<Vec<u32>>,
}

/// How many of the jobs closed last are remembered.
pub const GONE: usize = 8;

const ASKED_TO_BEGIN: Line = Line { letter: BEGIN, job: 0, cell: 0 };

impl StampMaker {
    pub fn new(seed: u64, first: u32) -> StampMaker {
        let mut chance = Chance(seed);
        let spoil = chance.of(&[0, 2, 5, 10, 20]);
        let hoard = chance.percent(50);
        let tidy = chance.percent(35);
        let mix = StampMaker::mix(&mut chance);
        let desk = Stamps::start(first.max(1)).expect("not 0");
        let wrote = vec![Vec::new(); CELLS];
        let (plan, gone) = (VecDeque::new(), VecDeque::new());
        StampMaker { chance, desk, mix, mix_left: 60, spoil, hoard, tidy, plan, gone, wrote }
    }

    pub fn mix(chance: &mut Chance) -> StampMix {
        let heat = chance.of(&[0, 0, 1, 1, 2, 3]);
        let hot = hot_cells(chance, heat);
        let full = chance.percent(45);
        StampMix {
            hot,
            hot_share: chance.of(&[80, 95, 100]),
            jobs: wanted_jobs(chance, full),
            begin: if full { 60 } else { chance.of(&[10, 25, 50]) },
            letters: [
                chance.of(&[10, 35, 50, 70]),
                chance.of(&[10, 20, 30]),
                chance.of(&[5, 15, 30]),
                chance.of(&[5, 15, 40]),
            ],
            aims: chance.of(&[[10, 40, 30, 20], [30, 35, 15, 20], [60, 20, 5, 15], [0, 60, 30, 10]]),
            old: chance.of(&[0, 15, 40]),
            end: chance.of(&[5, 10, 18, 28]),
            commit: chance.of(&[40, 70, 95]),
            again: chance.of(&[0, 20, 50]),
            anew: chance.of(&[0, 30, 60]),
            prod: chance.of(&[2, 6, 12]),
        }
    }

    /// The next request: one that is planned, one that asks for a refusal, a begin, an end or an ask.
    pub fn choose(&mut self) -> Line {
        if self.mix_left == 0 {
            self.mix = StampMaker::mix(&mut self.chance);
            self.mix_left = self.chance.between(30, 150);
        }
        self.mix_left -= 1;
        while let Some(asked) = self.plan.pop_front() {
            if !self.untidy(asked) {
                return asked;
            }
        }
        if self.desk.jobs.is_empty() && self.may_begin() || self.begins() {
            ASKED_TO_BEGIN
        } else if self.desk.jobs.is_empty() || self.chance.percent(self.mix.prod) {
            self.prod()
        } else {
            self.sensible()
        }
    }

    pub fn may_begin(&self) -> bool {
        self.desk.next <= u64::from(LAST_NUMBER)
    }

    /// A begin, as long as more jobs are wanted; one more than there are places now and then, and one
    /// after the last number seldom.
    pub fn begins(&mut self) -> bool {
        let open = self.desk.jobs.len();
        let wanted = if self.hoards() { PLACES } else { self.mix.jobs };
        let share = match open {
            _ if !self.may_begin() => 3,
            PLACES => 4,
            0 | 1 => 100,
            _ => self.mix.begin,
        };
        (open < wanted || !self.may_begin()) && self.chance.percent(share)
    }

    /// Some makers keep every job open once the numbers left just fill the places, so that all 32 are open
    /// when the numbers are out.
    pub fn hoards(&self) -> bool {
        let left = (u64::from(LAST_NUMBER) + 1).saturating_sub(self.desk.next);
        self.hoard && left > 0 && self.desk.jobs.len() as u64 + left <= PLACES as u64
    }

    /// With no begin left, closing is rare and the last job stays open.
    pub fn may_close(&mut self) -> bool {
        if self.may_begin() {
            !self.hoards()
        } else {
            self.desk.jobs.len() > 1 && self.chance.percent(20)
        }
    }

    /// An end or an ask of some open job.
    pub fn sensible(&mut self) -> Line {
        let open = self.desk.jobs.len();
        let among = if self.chance.percent(self.mix.old) { open.min(3) } else { open };
        let job = self.desk.jobs[self.chance.below(among)];
        if self.chance.percent(self.mix.end) && self.may_close() {
            let letter = if self.chance.percent(self.mix.commit) { COMMIT } else { GIVE_UP };
            return Line { letter, job, cell: 0 };
        }
        let aim = if self.may_close() { self.aim() } else { Aim::Goes };
        self.ask_of(job, aim)
    }

    pub fn aim(&mut self) -> Aim {
        let [any, goes, back, tie] = self.mix.aims;
        let drawn = self.chance.below(any + goes + back + tie);
        match drawn {
            _ if drawn < any => Aim::Any,
            _ if drawn < any + goes => Aim::Goes,
            _ if drawn < any + goes + back => Aim::Back,
            _ => Aim::Tie,
        }
    }

    /// An ask that fits the aim, if one is soon found; in place of an untidy read a write.
    pub fn ask_of(&mut self, job: u32, aim: Aim) -> Line {
        let mut asked = self.any_ask(job);
        for _ in 0..15 {
            if self.fits(aim, asked) && !self.untidy(asked) {
                return asked;
            }
            asked = self.any_ask(job);
        }
        if self.untidy(asked) {
            asked.letter = WRITE;
        }
        asked
    }

    pub fn any_ask(&mut self, job: u32) -> Line {
        let letter = action(&mut self.chance, self.mix.letters);
        Line { letter, job, cell: some_cell(&mut self.chance, self.mix.hot_share, &self.mix.hot) }
    }

    pub fn fits(&self, aim: Aim, asked: Line) -> bool {
        let Line { letter, job, cell } = asked;
        let marks = self.desk.cells[cell as usize];
        let goes = marks.let_go(letter, job);
        match aim {
            Aim::Any => true,
            Aim::Goes => goes,
            Aim::Back => !goes,
            Aim::Tie => goes && (marks.reader == job || marks.writer == job),
        }
    }

    /// A read of what another open job may still take back, where the maker is tidy.
    pub fn untidy(&self, asked: Line) -> bool {
        let reads = matches!(asked.letter, READ | UPDATE);
        let wrote = |cell: u32| self.wrote[cell as usize].iter().any(|&job| job != asked.job);
        self.tidy && reads && wrote(asked.cell)
    }

    /// A request that asks for one of the refusals 2, 3, 6, 7, 19, if the desk has what it takes.
    pub fn prod(&mut self) -> Line {
        let (gone, open) = (self.gone_job(), self.open_job());
        let any = self.chance.of(b"catrwiu");
        let ask = action(&mut self.chance, self.mix.letters);
        let above = self.chance.of(&[64, 65, 99]);
        let inside = some_cell(&mut self.chance, self.mix.hot_share, &self.mix.hot);
        let cell = if self.chance.percent(50) { above } else { inside };
        match self.chance.below(7) {
            0 => Line { letter: ask, job: open, cell: above },
            1 => Line { letter: RETRY, job: open, cell },
            2 => Line { letter: RETRY, job: gone, cell },
            3 => Line { letter: ask, job: gone, cell },
            4 | 5 if self.desk.refusal_of_begin().is_some() => ASKED_TO_BEGIN,
            _ => Line { letter: any, job: gone, cell },
        }
    }

    pub fn open_job(&mut self) -> u32 {
        if self.desk.jobs.is_empty() {
            self.gone_job()
        } else {
            self.chance.of(&self.desk.jobs)
        }
    }

    /// A job closed lately, or one that is most likely not open.
    pub fn gone_job(&mut self) -> u32 {
        let known = self.gone.len();
        if known > 0 && self.chance.percent(60) {
            self.gone[self.chance.below(known)]
        } else {
            stranger(&mut self.chance, self.desk.next)
        }
    }

    /// What the maker remembers of a step that the desk has done.
    pub fn note(&mut self, asked: Line, outcome: &Outcome) {
        match outcome.answer {
            Answer::Back(job) => {
                self.forget(job);
                self.plan_after_back(asked);
            }
            Answer::Go(job) if matches!(asked.letter, COMMIT | GIVE_UP) => self.forget(job),
            Answer::Go(job) if matches!(asked.letter, WRITE | INCREMENT) => {
                self.wrote[asked.cell as usize].push(job);
            }
            _ => {}
        }
    }

    pub fn forget(&mut self, job: u32) {
        self.wrote.iter_mut().for_each(|jobs| jobs.retain(|&other| other != job));
        self.gone.push_back(job);
        if self.gone.len() > GONE {
            self.gone.pop_front();
        }
    }

    /// The job that was sent back is asked for again, and a new one asks the same.
    pub fn plan_after_back(&mut self, asked: Line) {
        if self.chance.percent(self.mix.again) {
            let letter = self.chance.of(&[asked.letter, asked.letter, RETRY, COMMIT, GIVE_UP]);
            self.plan.push_back(Line { letter, ..asked });
        }
        if self.chance.percent(self.mix.anew) && self.desk.refusal_of_begin().is_none() {
            self.plan.push_back(ASKED_TO_BEGIN);
            self.plan.push_back(Line { job: self.desk.next as u32, ..asked });
        }
    }

    /// For numbers: the request, now and then spoilt, with anything in unused fields.
    pub fn choose_step(&mut self) -> Line {
        let asked = self.choose();
        as_step(&mut self.chance, self.spoil, self.desk.next, asked)
    }

    /// For lines: the request as text without its newline, now and then spoilt.
    pub fn choose_line(&mut self) -> Vec<u8> {
        let asked = self.choose();
        as_line(&mut self.chance, self.spoil, asked)
    }
}
