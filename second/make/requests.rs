//! Requests, as lines and as numbers, by a desk that runs beside; and what the maker for the timestamp desk
//! shares of it.

use super::lines::{odd_line, spoil_line};
use super::Chance;
use crate::desk::{Cell, Desk, Job, Status};
use crate::lines::put_fields;
use crate::words::*;

/// How requests are chosen for some tens of steps; shares are percents, but for the four letters' (`reads`
/// to `increments`), which are weights.
pub struct Mix {
    pub hot: Vec<u32>,
    pub hot_share: usize,
    pub jobs: usize,
    pub begin: usize,
    pub reads: usize,
    pub writes: usize,
    pub updates: usize,
    pub increments: usize,
    pub end: usize,
    pub commit: usize,
    pub leave: usize,
    pub seek_wait: usize,
    pub seek_promotion: usize,
    pub seek_beside: usize,
    pub seek_among: usize,
    pub prod: usize,
}

/// Makes requests that mostly make sense, by running a desk beside.
pub struct Maker {
    pub chance: Chance,
    pub desk: Desk,
    pub mix: Mix,
    pub mix_left: usize,
    pub hottest: bool,
    pub spoil: usize,
    pub last_begin: u64,
    pub hoard: bool,
}

impl Maker {
    /// `last_begin` is the largest number the maker asks to be given.
    pub fn new(seed: u64, first: u32, last_begin: u32, hottest: bool) -> Maker {
        let mut chance = Chance(seed);
        let spoil = chance.of(&[0, 2, 5, 10, 20, 30]);
        let hoard = chance.percent(50);
        let mix = Maker::mix(&mut chance, hottest);
        let desk = Desk::start(first.max(1)).expect("not 0");
        Maker { chance, desk, mix, mix_left: 60, hottest, spoil, last_begin: u64::from(last_begin), hoard }
    }

    pub fn mix(chance: &mut Chance, hottest: bool) -> Mix {
        let heat = if hottest { 0 } else { chance.below(4) };
        let hot = hot_cells(chance, heat);
        let full = chance.percent(45);
        Mix {
            hot,
            hot_share: chance.of(&[80, 95, 100]),
            jobs: wanted_jobs(chance, full),
            begin: if full { 60 } else { chance.of(&[10, 25, 50]) },
            reads: chance.of(&[10, 35, 50, 70]),
            writes: chance.of(&[10, 15, 20, 30]),
            updates: chance.of(&[10, 25, 50]),
            increments: chance.of(&[5, 15, 40]),
            end: chance.of(&[3, 8, 15, 25]),
            commit: chance.of(&[50, 80, 95]),
            leave: chance.of(&[5, 15, 30]),
            seek_wait: chance.of(&[0, 20, 40]),
            seek_promotion: chance.of(&[0, 10, 25]),
            seek_beside: chance.of(&[20, 45, 70]),
            seek_among: chance.of(&[10, 20, 30]),
            prod: if hottest { 2 } else { chance.of(&[2, 8, 15]) },
        }
    }

    /// The next request, by numbers a desk may be asked for in good faith, or now and
    /// then one that asks for a refusal.
    pub fn choose(&mut self) -> Line {
        if self.mix_left == 0 {
            self.mix = Maker::mix(&mut self.chance, self.hottest);
            self.mix_left = self.chance.between(30, 150);
        }
        self.mix_left -= 1;
        if self.chance.percent(self.mix.prod) {
            return self.prod();
        }
        let open = self.desk.jobs.len();
        let begin = Line { letter: BEGIN, job: 0, cell: 0 };
        let share = if open == PLACES { 4 } else { self.mix.begin };
        let wanted = if self.hoards() { PLACES } else { self.mix.jobs };
        if self.may_begin() && open < wanted && (open < 2 || self.chance.percent(share)) {
            return begin;
        }
        if self.desk.next > u64::from(LAST_NUMBER) && self.chance.percent(3) {
            return begin;
        }
        for _ in 0..20 {
            if let Some(asked) = self.sensible() {
                return asked;
            }
        }
        if self.may_begin() {
            begin
        } else {
            self.prod()
        }
    }

    pub fn may_begin(&self) -> bool {
        self.desk.next <= self.last_begin
    }

    /// Some makers keep every job open once the numbers left just fill the places, so that
    /// all 32 are open when the numbers are out.
    pub fn hoards(&self) -> bool {
        let left = (self.last_begin + 1).saturating_sub(self.desk.next);
        self.hoard && left > 0 && self.desk.jobs.len() as u64 + left <= PLACES as u64
    }

    /// With no begin left, closing is rare and the last job stays open.
    pub fn may_close(&mut self) -> bool {
        if self.may_begin() {
            !self.hoards()
        } else {
            self.desk.jobs.len() > 1 && self.chance.percent(20)
        }
    }

    /// A request of some open job, as its status allows, or of one that holds a cell with others; None to
    /// look at another.
    pub fn sensible(&mut self) -> Option<Line> {
        let open = self.desk.jobs.len();
        if open == 0 {
            return None;
        }
        if self.chance.percent(self.mix.seek_among) {
            return self.among_others();
        }
        let Job { number: job, status } = self.desk.jobs[self.chance.below(open)];
        let letter = match status {
            Status::Running if self.chance.percent(self.mix.end) && self.may_close() => {
                if self.chance.percent(self.mix.commit) {
                    COMMIT
                } else {
                    GIVE_UP
                }
            }
            Status::Running => return Some(self.action_of(job)),
            Status::Waiting if self.chance.percent(self.mix.leave) && self.may_close() => GIVE_UP,
            Status::SentBack if self.chance.percent(self.mix.leave / 2) && self.may_close() => GIVE_UP,
            Status::SentBack if self.chance.percent(60) => RETRY,
            _ => return None,
        };
        Some(Line { letter, job, cell: 0 })
    }

    /// One of the four letters that have a cell.
    pub fn action(&mut self) -> u8 {
        let Mix { reads, writes, updates, increments, .. } = self.mix;
        action(&mut self.chance, [reads, writes, updates, increments])
    }

    pub fn cell(&mut self) -> u32 {
        some_cell(&mut self.chance, self.mix.hot_share, &self.mix.hot)
    }

    /// What a running job asks for; at times a cell whose holders and waiters are all younger, one that
    /// it holds in S, U or I (with any letter), or one that is granted beside others.
    pub fn action_of(&mut self, job: u32) -> Line {
        let younger = |cell: &Cell| {
            let others = cell.holders.iter().any(|holder| holder.job != job);
            others && cell.older_than_holders(job) && cell.older_than_waiters(job)
        };
        let weak = |cell: &Cell| cell.held_by(job).is_some_and(|mode| mode != Mode::X);
        let mut letter = self.action();
        let mut found = Vec::new();
        if self.chance.percent(self.mix.seek_wait) {
            found = self.cells_that(younger);
        } else if self.chance.percent(self.mix.seek_promotion) {
            found = self.cells_that(weak);
            letter = self.chance.of(b"rwiu");
        } else if self.chance.percent(self.mix.seek_beside) {
            if let Some(asked) = self.beside_others(job) {
                return asked;
            }
        }
        let cell = if found.is_empty() { self.cell() } else { self.chance.of(&found) };
        Line { letter, job, cell }
    }

    /// A request that is granted beside others; a `u` at times beside younger or older ones alone.
    pub fn beside_others(&mut self, job: u32) -> Option<Line> {
        let letter = self.chance.of(b"rriuu");
        let age = if letter == UPDATE { self.chance.below(3) } else { 0 };
        let found = self.cells_that(|cell| {
            let beside = !cell.holders.is_empty() && cell.held_by(job).is_none() && cell.queue.is_empty();
            let fits = match age {
                0 => true,
                1 => cell.older_than_holders(job),
                _ => cell.holders.iter().all(|holder| holder.job < job),
            };
            beside && fits && cell.agrees(job, held_after(None, letter))
        });
        let cell = self.fuller_of(&found)?;
        Some(Line { letter, job, cell })
    }

    /// A request of a job that holds a cell with others, or before others that wait; mostly of one of the
    /// two oldest that hold it.
    pub fn among_others(&mut self) -> Option<Line> {
        let crowded = |cell: &Cell| cell.holders.len() + cell.queue.len() > 1;
        let weak = |cell: &Cell| cell.holders.iter().any(|holder| holder.mode != Mode::X);
        let found = self.cells_that(|cell| crowded(cell) && weak(cell));
        let cell = self.fuller_of(&found)?;
        let holders = &self.desk.cells[cell as usize].holders;
        let mut jobs: Vec<u32> = holders.iter().map(|holder| holder.job).collect();
        jobs.sort();
        if self.chance.percent(75) {
            jobs.truncate(2);
        }
        let letter = self.chance.of(b"rwwiiuuu");
        let job = self.chance.of(&jobs);
        let runs = self.desk.status(job) == Some(Status::Running);
        runs.then_some(Line { letter, job, cell })
    }

    /// Of two drawn cells the one with more holders.
    pub fn fuller_of(&mut self, cells: &[u32]) -> Option<u32> {
        if cells.is_empty() {
            return None;
        }
        let drawn = [self.chance.of(cells), self.chance.of(cells)];
        drawn.into_iter().max_by_key(|&cell| self.desk.cells[cell as usize].holders.len())
    }

    pub fn cells_that(&self, fit: impl Fn(&Cell) -> bool) -> Vec<u32> {
        (0..CELLS as u32).filter(|&number| fit(&self.desk.cells[number as usize])).collect()
    }

    /// A request that asks for one of the refusals 2, 3, 4, 5, 6, 8, if the desk has a job for it.
    pub fn prod(&mut self) -> Line {
        let any = self.chance.of(b"catrwiu");
        let (letter, status) = match self.chance.below(6) {
            0 => (self.action(), Some(Status::Running)),
            1 => (any, Some(Status::Waiting)),
            2 => (any, Some(Status::SentBack)),
            3 => (RETRY, Some(Status::Running)),
            4 if self.desk.refusal_of_begin().is_some() => (BEGIN, None),
            _ => (any, None),
        };
        let jobs: Vec<u32> = self
            .desk
            .jobs
            .iter()
            .filter(|open| Some(open.status) == status)
            .map(|open| open.number)
            .collect();
        let job = if jobs.is_empty() { self.stranger() } else { self.chance.of(&jobs) };
        let closing = matches!(letter, COMMIT | GIVE_UP);
        let letter = if closing && !self.may_close() { READ } else { letter };
        let cell = if self.chance.percent(70) { self.chance.of(&[64, 65, 99]) } else { self.cell() };
        Line { letter, job, cell }
    }

    pub fn stranger(&mut self) -> u32 {
        stranger(&mut self.chance, self.desk.next)
    }

    /// For numbers: the request, now and then spoilt, with anything in unused fields.
    pub fn choose_step(&mut self) -> Line {
        let asked = self.choose();
        as_step(&mut self.chance, self.spoil, self.desk.next, asked)
    }

    /// For lines: the request as text without its newline, now and then spoilt.
    pub fn choose_line(&mut self) -> Vec<u8> {
        let asked = self.choose();
        as_line(&mut self.chance, self.spoil, asked)
    }
}

/// Few cells or many, by the heat, 0 to 3, with the first or the last of all among them.
pub fn hot_cells(chance: &mut Chance, heat: usize) -> Vec<u32> {
    let count = match heat {
        0 => chance.between(1, 3),
        1 => chance.between(2, 5),
        2 => chance.between(4, 12),
        _ => chance.between(12, 64),
    };
    let mut cells: Vec<u32> = (0..CELLS as u32).collect();
    chance.shuffle(&mut cells);
    cells.truncate(count);
    cells.push(chance.of(&[0, 63]));
    cells
}

/// How many jobs are to be open; if `full`, 33, one more than there are places.
pub fn wanted_jobs(chance: &mut Chance, full: bool) -> usize {
    match chance.below(3) {
        _ if full => PLACES + 1,
        0 => chance.between(2, 5),
        1 => chance.between(4, 12),
        _ => chance.between(8, 31),
    }
}

/// One of the four letters that have a cell, by the weights of `r`, `w`, `u` and `i`.
pub fn action(chance: &mut Chance, [reads, writes, updates, increments]: [usize; 4]) -> u8 {
    let drawn = chance.below(reads + writes + updates + increments);
    match drawn {
        _ if drawn < reads => READ,
        _ if drawn < reads + writes => WRITE,
        _ if drawn < reads + writes + updates => UPDATE,
        _ => INCREMENT,
    }
}

/// A hot cell, or any.
pub fn some_cell(chance: &mut Chance, hot_share: usize, hot: &[u32]) -> u32 {
    if chance.percent(hot_share) {
        chance.of(hot)
    } else {
        chance.below(CELLS) as u32
    }
}

/// A job that is most likely not open.
pub fn stranger(chance: &mut Chance, next: u64) -> u32 {
    let next = next as u32;
    let past = chance.below(40) as u32;
    chance.of(&[0, LAST_NUMBER, next, next.wrapping_add(1), next.wrapping_sub(past), past, 256, 65_536])
}

/// A request for numbers, now and then spoilt, with anything in unused fields.
pub fn as_step(chance: &mut Chance, spoil: usize, next: u64, mut asked: Line) -> Line {
    if chance.percent(spoil) {
        spoil_step(chance, next, &mut asked);
    }
    fill_unused(chance, &mut asked);
    asked
}

/// Anything in the fields that the kind does not use.
pub fn fill_unused(chance: &mut Chance, asked: &mut Line) {
    if !has_cell(asked.letter) {
        asked.cell = chance.of(&[0, 5, 63, 64, LAST_NUMBER]);
    }
    if !has_job(asked.letter) {
        asked.job = chance.of(&[0, 1, asked.job, LAST_NUMBER]);
    }
}

pub fn spoil_step(chance: &mut Chance, next: u64, asked: &mut Line) {
    let anything = chance.number() as u32;
    match chance.below(6) {
        0 => asked.letter = chance.below(256) as u8,
        1 => asked.letter = chance.of(&[0, 1, b'k', b'B', b'R', b'C', b'U', asked.letter ^ 128, 255]),
        2 => asked.cell = chance.of(&[64, 65, 127, 128, 255, 256, 320, 65_536, 1 << 31, LAST_NUMBER]),
        3 => asked.cell = chance.of(&[anything, asked.cell.wrapping_add(256), asked.cell ^ (1 << 31)]),
        4 => asked.job = chance.of(&[anything, asked.job.wrapping_add(256), asked.job ^ (1 << 31)]),
        _ => asked.job = stranger(chance, next),
    }
}

/// A request as text without its newline, now and then spoilt.
pub fn as_line(chance: &mut Chance, spoil: usize, asked: Line) -> Vec<u8> {
    let mut line = Vec::new();
    put_fields(&mut line, asked);
    if !chance.percent(spoil) {
        line
    } else if chance.percent(80) {
        spoil_line(chance, &line)
    } else {
        odd_line(chance)
    }
}
