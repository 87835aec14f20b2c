//! Plans for jobs that wait for one another (02, No. 3): the shapes, and the requests that lead to them.

use super::Chance;
use crate::desk::{Answer, Desk};
use crate::words::*;

/// A cell in a plan: who holds it, and who waits for it, the youngest first, all older than the holders.
/// With `promotion` its oldest holder waits in front for more.
pub struct Jam {
    pub holders: Vec<u32>,
    pub waiters: Vec<u32>,
    pub promotion: bool,
}

impl Jam {
    /// Both in ascending order.
    pub fn new(holders: &[u32], waiters: &[u32]) -> Jam {
        Jam {
            holders: holders.to_vec(),
            waiters: waiters.iter().rev().copied().collect(),
            promotion: false,
        }
    }
}

/// A shape for some or all of the jobs, of which there are two at least, in ascending order.
pub fn shape(chance: &mut Chance, jobs: &mut Vec<u32>) -> Vec<Jam> {
    if chance.percent(35) {
        chance.shuffle(jobs);
        jobs.truncate(chance.between(2, jobs.len()));
        jobs.sort();
    }
    match chance.below(10) {
        0 | 1 => line(jobs),
        2..=4 => layers(chance, jobs),
        5 => queue(chance, jobs),
        6 => lines(chance, jobs),
        7 => lines_that_meet(chance, jobs),
        _ => anyhow(chance, jobs),
    }
}

/// One after another: each job waits for a cell that the next one holds.
pub fn line(jobs: &[u32]) -> Vec<Jam> {
    jobs.windows(2).map(|pair| Jam::new(&pair[1..], &pair[..1])).collect()
}

/// The jobs in layers: those of a layer hold a cell together, and all of the layer before wait for it. The
/// oldest of a layer may wait for more of that cell, in place of the next one's.
pub fn layers(chance: &mut Chance, jobs: &[u32]) -> Vec<Jam> {
    let thick = chance.between(2, 6);
    let promotions = chance.of(&[0, 30, 100]);
    let (mut layer, mut rest) = jobs.split_at(chance.between(1, thick).min(jobs.len() - 1));
    let mut jams = Vec::new();
    while !rest.is_empty() {
        let (next, after) = rest.split_at(chance.between(1, thick).min(rest.len()));
        let mut jam = Jam::new(next, layer);
        jam.promotion = next.len() > 1 && chance.percent(promotions);
        layer = if jam.promotion { &next[1..] } else { next };
        rest = after;
        jams.push(jam);
    }
    jams
}

/// Some hold a cell, and all others wait for it in one queue.
pub fn queue(chance: &mut Chance, jobs: &[u32]) -> Vec<Jam> {
    let (waiters, holders) = jobs.split_at(jobs.len() - chance.between(1, 4).min(jobs.len() - 1));
    let mut jam = Jam::new(holders, waiters);
    jam.promotion = holders.len() > 1 && chance.percent(50);
    vec![jam]
}

/// Two to four lines apart.
pub fn lines(chance: &mut Chance, jobs: &[u32]) -> Vec<Jam> {
    parted(chance, jobs).iter().flat_map(|part| line(part)).collect()
}

/// Two to four lines, each up to the youngest job, which holds a cell for each.
pub fn lines_that_meet(chance: &mut Chance, jobs: &[u32]) -> Vec<Jam> {
    let (&last, others) = jobs.split_last().expect("two jobs at least");
    let parts = parted(chance, others);
    parts.iter().flat_map(|part| line(&[&part[..], &[last]].concat())).collect()
}

pub fn parted(chance: &mut Chance, jobs: &[u32]) -> Vec<Vec<u32>> {
    let mut parts = vec![Vec::new(); chance.between(2, 4)];
    for &job in jobs {
        let part = chance.below(parts.len());
        parts[part].push(job);
    }
    parts
}

/// Cells held by anybody; most jobs wait, each for any cell whose holders are all younger, or for more of a
/// cell of which it is the oldest holder.
pub fn anyhow(chance: &mut Chance, jobs: &[u32]) -> Vec<Jam> {
    let mut jams = Vec::new();
    for _ in 0..chance.between(1, jobs.len()) {
        let mut holders = jobs.to_vec();
        chance.shuffle(&mut holders);
        holders.truncate(chance.of(&[1, 1, 2, 3, 4]));
        holders.sort();
        jams.push(Jam::new(&holders, &[]));
    }
    for &job in jobs.iter().rev() {
        let own = jams.iter().position(|jam| jam.holders[0] == job && jam.holders.len() > 1);
        let fits: Vec<usize> = (0..jams.len()).filter(|&at| job < jams[at].holders[0]).collect();
        match own {
            _ if chance.percent(10) => {}
            Some(at) if chance.percent(40) => jams[at].promotion = true,
            _ if !fits.is_empty() => jams[chance.of(&fits)].waiters.push(job),
            _ => {}
        }
    }
    jams
}

/// Requests that were tried out on a copy of the desk.
pub struct Plan {
    pub desk: Desk,
    pub steps: Vec<Line>,
}

/// The requests that lead to these jams, on cells that nobody holds.
pub fn plan(chance: &mut Chance, desk: &Desk, jams: &[Jam]) -> Vec<Line> {
    let free = |&cell: &u32| desk.cells[cell as usize].holders.is_empty();
    let mut cells: Vec<u32> = (0..CELLS as u32).filter(free).collect();
    chance.shuffle(&mut cells);
    let mut jams: Vec<(&Jam, u32)> = jams.iter().zip(cells).collect();
    let mut plan = Plan { desk: desk.clone(), steps: Vec::new() };
    if chance.percent(30) {
        // cell by cell: a job takes a cell when others wait already for those that it has
        for (jam, cell) in jams {
            plan.hold(chance, jam, cell);
            plan.wait(chance, jam, cell);
        }
        return plan.steps;
    }
    chance.shuffle(&mut jams);
    for &(jam, cell) in &jams {
        plan.hold(chance, jam, cell);
    }
    chance.shuffle(&mut jams);
    for &(jam, cell) in &jams {
        plan.wait(chance, jam, cell);
    }
    plan.steps
}

impl Plan {
    /// Takes in the first of these requests that is answered so, if there is one.
    pub fn take(&mut self, letters: &[u8], job: u32, cell: u32, wanted: Answer) {
        for &letter in letters {
            let mut desk = self.desk.clone();
            let asked = Line { letter, job, cell };
            if desk.step(asked).answer == wanted {
                self.desk = desk;
                return self.steps.push(asked);
            }
        }
    }

    /// The holders come in any order: one by any letter; several by reads, of which the last may be with
    /// intent, or by increments.
    pub fn hold(&mut self, chance: &mut Chance, jam: &Jam, cell: u32) {
        let mut jobs = jam.holders.clone();
        chance.shuffle(&mut jobs);
        let several = jobs.len() > 1;
        let letter = if several { chance.of(b"rri") } else { chance.of(b"rwwiu") };
        let intent = several && letter == READ && chance.percent(50);
        for (place, &job) in jobs.iter().enumerate() {
            let last = place + 1 == jobs.len();
            let letter = if last && intent { UPDATE } else { letter };
            self.take(&[letter], job, cell, Answer::Go(job));
        }
    }

    /// The waiters come from younger to older, and a promotion at any time between.
    pub fn wait(&mut self, chance: &mut Chance, jam: &Jam, cell: u32) {
        let mut jobs = jam.waiters.clone();
        if jam.promotion {
            jobs.insert(chance.below(jobs.len() + 1), jam.holders[0]);
        }
        for job in jobs {
            let mut letters = *b"rwiu";
            chance.shuffle(&mut letters);
            self.take(&letters, job, cell, Answer::Wait(job));
        }
    }
}
