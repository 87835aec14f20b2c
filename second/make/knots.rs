//! Histories with several cycles, and with jobs ahead of them, behind them and between: a judge that walks
//! from another job than the smallest that remains, or that takes more jobs away, tells another knot.

use super::histories::{knotted_history, put_end, put_lost_run, some_jobs, CONFLICTS};
use super::Chance;
use crate::words::*;

/// Who gives to whom, by places of a list of jobs that is drawn later.
#[derive(Default)]
pub struct Shape {
    pub edges: Vec<(usize, usize)>,
    pub jobs: usize,
    /// The places on each cycle.
    pub cycles: Vec<Vec<usize>>,
    /// The places behind some cycle, with its number: they remain, and no cycle goes through them.
    pub behind: Vec<(usize, usize)>,
    /// The places ahead of a cycle: they are taken away.
    pub ahead: Vec<usize>,
}

impl Shape {
    /// One place more.
    fn place(&mut self) -> usize {
        self.jobs += 1;
        self.jobs - 1
    }

    /// How many lines it takes: two actions for an edge, on a cell of its own, and a commit for a job.
    pub fn lines(&self) -> usize {
        2 * self.edges.len() + self.jobs
    }

    fn add_cycle(&mut self, length: usize) {
        let places: Vec<usize> = (0..length).map(|_| self.place()).collect();
        for at in 0..length {
            self.edges.push((places[at], places[(at + 1) % length]));
        }
        self.cycles.push(places);
    }

    /// A row of jobs behind a job of a cycle, each giving to the next.
    fn add_behind(&mut self, chance: &mut Chance, cycle: usize, length: usize) {
        let mut from = chance.of(&self.cycles[cycle]);
        for _ in 0..length {
            let to = self.place();
            self.edges.push((from, to));
            self.behind.push((to, cycle));
            from = to;
        }
    }

    /// A row of jobs ahead of a job of a cycle.
    fn add_ahead(&mut self, chance: &mut Chance, cycle: usize, length: usize) {
        let mut to = chance.of(&self.cycles[cycle]);
        for _ in 0..length {
            let from = self.place();
            self.edges.push((from, to));
            self.ahead.push(from);
            to = from;
        }
    }

    /// A way from a cycle to a later one, at times over a job between: the cycles stay apart.
    fn add_bridge(&mut self, chance: &mut Chance) {
        let later = chance.between(1, self.cycles.len() - 1);
        let earlier = chance.below(later);
        let (from, to) = (chance.of(&self.cycles[earlier]), chance.of(&self.cycles[later]));
        if chance.percent(50) {
            self.edges.push((from, to));
        } else {
            let between = self.place();
            self.behind.push((between, earlier));
            self.edges.extend([(from, between), (between, to)]);
        }
    }
}

/// A shape of some size, 0 the smallest: two cycles of two jobs, and one job behind the first.
pub fn some_shape(chance: &mut Chance, size: usize) -> Shape {
    let mut shape = Shape::default();
    for _ in 0..chance.between(2, 2 + size) {
        let length = if size == 0 { 2 } else { chance.of(&[2, 2, 2, 3, 3, 4, 5]) };
        shape.add_cycle(length);
    }
    let rows = if size == 0 { 1 } else { shape.cycles.len() };
    for cycle in 0..rows {
        if cycle == 0 || chance.percent(60) {
            let length = if size == 0 { 1 } else { chance.of(&[1, 1, 2, 3]) };
            shape.add_behind(chance, cycle, length);
        }
        if size > 0 && chance.percent(60) {
            let length = chance.of(&[1, 1, 2]);
            shape.add_ahead(chance, cycle, length);
        }
    }
    if size > 0 && chance.percent(40) {
        shape.add_bridge(chance);
    }
    shape
}

/// The places of a shape from the one that gets the smallest job to the one that gets the largest. Mostly
/// a job behind a cycle is the smallest that remains, one on another cycle comes next, and often the largest
/// is of that cycle too; those ahead, which are taken away, may be smaller or larger than all.
pub fn ranked_places(chance: &mut Chance, shape: &Shape) -> Vec<usize> {
    let mut places: Vec<usize> = (0..shape.jobs).collect();
    chance.shuffle(&mut places);
    let (small, cycle) = chance.of(&shape.behind);
    let other = (cycle + chance.between(1, shape.cycles.len() - 1)) % shape.cycles.len();
    if chance.percent(75) {
        let next = chance.of(&shape.cycles[other]);
        places.sort_by_key(|&place| if place == small { 0 } else { 1 + usize::from(place != next) });
    }
    if chance.percent(50) {
        let mut last = shape.cycles[other].clone();
        last.extend(shape.behind.iter().filter(|row| row.1 == other).map(|row| row.0));
        let large = chance.of(&last);
        if places[..2].iter().all(|&place| place != large) {
            places.sort_by_key(|&place| place == large);
        }
    }
    if chance.percent(50) {
        let first = chance.percent(50);
        places.sort_by_key(|place| shape.ahead.contains(place) != first);
    }
    places
}

/// A history of so many lines with such a shape; with too few lines for one, a knot or anything.
pub fn knots_history(chance: &mut Chance, count: usize) -> Vec<Line> {
    for size in (0..4).rev() {
        let shape = some_shape(chance, size);
        if shape.lines() <= count && shape.edges.len() <= CELLS {
            return shaped_history(chance, &shape, count);
        }
    }
    knotted_history(chance, count)
}

/// The edges in any order, their lines in between one another, and then lines that change no edge.
fn shaped_history(chance: &mut Chance, shape: &Shape, count: usize) -> Vec<Line> {
    let mut drawn = some_jobs(chance, shape.jobs);
    drawn.sort();
    let mut jobs = vec![0; shape.jobs];
    for (&place, &job) in ranked_places(chance, shape).iter().zip(&drawn) {
        jobs[place] = job;
    }
    let cells = some_cells(chance);
    let mut events = Vec::new();
    for (&(from, to), &cell) in shape.edges.iter().zip(&cells) {
        let (earlier, later) = chance.of(CONFLICTS);
        let at = chance.between(0, events.len());
        events.insert(at, Line { letter: earlier, job: jobs[from], cell });
        let at = chance.between(at + 1, events.len());
        events.insert(at, Line { letter: later, job: jobs[to], cell });
    }
    for &job in &jobs {
        put_end(chance, &mut events, COMMIT, job);
    }
    while events.len() < count {
        let at = chance.below(events.len());
        if chance.percent(40) && events.len() + 2 <= count {
            let job = chance.of(&jobs);
            put_lost_run(chance, &mut events, job);
        } else if has_cell(events[at].letter) {
            events.insert(at, events[at]);
        }
    }
    events
}

/// All cells, in any order.
fn some_cells(chance: &mut Chance) -> Vec<u32> {
    let mut cells: Vec<u32> = (0..CELLS as u32).collect();
    chance.shuffle(&mut cells);
    cells
}
