//! What is demanded of the timestamp desk (02, No. 6), held against a random run by brute force: number
//! order (a), the cells' two numbers (b), refusals, and that nobody waits (c), numbers and places (d), and who
//! goes (e). All of it is reckoned from the numbers given and the history so far, never from the desk.

use super::start_of;
use crate::desk::{history_of, Answer, Outcome};
use crate::judge::{judge, Verdict};
use crate::lines::put_event;
use crate::make::stamps::StampMaker;
use crate::stamps::{Marks, Stamps};
use crate::words::*;
use std::collections::{BTreeMap, BTreeSet};

/// One step as the watch sees it: the desk before and after, the request, what came of it.
pub struct StampSeen<'a> {
    pub before: &'a Stamps,
    pub asked: Line,
    pub outcome: &'a Outcome,
    pub after: &'a Stamps,
}

/// Watches a desk from its start at `first`.
pub struct StampWatch {
    pub first: u32,
    pub given: Vec<u32>,
    pub history: Vec<Line>,
}

/// Two actions on a cell that may stand in any order: both reads, or both increments.
pub fn in_any_order(one: Line, other: Line) -> bool {
    one.cell != other.cell || matches!((one.letter, other.letter), (b'r', b'r') | (b'i', b'i'))
}

impl StampWatch {
    pub fn new(first: u32) -> StampWatch {
        StampWatch { first, given: Vec::new(), history: Vec::new() }
    }

    /// All statements, for one more step.
    pub fn see(&mut self, seen: &StampSeen) -> Result<(), String> {
        self.refusals(seen)?;
        nobody_waits(seen)?;
        self.goes(seen)?;
        self.numbers(seen)?;
        self.records(seen)?;
        self.places(seen)?;
        self.marks(seen)
    }

    /// d: the jobs given that have no end in the history.
    pub fn open(&self) -> Vec<u32> {
        let ends = self.history.iter().filter(|event| matches!(event.letter, b'c' | b'a' | b'k'));
        let ended: BTreeSet<u32> = ends.map(|event| event.job).collect();
        self.given.iter().copied().filter(|job| !ended.contains(job)).collect()
    }

    /// c: the table of refusals, all rows looked at, the first that applies counts.
    pub fn table(&self, asked: Line) -> Option<u8> {
        let Line { letter, job, cell } = asked;
        let open = self.open();
        let begin = letter == b'b';
        let rows = [
            (1, ![98, 99, 97, 116, 114, 119, 105, 117].contains(&letter)),
            (7, begin && self.given.contains(&4_294_967_295)),
            (6, begin && open.len() == 32),
            (3, !begin && !open.contains(&job)),
            (19, letter == b't'),
            (2, matches!(letter, b'r' | b'w' | b'i' | b'u') && cell > 63),
        ];
        rows.iter().find(|row| row.1).map(|row| row.0)
    }

    /// c: each refusal exactly when the table says, and it changes nothing.
    pub fn refusals(&self, seen: &StampSeen) -> Result<(), String> {
        let got = match seen.outcome.answer {
            Answer::No(number) => Some(number),
            _ => None,
        };
        demand!(!matches!(got, Some(4 | 5 | 8)), "c: refusal {got:?}");
        let wanted = self.table(seen.asked);
        demand!(got == wanted, "c: the table says {wanted:?}, the desk {got:?}");
        demand!(got.is_none() || seen.before == seen.after, "c: a refusal changed the desk");
        Ok(())
    }

    /// e: an ask goes exactly when no larger number stands in the history with an action on its cell, unless
    /// both are reads; else it is sent back. A begin, a commit and a give-up go.
    pub fn goes(&self, seen: &StampSeen) -> Result<(), String> {
        let Line { letter, job, cell } = seen.asked;
        let writes = |letter: u8| matches!(letter, b'w' | b'i');
        let against = self.history.iter().find(|past| {
            matches!(past.letter, b'r' | b'w' | b'i')
                && past.cell == cell
                && past.job > job
                && (writes(letter) || writes(past.letter))
        });
        let ask = matches!(letter, b'r' | b'w' | b'i' | b'u');
        match seen.outcome.answer {
            Answer::Go(_) => demand!(!ask || against.is_none(), "e: went, and there was {against:?}"),
            Answer::Back(_) => demand!(ask && against.is_some(), "e: went back for nobody"),
            _ => {}
        }
        Ok(())
    }

    /// d: a begin gives the next number, the first at the start; other answers name the asker.
    pub fn numbers(&mut self, seen: &StampSeen) -> Result<(), String> {
        let (Answer::Go(job) | Answer::Wait(job) | Answer::Back(job)) = seen.outcome.answer else {
            return Ok(());
        };
        if seen.asked.letter != b'b' {
            demand!(job == seen.asked.job, "d: answer for {job} to a request of {}", seen.asked.job);
            return Ok(());
        }
        let next = u64::from(self.first) + self.given.len() as u64;
        demand!(u64::from(job) == next, "d: begin gave {job}, and the next number is {next}");
        self.given.push(job);
        Ok(())
    }

    /// The step's record, if it has one, is what the papers say; a: and it stands in number order.
    pub fn records(&mut self, seen: &StampSeen) -> Result<(), String> {
        let Line { letter, job, cell } = seen.asked;
        let wanted: Vec<Line> = match (seen.outcome.answer, letter) {
            (Answer::Go(_), b'r' | b'u') => vec![Line { letter: b'r', job, cell }],
            (Answer::Go(_), b'w' | b'i' | b'c' | b'a') => vec![seen.asked],
            (Answer::Back(_), _) => vec![Line { letter: b'k', job, cell: 0 }],
            _ => Vec::new(),
        };
        let events = history_of(seen.asked, seen.outcome);
        demand!(events == wanted, "records: {events:?}, not {wanted:?}");
        for event in events {
            self.number_order(event)?;
            self.history.push(event);
        }
        Ok(())
    }

    /// a: conflicting actions stand in number order, those of jobs sent back and given up too; and so do two
    /// jobs' increments, which do not conflict.
    pub fn number_order(&self, event: Line) -> Result<(), String> {
        let acts = |line: &Line| matches!(line.letter, b'r' | b'w' | b'i');
        let both_read = |past: &Line| past.letter == b'r' && event.letter == b'r';
        let before =
            |past: &&Line| acts(past) && past.cell == event.cell && past.job > event.job && !both_read(past);
        let found = self.history.iter().find(before).filter(|_| acts(&event));
        demand!(found.is_none(), "a: {event:?} stands after {found:?}");
        Ok(())
    }

    /// d: open are the jobs given that have not committed, given up or been sent back, and at most 32.
    pub fn places(&self, seen: &StampSeen) -> Result<(), String> {
        let open = self.open();
        let mut held = seen.after.jobs.clone();
        held.sort();
        demand!(held == open, "d: {held:?} are open, and should be {open:?}");
        demand!(held.len() <= 32, "d: {} open jobs", held.len());
        if let Answer::Back(job) = seen.outcome.answer {
            demand!(!held.contains(&job), "d: {job} was sent back and is open");
            demand!(seen.before.jobs.len() == held.len() + 1, "d: {job} was sent back and keeps its place");
        }
        Ok(())
    }

    /// b: each cell's numbers are those of the largest that read and wrote it in the history so far, and they
    /// never fall.
    pub fn marks(&self, seen: &StampSeen) -> Result<(), String> {
        let mut counted = [Marks::default(); 64];
        for event in self.history.iter().filter(|event| matches!(event.letter, b'r' | b'w' | b'i')) {
            let marks = &mut counted[event.cell as usize];
            if event.letter != b'w' {
                marks.reader = marks.reader.max(event.job);
            }
            if event.letter != b'r' {
                marks.writer = marks.writer.max(event.job);
            }
        }
        demand!(seen.after.cells.len() == 64, "b: {} cells", seen.after.cells.len());
        for (cell, wanted) in counted.iter().enumerate() {
            let (old, new) = (seen.before.cells[cell], seen.after.cells[cell]);
            let falls = new.reader < old.reader || new.writer < old.writer;
            demand!(!falls, "b: the numbers of cell {cell} fall from {old:?} to {new:?}");
            demand!(new == *wanted, "b: cell {cell} has {new:?}, counted are {wanted:?}");
        }
        Ok(())
    }

    /// a, over the whole history in the paper's words.
    pub fn whole_history(&self) -> Result<(), String> {
        let acts = |line: &&Line| has_cell(line.letter);
        let actions: Vec<Line> = self.history.iter().filter(acts).copied().collect();
        for (at, &later) in actions.iter().enumerate() {
            for &earlier in &actions[..at] {
                let fine = earlier.job <= later.job || in_any_order(earlier, later);
                demand!(fine, "a: {earlier:?} stands before {later:?}");
            }
        }
        judged(&self.history)
    }
}

/// c: nobody waits and nobody is woken.
pub fn nobody_waits(seen: &StampSeen) -> Result<(), String> {
    demand!(!matches!(seen.outcome.answer, Answer::Wait(_)), "c: {} waits", seen.asked.job);
    demand!(seen.outcome.wakes.is_empty(), "c: {:?} woken", seen.outcome.wakes);
    Ok(())
}

/// As many of a history's last lines as the judge takes, of 255 jobs at most, which are called 1, 2 and so on in
/// the order of their numbers.
pub fn within_limits(history: &[Line]) -> Vec<Line> {
    let mut jobs = BTreeSet::new();
    let mut start = history.len();
    for event in history.iter().rev().take(HISTORY_LINES) {
        if jobs.len() == HISTORY_JOBS && !jobs.contains(&event.job) {
            break;
        }
        jobs.insert(event.job);
        start -= 1;
    }
    let names: BTreeMap<u32, u32> = jobs.into_iter().zip(1..).collect();
    history[start..].iter().map(|event| Line { job: names[&event.job], ..*event }).collect()
}

/// a: the judge finds no knot in the last lines, and where they are not dirty the committed jobs ascending.
/// Nor is it otherwise with the committed jobs' lines alone, which cannot be dirty.
pub fn judged(history: &[Line]) -> Result<(), String> {
    let lines = within_limits(history);
    let commits: BTreeSet<u32> =
        lines.iter().filter(|event| event.letter == COMMIT).map(|event| event.job).collect();
    let part: Vec<Line> = lines.iter().copied().filter(|event| commits.contains(&event.job)).collect();
    let ascending: Vec<u8> = commits.iter().map(|&job| job as u8).collect();
    for (lines, may_be_dirty) in [(lines, true), (part, false)] {
        let mut text = Vec::new();
        lines.iter().for_each(|&event| put_event(&mut text, event));
        let mut order = [0; HISTORY_JOBS];
        match judge(&text, &mut order) {
            Verdict::Orderly(count) => {
                demand!(order[..count] == ascending, "a: the judge's order is {:?}", &order[..count]);
            }
            Verdict::Knot(count) => return Err(format!("a: the judge finds the knot {:?}", &order[..count])),
            Verdict::Dirty { .. } => demand!(may_be_dirty, "a: the judge finds the committed jobs dirty"),
            Verdict::No { refusal, .. } => return Err(format!("a: the judge refuses by {refusal}")),
        }
    }
    Ok(())
}

/// A random run of the timestamp desk under watch; the first violation with its step.
pub fn stamp_demands(seed: u64, count: u64) -> Result<(), String> {
    stamp_run(seed, count, Stamps::step)
}

/// The same of a desk that steps as it is told here. The judge looks at every hundredth step, and at the end.
pub fn stamp_run(
    seed: u64,
    count: u64,
    mut step: impl FnMut(&mut Stamps, Line) -> Outcome,
) -> Result<(), String> {
    let first = start_of(seed, count);
    let mut maker = StampMaker::new(seed, first);
    let mut watch = StampWatch::new(first);
    for number in 1..=count {
        let asked = maker.choose_step();
        let before = maker.desk.clone();
        let outcome = step(&mut maker.desk, asked);
        let seen = StampSeen { before: &before, asked, outcome: &outcome, after: &maker.desk };
        watch.see(&seen).map_err(|text| format!("step {number}, {asked:?}: {text}"))?;
        maker.note(asked, &outcome);
        if number % 100 == 0 {
            judged(&watch.history).map_err(|text| format!("after step {number}: {text}"))?;
        }
    }
    watch.whole_history().map_err(|text| format!("after step {count}: {text}"))
}
