//! What is demanded of the desk's history: commit order (e), strictness (f), and that it is dirty
//! at no moment (02, No. 2).

use super::{Seen, Watch};
use crate::judge::{first_dirty, judge, Verdict};
use crate::lines::put_event;
use crate::words::*;
use std::collections::{BTreeMap, BTreeSet};

impl Watch {
    /// e and f: the step's history records, one by one.
    pub fn events(&mut self, seen: &Seen, events: &[Line]) -> Result<(), String> {
        let end = |event: &Line| matches!(event.letter, COMMIT | GIVE_UP | SENT_BACK);
        demand!(!events.iter().skip(1).any(end), "f: a wake's record stands before the end that woke it");
        demand!(
            seen.ended().is_some() == events.first().is_some_and(end),
            "f: a run's end without its record"
        );
        for &event in events {
            self.no_event_after_end(event)?;
            if has_cell(event.letter) {
                self.strict(event)?;
            }
            self.history.push(event);
            if event.letter == COMMIT {
                self.no_dirty_read(event.job)?;
                self.commit_order(event.job)?;
            }
        }
        Ok(())
    }

    /// f: no history event of a job after its `c` or `a`.
    pub fn no_event_after_end(&self, event: Line) -> Result<(), String> {
        let ended = |past: &Line| past.job == event.job && matches!(past.letter, COMMIT | GIVE_UP);
        demand!(!self.history.iter().any(ended), "f: event of {} after its end", event.job);
        Ok(())
    }

    /// f: between an action and the end of its run no conflicting action of another job.
    pub fn strict(&self, event: Line) -> Result<(), String> {
        let mut ended = BTreeSet::new();
        for past in self.history.iter().rev() {
            if !has_cell(past.letter) {
                ended.insert(past.job);
            } else if past.job != event.job && past.cell == event.cell && conflict(past.letter, event.letter)
            {
                demand!(ended.contains(&past.job), "f: {event:?} against {past:?}, whose run has not ended");
            }
        }
        Ok(())
    }

    /// e: at a commit, every conflict with the jobs committed before goes from them to it.
    pub fn commit_order(&mut self, job: u32) -> Result<(), String> {
        let mut own = Vec::new();
        for (place, event) in self.history.iter().enumerate().filter(|(_, event)| event.job == job) {
            match event.letter {
                SENT_BACK => own.clear(),
                READ | WRITE | INCREMENT => own.push((place, *event)),
                _ => {}
            }
        }
        for (place, action) in &own {
            for (past, other) in &self.committed {
                let against = action.cell == other.cell && conflict(action.letter, other.letter);
                demand!(
                    !against || past < place,
                    "e: {action:?} of {job} stands before {other:?}, committed earlier"
                );
            }
        }
        self.committed.extend(own);
        Ok(())
    }

    /// e once more, over the whole history in the paper's words; and the judge agrees.
    pub fn whole_history(&self) -> Result<(), String> {
        let place = |letter: u8, job: u32| {
            self.history.iter().rposition(|event| event.letter == letter && event.job == job)
        };
        let jobs: BTreeSet<u32> = self.history.iter().map(|event| event.job).collect();
        let commits: BTreeMap<u32, usize> =
            jobs.iter().filter_map(|&job| Some((job, place(COMMIT, job)?))).collect();
        let backs: BTreeMap<u32, usize> =
            jobs.iter().filter_map(|&job| Some((job, place(SENT_BACK, job)?))).collect();
        let counts = |&(at, event): &(usize, &Line)| {
            has_cell(event.letter)
                && commits.contains_key(&event.job)
                && backs.get(&event.job).is_none_or(|&back| back < at)
        };
        let part: Vec<&Line> =
            self.history.iter().enumerate().filter(counts).map(|(_, event)| event).collect();
        for (at, later) in part.iter().enumerate() {
            for earlier in &part[..at] {
                let edge = earlier.job != later.job
                    && earlier.cell == later.cell
                    && !matches!((earlier.letter, later.letter), (b'r', b'r') | (b'i', b'i'));
                demand!(
                    !edge || commits[&earlier.job] < commits[&later.job],
                    "e: edge from {earlier:?} to {later:?}"
                );
            }
        }
        self.nowhere_dirty()?;
        self.judged()
    }

    /// 02, No. 2: the run that has just committed has read no cell after another job's write or
    /// increment of it whose run was under way there and has not committed since. A history that
    /// is not dirty becomes so by a commit alone, so each moment of a run is looked at.
    pub fn no_dirty_read(&self, job: u32) -> Result<(), String> {
        let back = |event: &Line| event.job == job && event.letter == SENT_BACK;
        let first = self.history.iter().rposition(back).map_or(0, |last| last + 1);
        for at in first..self.history.len() {
            let read = self.history[at];
            if read.job == job && read.letter == READ {
                let under_way = self.under_way(at, read.cell);
                let lost = under_way.iter().find(|&(&other, &end)| other != job && end != Some(COMMIT));
                demand!(lost.is_none(), "dirty: {read:?} at {at} and the run of {lost:?}");
            }
        }
        Ok(())
    }

    /// The jobs that have written or incremented a cell before a place in a run that goes on there,
    /// each with that run's end so far.
    pub fn under_way(&self, at: usize, cell: u32) -> BTreeMap<u32, Option<u8>> {
        let mut jobs = BTreeMap::new();
        for event in &self.history[..at] {
            match event.letter {
                COMMIT | GIVE_UP | SENT_BACK => drop(jobs.remove(&event.job)),
                WRITE | INCREMENT if event.cell == cell => drop(jobs.insert(event.job, None)),
                _ => {}
            }
        }
        for (&job, end) in &mut jobs {
            let mut ends =
                self.history[at..].iter().filter(|event| event.job == job && !has_cell(event.letter));
            *end = ends.next().map(|event| event.letter);
        }
        jobs
    }

    /// 02, No. 2, over the whole history so far, by the judge's own search.
    pub fn nowhere_dirty(&self) -> Result<(), String> {
        let found = first_dirty(&self.history).map(|(read, write)| (self.history[read], self.history[write]));
        demand!(found.is_none(), "dirty: {found:?}");
        Ok(())
    }

    /// The judge, where it can read the history, says orderly, with every committed job.
    pub fn judged(&self) -> Result<(), String> {
        let mut text = Vec::new();
        self.history.iter().for_each(|&event| put_event(&mut text, event));
        let commits = self.history.iter().filter(|event| event.letter == COMMIT).count();
        match judge(&text, &mut [0; HISTORY_JOBS]) {
            Verdict::Orderly(count) => {
                demand!(count == commits, "e: {count} jobs in order, {commits} committed")
            }
            Verdict::Knot(_) => return Err("e: the judge finds a knot".to_string()),
            Verdict::Dirty { reader, writer } => {
                return Err(format!("e: the judge finds that {reader} read what {writer} took back"))
            }
            Verdict::No { refusal, .. } => {
                demand!(
                    refusal == LINE_TOO_MANY || refusal == JOB_OUTSIDE,
                    "e: the judge refuses by {refusal}"
                );
            }
        }
        Ok(())
    }
}
