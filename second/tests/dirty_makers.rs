//! The makers and dirt (02, No. 2): every way to be dirty, every near miss and clean histories come up.

use super::dirty::told_by_runs;
use super::made;
use crate::commands::{places_of, verdict_line, CASE_MARK};
use crate::judge::{
    decide, dirty_write, edges_of, first_dirty, judge_line, run_ends, Edges, History, Verdict,
};
use crate::make::dirt::{mend, with_dirt, Dirt};
use crate::make::histories::{desk_history, knot_history, knotted_history, loose_history, ranked_history};
use crate::make::Chance;
use crate::words::*;
use std::collections::{BTreeMap, BTreeSet};

/// The lines of a text that are faultless after those before them, and how many come before the first that
/// is not, if there is one.
fn history_of(text: &[u8]) -> (History, Option<usize>) {
    let (mut history, mut fault) = (History::empty(), None);
    for (before, line) in text.split_inclusive(|&byte| byte == b'\n').enumerate() {
        match judge_line(&history, before + 1, line) {
            Ok(event) => history.take(event),
            Err(_) => drop(fault.get_or_insert(history.lines.len())),
        }
    }
    (history, fault)
}

fn word_of(text: &[u8]) -> String {
    String::from_utf8(verdict_line(text)).unwrap().split(['\t', '\n']).next().unwrap().to_string()
}

/// A history with its runs' ends, to be looked at.
struct Look {
    lines: Vec<Line>,
    ends: Vec<Option<usize>>,
}

impl Look {
    fn of(lines: &[Line]) -> Look {
        Look { lines: lines.to_vec(), ends: run_ends(lines) }
    }

    /// How a line's run ends.
    fn end(&self, at: usize) -> &'static str {
        match self.ends[at].map(|end| self.lines[end].letter) {
            Some(COMMIT) => "commits",
            Some(GIVE_UP) => "given up",
            Some(_) => "sent back",
            None => "no end",
        }
    }

    fn commits(&self, at: usize) -> bool {
        self.end(at) == "commits"
    }

    fn writes(&self, at: usize) -> bool {
        matches!(self.lines[at].letter, WRITE | INCREMENT)
    }

    fn goes_on(&self, at: usize, later: usize) -> bool {
        self.ends[at].is_none_or(|end| later < end)
    }

    /// What a dirty history shows, by the read and the write that are told.
    fn dirt(&self, read: usize, write: usize) -> BTreeSet<String> {
        let (reader, writer) = (self.lines[read], self.lines[write]);
        let mut found = BTreeSet::from([
            format!("{} by {}", self.end(write), char::from(writer.letter)),
            format!("reader {}", reader.job),
            format!("writer {}", writer.job),
            format!("cell {}", reader.cell),
        ]);
        let mut show = |shown: bool, what: &str| found.extend(shown.then(|| what.to_string()));
        let same_cell = |at: usize| self.writes(at) && self.lines[at].cell == reader.cell;
        let commit = |line: &Line| line.job == writer.job && line.letter == COMMIT;
        show(self.lines.iter().any(commit), "the writer's job commits later");
        for at in (0..read).filter(|&at| same_cell(at) && self.lines[at].job != writer.job) {
            let own = self.lines[at].job == reader.job;
            match (at > write, own, self.commits(at), self.goes_on(at, read)) {
                (true, true, _, _) => show(true, "the reader's own write in between"),
                (true, false, true, false) => show(true, "a committed write in between"),
                (true, false, true, true) => show(true, "a later writer commits"),
                (true, false, false, false) => show(true, "a later writer has ended"),
                (false, false, false, true) => show(true, "several writers"),
                _ => {}
            }
        }
        let dirty = |at: &usize| dirty_write(&self.lines, &self.ends, *at).is_some();
        let others: Vec<usize> = (read + 1..self.lines.len()).filter(dirty).collect();
        show(others.iter().any(|&at| self.lines[at].job != reader.job), "several readers");
        show(others.iter().any(|&at| self.ends[at] < self.ends[read]), "a later read commits first");
        found
    }

    /// What a clean history has that comes near to dirt, by two lines.
    fn near(&self) -> BTreeSet<&'static str> {
        let actions: Vec<usize> =
            (0..self.lines.len()).filter(|&at| has_cell(self.lines[at].letter)).collect();
        let mut found = BTreeSet::new();
        for (place, &later) in actions.iter().enumerate() {
            for &at in &actions[..place] {
                let near = if self.lines[at].job == self.lines[later].job {
                    self.own(at, later)
                } else if self.writes(at) {
                    self.write_before(at, later)
                } else {
                    self.read_before(at, later)
                };
                found.extend(near);
            }
        }
        found
    }

    /// Two lines of one job.
    fn own(&self, at: usize, later: usize) -> Option<&'static str> {
        let same = self.lines[at].cell == self.lines[later].cell && self.lines[later].letter == READ;
        let own = same && self.writes(at) && self.end(at) == "sent back" && self.commits(later);
        own.then_some("its own write, sent back")
    }

    /// A read, and a later line of another job.
    fn read_before(&self, at: usize, later: usize) -> Option<&'static str> {
        let same = self.lines[at].cell == self.lines[later].cell && self.commits(at);
        let lost = self.writes(later) && !self.commits(later);
        (same && lost && later == at + 1).then_some("the read just before")
    }

    /// A write or increment, and a later line of another job.
    fn write_before(&self, at: usize, later: usize) -> Option<&'static str> {
        let same = self.lines[at].cell == self.lines[later].cell;
        let (letter, goes_on) = (self.lines[later].letter, self.goes_on(at, later));
        match (self.commits(at), same, goes_on, self.end(later)) {
            (true, true, true, "commits") if letter == READ => Some("the writer commits"),
            (false, true, true, "commits") if letter == WRITE => Some("w in place of the read"),
            (false, true, true, "commits") if letter == INCREMENT => Some("i in place of the read"),
            (false, true, true, "sent back") if letter == READ => Some("read, sent back"),
            (false, true, true, "given up") if letter == READ => Some("read, given up"),
            (false, true, true, "no end") if letter == READ => Some("read, no end"),
            (false, true, false, "commits") if letter == READ && at + 2 == later => match self.end(at) {
                "sent back" => Some("sent back just before the read"),
                _ => Some("given up just before the read"),
            },
            (false, false, true, "commits") if letter == READ && at + 1 == later => Some("another cell"),
            _ => None,
        }
    }
}

/// What a history shows: its verdict's word, and with it what there is of dirt.
fn shows(text: &[u8]) -> BTreeSet<String> {
    let word = word_of(text);
    let (history, fault) = history_of(text);
    let mut found = BTreeSet::from([word.clone()]);
    let dirty = first_dirty(&history.lines);
    let job = |at: usize| history.lines[at].job;
    assert_eq!(dirty.map(|(read, write)| (job(read), job(write))), told_by_runs(&history.lines));
    if word == "no" {
        let before = &history.lines[..fault.unwrap_or(history.lines.len())];
        found.extend(first_dirty(before).map(|_| "no, and dirty before".to_string()));
        found.extend(dirty.map(|_| "no, and else dirty".to_string()));
        return found;
    }
    let look = Look::of(&history.lines);
    match dirty {
        Some((read, write)) => {
            let knotted = matches!(decide(&history, &mut [0; HISTORY_JOBS]), Verdict::Knot(_));
            found.insert(format!("knotted {knotted}"));
            found.extend(look.dirt(read, write));
        }
        None => found.extend(look.near().into_iter().map(str::to_string)),
    }
    found
}

#[rustfmt::skip]
const WANTED: &[&str] = &[
    "orderly", "knot", "dirty", "no", "no, and dirty before", "no, and else dirty",
    "sent back by w", "sent back by i", "given up by w", "given up by i", "no end by w", "no end by i",
    "the writer's job commits later", "a committed write in between", "the reader's own write in between",
    "several writers", "a later writer commits", "a later writer has ended",
    "several readers", "a later read commits first", "knotted true", "knotted false",
    "reader 1", "reader 255", "writer 1", "writer 255", "cell 0", "cell 63",
    "sent back just before the read", "given up just before the read", "the writer commits",
    "its own write, sent back", "i in place of the read", "w in place of the read",
    "read, sent back", "read, given up", "read, no end", "the read just before", "another cell",
];

/// In how many texts each was found; each of those wanted in so many at least.
fn count(texts: impl Iterator<Item = Vec<u8>>, least: usize, wanted: &[&str]) {
    let mut counts: BTreeMap<String, usize> = BTreeMap::new();
    for text in texts {
        for found in shows(&text) {
            *counts.entry(found).or_insert(0) += 1;
        }
    }
    for &what in wanted {
        let count = counts.get(what).copied().unwrap_or(0);
        assert!(count >= least, "{what} in {count} texts: {counts:?}");
    }
}

fn history(seed: u64, lines: usize) -> Vec<u8> {
    made(&["make", "histories", &seed.to_string(), &lines.to_string()])
}

/// The cases of a seed: the places lent, and the history.
fn all_cases(seed: u64) -> Vec<(usize, Vec<u8>)> {
    let input = made(&["make", "cases", &seed.to_string(), "64"]);
    let mut all: Vec<(usize, Vec<u8>)> = Vec::new();
    for line in input.split_inclusive(|&byte| byte == b'\n') {
        if line[0] == CASE_MARK {
            all.push((places_of(line), Vec::new()));
        } else if let Some((_, text)) = all.last_mut() {
            text.extend(line);
        }
    }
    all
}

/// The histories of those that lend enough.
fn cases(seed: u64) -> impl Iterator<Item = Vec<u8>> {
    all_cases(seed).into_iter().filter(|case| case.0 >= HISTORY_JOBS).map(|case| case.1)
}

#[test]
fn histories_have_all_dirt_and_all_near_misses() {
    count((0..800).map(|seed| history(seed, [60, 200, 400][seed as usize % 3])), 5, WANTED);
}

#[test]
fn cases_have_all_dirt_and_all_near_misses() {
    count((0..40).flat_map(cases).filter(|text| text.len() < 6_000), 5, WANTED);
}

#[test]
fn short_buffers_are_lent_for_dirty_histories() {
    let short = (0..30).flat_map(all_cases).filter(|case| case.0 < HISTORY_JOBS);
    let dirty = short.filter(|case| word_of(&case.1) == "dirty").count();
    assert!(dirty > 10, "{dirty} cases");
}

#[test]
fn full_cases_are_of_every_verdict() {
    let full = |text: &Vec<u8>| text.split_inclusive(|&byte| byte == b'\n').count() == HISTORY_LINES;
    let words: Vec<String> = (0..16).flat_map(cases).filter(full).map(|text| word_of(&text)).collect();
    for word in ["orderly", "knot", "dirty"] {
        assert!(words.iter().filter(|&found| found == word).count() > 4, "{word}: {words:?}");
    }
}

/// The edges of the committed part, and whether they make a knot.
fn edges(events: &[Line]) -> (Edges, bool) {
    let mut history = History::empty();
    events.iter().for_each(|&event| history.take(event));
    (edges_of(&history), matches!(decide(&history, &mut [0; HISTORY_JOBS]), Verdict::Knot(_)))
}

#[test]
fn mended_ones_are_clean_and_keep_their_edges() {
    let mut changed = [0; 3];
    for seed in 0..60 {
        let mut chance = Chance(seed);
        let (wanted, count) = (chance.between(2, 255), chance.between(20, 900));
        let made = [
            ranked_history(&mut chance, count),
            knot_history(&mut chance, wanted, count),
            loose_history(&mut chance, count),
        ];
        for (shape, before) in made.into_iter().enumerate() {
            let mut events = before.clone();
            mend(&mut chance, &mut events, &[]);
            assert_eq!(first_dirty(&events), None, "seed {seed}");
            assert!(events.iter().zip(&before).all(|(now, was)| now.job == was.job), "seed {seed}");
            let ((old, _), (new, knotted)) = (edges(&before), edges(&events));
            let kept = old.iter().flatten().zip(new.iter().flatten()).all(|(old, new)| old <= new);
            assert!(kept && events.len() == before.len(), "seed {seed}: an edge or a line is gone");
            assert!(shape == 2 || knotted == (shape == 1), "seed {seed}: orderly or a knot no more");
            changed[shape] += usize::from(events != before);
        }
        let before = desk_history(seed, count, 255);
        let mut events = before.clone();
        mend(&mut chance, &mut events, &[]);
        assert_eq!(events, before, "seed {seed}: the desk's own");
    }
    assert!(changed.iter().all(|&count| count > 20), "{changed:?}");
}

#[test]
fn spots_among_other_lines() {
    for seed in 0..120 {
        let mut chance = Chance(seed);
        let count = chance.between(0, 400);
        for body in [ranked_history, loose_history, knotted_history] {
            let near = with_dirt(&mut chance, Dirt::Near, count, body);
            assert_eq!((near.len(), first_dirty(&near)), (count, None), "seed {seed}");
            let room = count.max(12);
            let few = |chance: &mut Chance, lines: usize| body(chance, lines.min(60));
            let dirty = with_dirt(&mut chance, Dirt::Dirty, room, few);
            assert!(dirty.len() == room && first_dirty(&dirty).is_some(), "seed {seed}");
        }
    }
}

/// The histories that `./test` compares for S13 are what it takes them for.
#[test]
fn the_full_ones_of_the_gate() {
    let near = |seed: u64| Look::of(&history_of(&history(seed, HISTORY_LINES)).0.lines).near().len();
    for (seed, lines, word) in [
        (49, 4_096, "orderly"),
        (99, 4_096, "knot"),
        (88, 4_096, "dirty"),
        (72, 4_096, "orderly"),
        (48, 4_097, "no"),
    ] {
        assert_eq!(word_of(&history(seed, lines)), word, "{seed} {lines}");
    }
    assert_eq!(verdict_line(&history(48, 4_097)), b"no\t4097\t11\n");
    assert_eq!(first_dirty(&history_of(&history(88, 4_096)).0.lines), Some((4_094, 0)));
    assert!(near(72) >= 8 && near(49) >= 8, "{} and {} near misses", near(72), near(49));
}
