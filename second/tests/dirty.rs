//! Dirty histories (02, No. 2): the judge.

use super::{check_verdict, printed, shown, text};
use crate::demands::Watch;
use crate::judge::{first_dirty, judge, Verdict};
use crate::lines::read_history;
use crate::make::dirt::{spot_lines, DIRTY, NEAR};
use crate::make::histories::desk_history;
use crate::make::Chance;
use crate::words::*;
use std::cmp::Reverse;
use std::collections::BTreeMap;

/// A run with its actions and its end, each with its place.
struct Run {
    job: u32,
    actions: Vec<(usize, Line)>,
    end: Option<(usize, u8)>,
}

fn runs_of(lines: &[Line]) -> Vec<Run> {
    let mut ended = Vec::new();
    let mut open: BTreeMap<u32, Run> = BTreeMap::new();
    for (at, &line) in lines.iter().enumerate() {
        let new = Run { job: line.job, actions: Vec::new(), end: None };
        let run = open.entry(line.job).or_insert(new);
        if has_cell(line.letter) {
            run.actions.push((at, line));
        } else {
            run.end = Some((at, line.letter));
            ended.extend(open.remove(&line.job));
        }
    }
    ended.extend(open.into_values());
    ended
}

/// Reader and writer told, found run by run: of all dirty reads with all their writes the one that comes
/// first, by the read's place and then from the latest write back.
pub fn told_by_runs(lines: &[Line]) -> Option<(u32, u32)> {
    let runs = runs_of(lines);
    let (committed, lost): (Vec<&Run>, Vec<&Run>) =
        runs.iter().partition(|run| run.end.is_some_and(|(_, letter)| letter == b'c'));
    let mut told = Vec::new();
    for reader in &committed {
        for writer in lost.iter().filter(|writer| writer.job != reader.job) {
            let end = writer.end.map_or(lines.len(), |(at, _)| at);
            for (at, read) in reader.actions.iter().filter(|(at, read)| read.letter == b'r' && *at < end) {
                let writes = writer.actions.iter().filter(|(place, write)| {
                    place < at && write.cell == read.cell && (write.letter == b'w' || write.letter == b'i')
                });
                told.extend(writes.map(|(place, _)| (*at, Reverse(*place), reader.job, writer.job)));
            }
        }
    }
    told.into_iter().min().map(|(_, _, reader, writer)| (reader, writer))
}

#[test]
fn a_picture_that_was_taken_back() {
    check_verdict("w 1 0, r 2 0, k 1, c 2", "dirty 2 1");
    check_verdict("w 1 0, r 2 0, c 2, k 1", "dirty 2 1");
    check_verdict("i 255 63, r 1 63, a 255, c 1", "dirty 1 255");
    check_verdict("i 1 0, r 255 0, c 255, a 1", "dirty 255 1");
    check_verdict("w 1 0, r 2 0, c 2", "dirty 2 1");
    check_verdict("i 1 0, r 2 0, c 2", "dirty 2 1");
    // The writer's job may commit in a later run.
    check_verdict("w 1 0, r 2 0, k 1, c 1, c 2", "dirty 2 1");
    check_verdict("w 1 0, r 2 0, k 1, w 1 0, c 1, c 2", "dirty 2 1");
    // A committed write in between does not cleanse, nor does the reader's own.
    check_verdict("w 1 0, w 3 0, c 3, r 2 0, c 2, a 1", "dirty 2 1");
    check_verdict("w 1 0, w 2 0, r 2 0, c 2, a 1", "dirty 2 1");
    // A run without an end does not commit, for every later read.
    check_verdict("w 1 0, w 3 0, c 3, r 4 0, c 4, w 5 0, c 5, r 2 9, c 2", "dirty 4 1");
    // A run begins after its job's `k`.
    check_verdict("r 2 0, k 2, w 1 0, r 2 0, c 2, k 1", "dirty 2 1");
    check_verdict("w 1 0, k 1, k 1, w 1 0, r 2 0, c 2, k 1", "dirty 2 1");
}

#[test]
fn the_first_read_and_the_latest_writer() {
    check_verdict("w 1 0, w 3 0, r 2 0, c 2, a 1, a 3", "dirty 2 3");
    check_verdict("w 3 0, i 1 0, r 2 0, c 2, a 1, a 3", "dirty 2 1");
    check_verdict("w 1 0, w 3 0, w 1 0, r 2 0, c 2", "dirty 2 1");
    check_verdict("w 1 0, w 3 0, k 3, r 2 0, c 2, a 1", "dirty 2 1");
    check_verdict("w 1 0, w 3 0, r 2 0, c 3, c 2, a 1", "dirty 2 1");
    check_verdict("w 1 0, w 3 1, r 2 0, c 2, a 1, a 3", "dirty 2 1");
    check_verdict("w 1 0, w 2 0, k 2, r 2 0, c 2, a 1", "dirty 2 1");
    // The read counts, and not the commit, the job or the write.
    check_verdict("w 1 0, r 3 0, r 2 0, c 2, c 3, k 1", "dirty 3 1");
    check_verdict("w 1 0, w 4 1, r 3 1, r 2 0, c 2, c 3", "dirty 3 4");
    check_verdict("w 1 0, r 2 0, w 3 0, r 2 0, c 2, a 1, a 3", "dirty 2 1");
    check_verdict("w 1 0, r 3 0, r 2 0, k 3, c 2, c 3, k 1", "dirty 2 1");
    check_verdict("w 1 0, i 3 0, r 2 0, c 3, c 2, k 1", "dirty 2 1");
    // Of the writers neither the largest nor the one whose run began last.
    check_verdict("w 1 9, w 7 1, w 4 0, w 1 0, r 6 0, r 2 1, c 2, c 6, a 1, a 4, a 7", "dirty 6 1");
}

#[test]
fn near_misses() {
    // The run has ended just before the read.
    check_verdict("w 1 0, k 1, r 2 0, c 2", "orderly 2");
    check_verdict("i 1 0, a 1, r 2 0, c 2", "orderly 2");
    check_verdict("w 1 0, k 1, r 2 0, c 1, c 2", "orderly 1 2");
    check_verdict("w 1 0, k 1, r 1 0, r 2 0, a 1, c 2", "orderly 2");
    // The writer commits, before the reader or after it.
    check_verdict("w 3 0, r 2 0, c 3, c 2", "orderly 3 2");
    check_verdict("i 3 0, r 2 0, c 2, c 3", "orderly 3 2");
    check_verdict("w 3 0, k 3, w 3 0, r 2 0, c 3, c 2", "orderly 3 2");
    // A job's read after its own sent back write.
    check_verdict("w 2 0, k 2, r 2 0, c 2", "orderly 2");
    check_verdict("i 2 0, r 2 0, k 2, r 2 0, c 2", "orderly 2");
    // An increment and a write are no reads.
    check_verdict("w 1 0, i 2 0, c 2, k 1", "orderly 2");
    check_verdict("i 1 0, i 2 0, c 2, a 1", "orderly 2");
    check_verdict("w 1 0, w 2 0, c 2, k 1", "orderly 2");
    // The read's own run does not commit.
    check_verdict("w 1 0, r 2 0, k 2, c 2, k 1", "orderly 2");
    check_verdict("w 1 0, r 2 0, a 2, k 1", "orderly");
    check_verdict("w 1 0, r 2 0, k 1", "orderly");
    // The read stands before the write; another cell; the other has only read.
    check_verdict("r 2 0, w 1 0, c 2, k 1", "orderly 2");
    check_verdict("w 1 0, r 2 1, c 2, k 1", "orderly 2");
    check_verdict("r 1 0, r 2 0, c 2, k 1", "orderly 2");
    // And a knot is a knot with all that in it.
    check_verdict("w 9 0, w 8 5, k 9, r 1 0, r 2 0, w 1 0, r 8 0, w 2 0, c 1, c 2", "knot 1 2");
}

#[test]
fn the_order_of_answers() {
    let dirty = "w 1 0, r 2 0, k 1, c 2";
    let knot = "r 3 1, r 4 1, w 3 1, w 4 1, c 3, c 4";
    check_verdict(&format!("{knot}, {dirty}"), "dirty 2 1");
    check_verdict(&format!("{dirty}, {knot}"), "dirty 2 1");
    for (fault, refusal) in [("x", "9 1"), ("r 256 0", "12"), ("r 7 64", "2"), ("k 2", "13")] {
        check_verdict(&format!("{dirty}, {fault}, {knot}"), &format!("no 5 {refusal}"));
    }
    assert_eq!(
        judge(&text(dirty), &mut [7; 254]),
        Verdict::No { line: 0, refusal: BUFFER_SHORT, field: None, text: b"" }
    );
    let full = [text(dirty), b"r\t1\t0\n".repeat(4_092)].concat();
    assert_eq!(judge(&full, &mut [7; 255]), Verdict::Dirty { reader: 2, writer: 1 });
    let more = [&full[..], b"c\t1\n"].concat();
    assert_eq!(
        judge(&more, &mut [7; 255]),
        Verdict::No { line: 4_097, refusal: 11, field: None, text: b"c\t1" }
    );
    let long = [text(dirty), vec![b'7'; HISTORY_BYTES]].concat();
    assert_eq!(shown(&printed(&["verdict"], &long).0), "no\t0\t16\n");
    let late = [b"k\t9\n".repeat(4_093), text("w 1 0, r 2 0, c 2")].concat();
    assert_eq!(judge(&late, &mut [7; 255]), Verdict::Dirty { reader: 2, writer: 1 });
}

#[test]
fn the_first_two_places() {
    let dirty = text("w 255 63, r 1 63, c 1, c 7, c 8, c 9");
    for places in [255, 256, 300] {
        let mut order = vec![9; places];
        assert_eq!(judge(&dirty, &mut order), Verdict::Dirty { reader: 1, writer: 255 });
        assert_eq!(order[..2], [1, 255]);
        assert!(order[2..].iter().all(|&place| place == 9));
    }
    let mut order = [9; 300];
    judge(&text("w 1 0, r 2 0, c 2, c 2"), &mut order);
    assert_eq!(order, [9; 300]);
    let cases = ["= 255\n", "= 254\n", "= 300\n"].map(|header| [header.as_bytes(), &dirty].concat());
    let cases = [cases.concat(), b"k\t9\n".to_vec()].concat();
    let wanted = "dirty\t1\t255\nno\t0\t14\nno\t7\t13\nline\tk\t9\n";
    assert_eq!(shown(&printed(&["cases"], &cases).0), wanted);
}

/// The lists of jobs and cells that a spot takes from, W and R first.
fn spot(spot: &str, jobs: [u32; 5], cells: [u32; 3]) -> Vec<Line> {
    let reversed = |list: &[u32]| list.iter().rev().copied().collect::<Vec<u32>>();
    spot_lines(spot, &mut reversed(&jobs), &mut reversed(&cells)).expect("enough for every spot")
}

#[test]
fn spots_are_what_they_are_said_to_be() {
    let told = |lines: &[Line]| {
        let found = first_dirty(lines).map(|(read, write)| (lines[read].job, lines[write].job));
        assert_eq!(found, told_by_runs(lines), "{lines:?}");
        found
    };
    for (jobs, cells) in [([1, 2, 3, 4, 5], [0, 1, 2]), ([255, 1, 9, 8, 7], [63, 0, 62])] {
        for words in DIRTY {
            assert_eq!(told(&spot(words, jobs, cells)), Some((jobs[1], jobs[0])), "{words}");
        }
        for words in NEAR {
            assert_eq!(told(&spot(words, jobs, cells)), None, "{words}");
        }
    }
}

/// A short history of few jobs on two cells.
fn dense_history(chance: &mut Chance) -> Vec<Line> {
    let mut jobs: Vec<u32> = (1..=chance.between(2, 5) as u32).collect();
    let mut lines = Vec::new();
    for _ in 0..chance.between(3, 24) {
        let (letter, job) = (chance.of(b"rrrwwikca"), chance.of(&jobs));
        lines.push(Line { letter, job, cell: chance.below(2) as u32 });
        if matches!(letter, COMMIT | GIVE_UP) {
            jobs.retain(|&open| open != job);
        }
        if jobs.is_empty() {
            return lines;
        }
    }
    let left = jobs.into_iter().filter(|_| chance.percent(70));
    lines.extend(left.map(|job| Line { letter: COMMIT, job, cell: 0 }));
    lines
}

#[test]
fn dirty_against_brute_force() {
    let mut dirty = 0;
    for seed in 0..4_000 {
        let lines = dense_history(&mut Chance(seed));
        let found = first_dirty(&lines).map(|(read, write)| (lines[read].job, lines[write].job));
        assert_eq!(found, told_by_runs(&lines), "{lines:?}");
        dirty += u64::from(found.is_some());
    }
    assert!(dirty > 500, "{dirty} of 4000");
}

/// A watch that has seen a history.
fn watch(history: &[Line]) -> Watch {
    Watch { history: history.to_vec(), ..Watch::default() }
}

#[test]
fn the_demand_can_fail() {
    let lines = |history: &str| -> Vec<Line> {
        text(history).split_inclusive(|&byte| byte == b'\n').flat_map(read_history).collect()
    };
    for dirty in
        ["w 1 0, r 2 0, c 2", "i 1 0, r 2 0, k 1, c 2", "r 3 0, w 1 0, k 2, r 2 0, a 1, w 1 0, c 2"]
    {
        let found = watch(&lines(dirty)).no_dirty_read(2).expect_err("a violation to be seen");
        assert!(found.starts_with("dirty: Line { letter: 114, job: 2, cell: 0 }"), "{found}");
    }
    for clean in
        ["w 1 0, k 1, r 2 0, c 2", "w 1 0, r 2 0, c 1, c 2", "w 1 0, r 2 0, k 2, r 2 1, i 2 0, c 2"]
    {
        assert_eq!(watch(&lines(clean)).no_dirty_read(2), Ok(()), "{clean}");
    }
    let whole = watch(&lines("w 1 0, r 2 0, k 1, w 1 1, c 1, c 2"));
    assert!(whole.nowhere_dirty().is_err_and(|text| text.starts_with("dirty: ")));
    assert_eq!(whole.judged(), Err("e: the judge finds that 2 read what 1 took back".to_string()));
    assert!(whole.whole_history().is_err());
}

#[test]
fn only_a_commit_makes_a_history_dirty() {
    let mut seen = [0; 2];
    for seed in 0..2_000 {
        let lines = dense_history(&mut Chance(seed));
        for count in 1..=lines.len() {
            let (before, now) = (&lines[..count - 1], &lines[..count]);
            let (last, dirty) = (lines[count - 1], first_dirty(now).is_some());
            if first_dirty(before).is_none() {
                let told = last.letter == COMMIT && watch(now).no_dirty_read(last.job).is_err();
                assert_eq!(told, dirty, "{now:?}");
                seen[usize::from(dirty)] += 1;
            }
        }
    }
    assert!(seen.iter().all(|&count| count > 400), "{seen:?}");
}

#[test]
fn the_desk_is_dirty_at_no_moment() {
    for seed in 0..12 {
        let lines = desk_history(seed, 300, LAST_NUMBER);
        for count in 0..=lines.len() {
            assert_eq!(first_dirty(&lines[..count]), None, "seed {seed}, {count} lines");
        }
    }
}
