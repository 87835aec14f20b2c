//! The judge, also by cases and against brute force.

use super::dirty::told_by_runs;
use super::{check_verdict, made, printed, shown, text};
use crate::judge::{judge, Verdict};
use crate::lines::put_event;
use crate::make::Chance;
use crate::words::*;
use std::collections::{BTreeMap, BTreeSet};

#[test]
fn judge_refusals_in_their_order() {
    check_verdict("r 1 64 1", "no 1 9 4");
    check_verdict("r 256 64", "no 1 12");
    check_verdict("c 1, r 0 5", "no 2 12");
    check_verdict("c 1, r 1 64", "no 2 2");
    check_verdict("a 1, r 1 63", "no 2 13");
    check_verdict("c 255, k 255", "no 2 13");
    check_verdict("a 9, c 9", "no 2 13");
    check_verdict("k 9, k 9, b", "no 3 9 1");
    assert_eq!(shown(&printed(&["verdict"], b"c\t1\nc\t1").0), "no\t2\t9\t4\n");
    let mut order = [7; 300];
    assert_eq!(
        judge(b"c\t1\nc\t2\nc\t1\n", &mut order),
        Verdict::No { line: 3, refusal: 13, field: None, text: b"c\t1" }
    );
    assert_eq!(order, [7; 300]);
}

#[test]
fn verdict_reads_65536_bytes() {
    let line = vec![b'x'; 65_535];
    assert_eq!(shown(&printed(&["verdict"], &[&line[..], b"\n"].concat()).0), "no\t1\t9\t1\n");
    assert_eq!(shown(&printed(&["verdict"], &[&line[..], b"\nc"].concat()).0), "no\t0\t16\n");
    assert_eq!(shown(&printed(&["verdict"], &b"\n".repeat(1 << 20)).0), "no\t0\t16\n");
}

#[test]
fn judged_cases() {
    // Actions before the last `k` and of jobs without a `c` do not count; a job with a
    // `c` alone does.
    check_verdict(
        "w 1 0, w 2 0, w 1 1, k 1, w 1 0, w 3 0, w 2 1, c 200, c 2, c 1, a 3",
        "orderly 2 1 200",
    );
    check_verdict("w 1 0, w 2 0, w 2 1, w 1 1, c 2, c 1", "knot 1 2");
    // The smallest that may stand, at each place.
    check_verdict("w 3 0, w 1 0, c 1, c 2, c 3", "orderly 2 3 1");
    // The walk starts at 1, which is off the cycle; the list runs along the edges.
    check_verdict(
        "w 4 0, w 7 0, w 7 1, w 5 1, w 5 2, w 4 2, w 5 3, w 1 3, c 1, c 4, c 5, c 7",
        "knot 4 7 5",
    );
    // Only predecessors that remain count: 2 stands before the cycle and is taken away.
    check_verdict("r 2 0, w 3 0, w 4 0, w 4 1, w 3 1, c 2, c 3, c 4", "knot 3 4");
    let mut order = [9; 256];
    assert_eq!(judge(&text("w 3 0, w 1 0, c 1, c 2, c 3"), &mut order), Verdict::Orderly(3));
    assert_eq!(order[..5], [2, 3, 1, 9, 9]);
}

/// The first list of all `jobs`, in the order of lists, in which every edge goes forward.
fn first_order(jobs: &[u32], edges: &[(u32, u32)]) -> Option<Vec<u32>> {
    if jobs.is_empty() {
        return Some(Vec::new());
    }
    for &job in jobs {
        if edges.iter().all(|&(from, to)| to != job || !jobs.contains(&from)) {
            let rest: Vec<u32> = jobs.iter().copied().filter(|&other| other != job).collect();
            return first_order(&rest, edges).map(|order| [vec![job], order].concat());
        }
    }
    None
}

/// A short history of the jobs 1 to `many` on three cells, all committed at its end.
fn short_history(chance: &mut Chance, many: usize) -> Vec<Line> {
    let mut events = Vec::new();
    for _ in 0..chance.between(3, 14) {
        let letter = chance.of(b"rrwwik");
        let job = chance.between(1, many) as u32;
        events.push(Line { letter, job, cell: chance.below(3) as u32 });
    }
    events.extend((1..=many as u32).map(|job| Line { letter: COMMIT, job, cell: 0 }));
    events
}

/// The edges of the committed part, by looking at every two lines.
fn edges_by_pairs(events: &[Line]) -> Vec<(u32, u32)> {
    let counts = |at: usize| {
        let back = |event: &Line| event.job == events[at].job && event.letter == b'k';
        has_cell(events[at].letter) && !events[at..].iter().any(back)
    };
    let mut edges = Vec::new();
    for later in (0..events.len()).filter(|&at| counts(at)) {
        for earlier in (0..later).filter(|&at| counts(at)) {
            let (one, two) = (events[earlier], events[later]);
            let kinds = [one.letter, two.letter];
            if one.cell == two.cell && one.job != two.job && kinds != *b"rr" && kinds != *b"ii" {
                edges.push((one.job, two.job));
            }
        }
    }
    edges
}

#[test]
fn judge_against_brute_force() {
    let (mut orders, mut knots, mut dirty) = (0, 0, 0);
    for seed in 0..400 {
        let mut chance = Chance(seed);
        let many = chance.between(2, 6);
        let events = short_history(&mut chance, many);
        let jobs: Vec<u32> = (1..=many as u32).collect();
        let edges = edges_by_pairs(&events);
        let mut text = Vec::new();
        events.iter().for_each(|&event| put_event(&mut text, event));
        let mut order = [0; 255];
        match (judge(&text, &mut order), told_by_runs(&events), first_order(&jobs, &edges)) {
            (Verdict::Dirty { reader, writer }, Some(told), _) => {
                dirty += 1;
                assert_eq!((reader.into(), writer.into()), told);
            }
            (Verdict::Orderly(count), None, Some(wanted)) => {
                orders += 1;
                assert!(wanted.into_iter().eq(order[..count].iter().map(|&job| u32::from(job))));
            }
            (Verdict::Knot(count), None, None) => {
                knots += 1;
                let cycle = &order[..count];
                assert!(count >= 2 && cycle[1..].iter().all(|job| cycle[0] < *job));
                let edge = |at: usize| (cycle[at].into(), cycle[(at + 1) % count].into());
                assert!((0..count).all(|at| edges.contains(&edge(at))), "{cycle:?}");
            }
            (verdict, told, wanted) => {
                panic!("seed {seed}: {verdict:?}, but brute force {told:?}, {wanted:?}")
            }
        }
    }
    assert!(orders > 50 && knots > 50 && dirty > 25, "{orders} orders, {knots} knots, {dirty} dirty");
}

// ---- the judge by cases

#[test]
fn cases_one_after_another() {
    let input =
        "c\t9\n= 255\nw\t2\t0\nw\t1\t0\nc\t1\nc\t2\n= 254\nx\n=300\n=255\nc\t1\n\n= 9999\nr\t1\t0";
    let wanted = "orderly\t2\t1\nno\t0\t14\norderly\nno\t2\t9\t1\nline\t\nno\t1\t9\t4\nline\tr\t1\t0\n";
    let (output, status) = printed(&["cases"], input.as_bytes());
    assert_eq!((shown(&output).as_str(), status), (wanted, 0));
    assert_eq!(printed(&["cases"], b"= 255\nc\t3\n= 25").0, b"orderly\t3\n");
    assert_eq!(printed(&["cases"], b"").0, b"");
}

#[test]
fn cases_up_to_their_length() {
    let full = [b"= 255\n".to_vec(), vec![b'7'; HISTORY_BYTES - 1], b"\n".to_vec()].concat();
    let line = [b"no\t1\t9\t1\nline\t".to_vec(), vec![b'7'; HISTORY_BYTES - 1], b"\n".to_vec()].concat();
    assert_eq!(printed(&["cases"], &full).0, line);
    let more = [b"= 255\n".to_vec(), vec![b'7'; HISTORY_BYTES], b"\n= 3\n".to_vec()].concat();
    assert_eq!(printed(&["cases"], &more).0, b"no\t0\t16\nno\t0\t14\n");
}

#[test]
fn cases_reach_every_verdict() {
    let mut counts: BTreeMap<String, usize> = BTreeMap::new();
    let mut lengths = BTreeSet::new();
    for seed in 0..30u64 {
        let input = made(&["make", "cases", &seed.to_string(), "64"]);
        let headers = input.split(|&byte| byte == b'\n').filter(|line| line.starts_with(b"= "));
        assert_eq!(headers.count(), 64);
        assert_eq!(input.ends_with(b"\n"), seed % 2 == 0);
        for line in shown(&printed(&["cases"], &input).0).lines() {
            let words: Vec<&str> = line.split('\t').collect();
            let word = if words[0] == "no" { format!("no {}", words[2]) } else { words[0].to_string() };
            *counts.entry(word).or_insert(0) += 1;
            if words[0] == "knot" {
                lengths.insert(words.len() - 1);
            }
        }
    }
    for wanted in ["orderly", "knot", "dirty", "no 2", "no 9", "no 11", "no 12", "no 13", "no 14", "line"] {
        let count = counts.get(wanted).copied().unwrap_or(0);
        assert!(count >= 20, "{wanted} in {count} of 1920 cases: {counts:?}");
    }
    assert!(["orderly", "knot", "dirty"].iter().all(|&word| counts[word] > 200), "{counts:?}");
    assert!(lengths.len() > 100, "knots of {lengths:?}");
    assert!([2, 3, 63, 64, 254, 255].iter().all(|length| lengths.contains(length)), "{lengths:?}");
}
