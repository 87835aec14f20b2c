//! The makers for the timestamp desk (02, No. 6): the same bytes for ever, and all that is wanted comes up.

use super::makers::hash;
use super::{made, printed, shown};
use crate::commands::{read_step, verdict_line};
use crate::desk::{Answer, Outcome};
use crate::lines::read_request;
use crate::stamps::Stamps;
use crate::words::*;
use std::collections::{BTreeMap, BTreeSet};

#[test]
fn same_seed_same_bytes_for_ever() {
    let all = |words: &[&str]| -> Vec<u8> {
        let of = |seed: u64| made(&[&words[..2], &[&seed.to_string()], &words[2..]].concat());
        (0..24).flat_map(of).collect()
    };
    let found = [
        hash(&all(&["make", "stamps", "700"])),
        hash(&all(&["make", "stamp_steps", "700"])),
        hash(&all(&["make", "stamp_steps", "700", "4294967200"])),
    ];
    assert_eq!(found, PINNED, "the makers' bytes have changed");
    let steps = |first: &str| made(&["make", "stamp_steps", "3", "50", first]);
    assert_eq!(steps("0"), steps("1"));
    assert_eq!(printed(&["make", "stamps", "3", "50", "1"], b"").1, 2);
}

/// Pinned bytes: the hashes of what the makers make.
const PINNED: [u64; 3] = [10177379336457937111, 17483632770063681482, 16367411603112764755];

/// What is remembered of a text: the desk, and the requests sent back lately, by job.
struct Past {
    desk: Stamps,
    back: BTreeMap<u32, Line>,
    last_back: Option<Line>,
}

/// What one step shows of the features wanted.
fn features(past: &Past, asked: Line, outcome: &Outcome) -> Vec<String> {
    let Line { letter, job, cell } = asked;
    let name = char::from(letter);
    let mut found = Vec::new();
    match outcome.answer {
        Answer::No(number) => {
            found.push(format!("no {number}"));
            found.extend(
                past.back.contains_key(&job).then(|| format!("{name} of one sent back, no {number}")),
            );
            found.extend((has_cell(letter) && cell > 63).then(|| format!("cell above 63, no {number}")));
        }
        Answer::Go(_) if !has_cell(letter) => found.push(format!("{name} goes")),
        Answer::Go(_) => {
            let marks = past.desk.cells[cell as usize];
            found.push(format!("{name} goes"));
            found.extend((marks.reader == job).then(|| format!("{name} goes, the reader number is its own")));
            found.extend((marks.writer == job).then(|| format!("{name} goes, the writer number is its own")));
            found.extend((marks.reader > job).then(|| format!("{name} goes below a reader number")));
            let anew = past.last_back.is_some_and(|last| last.job < job && Line { job, ..last } == asked);
            found.extend(anew.then(|| format!("{name} begun anew goes")));
        }
        Answer::Back(_) => {
            let marks = past.desk.cells[cell as usize];
            let by = match (marks.reader > job, marks.writer > job) {
                (true, true) => "both numbers",
                (true, false) => "the reader number",
                _ => "the writer number",
            };
            found.push(format!("{name} back by {by}"));
            found.extend((marks.reader.max(marks.writer) == job + 1).then(|| format!("{name} back by one")));
            let younger = past.desk.jobs.iter().filter(|&&other| other > job).count();
            found.extend((younger > 8).then(|| format!("{name} back, and late")));
        }
        Answer::Wait(_) => found.push("wait".to_string()),
    }
    found
}

#[rustfmt::skip]
const WANTED: &[&str] = &[
    "b goes", "c goes", "a goes", "r goes", "w goes", "i goes", "u goes",
    "r goes, the reader number is its own", "r goes, the writer number is its own",
    "w goes, the reader number is its own", "w goes, the writer number is its own",
    "i goes, the reader number is its own", "i goes, the writer number is its own",
    "u goes, the reader number is its own", "u goes, the writer number is its own",
    "r goes below a reader number", "u goes below a reader number",
    "r back by the writer number", "r back by both numbers", "u back by both numbers",
    "w back by the reader number", "w back by both numbers", "i back by the reader number",
    "i back by both numbers", "r back by one", "w back by one", "i back by one",
    "r back, and late", "w back, and late", "i back, and late",
    "no 2", "no 3", "no 6", "no 19", "cell above 63, no 2", "cell above 63, no 3",
    "t of one sent back, no 3", "w of one sent back, no 3", "32 open",
];

/// Of all seeds together some show these.
#[rustfmt::skip]
const SELDOM: &[&str] = &[
    "w back by the writer number", "i back by the writer number", "u back by the writer number",
    "u back by one", "u back, and late", "r begun anew goes", "w begun anew goes", "i begun anew goes",
    "u begun anew goes", "r of one sent back, no 3", "i of one sent back, no 3", "u of one sent back, no 3",
    "c of one sent back, no 3", "a of one sent back, no 3",
];

/// The features of a text of so many requests, read by `read`, and how often an ask went and went back.
fn found_in(
    first: u32,
    input: &[u8],
    read: impl Fn(&[u8]) -> Option<Line>,
) -> (BTreeSet<String>, [usize; 2]) {
    let mut past = Past { desk: Stamps::start(first).unwrap(), back: BTreeMap::new(), last_back: None };
    let (mut found, mut asks) = (BTreeSet::new(), [0; 2]);
    for line in input.split_inclusive(|&byte| byte == b'\n') {
        let Some(asked) = read(line) else {
            found.insert("no 9".to_string());
            continue;
        };
        let mut after = past.desk.clone();
        let outcome = after.step(asked);
        found.extend(features(&past, asked, &outcome));
        asks[0] += usize::from(matches!(outcome.answer, Answer::Go(_)) && has_cell(asked.letter));
        if let Answer::Back(job) = outcome.answer {
            asks[1] += 1;
            past.back.insert(job, asked);
            past.last_back = Some(asked);
        }
        past.desk = after;
        found.extend((past.desk.jobs.len() == PLACES).then(|| "32 open".to_string()));
    }
    found.extend((!input.ends_with(b"\n")).then(|| "torn".to_string()));
    (found, asks)
}

/// In how many of 40 seeds each feature was found, and the share of asks that went back, in percents.
fn counted(found_in: impl Fn(u64) -> (BTreeSet<String>, [usize; 2])) -> (BTreeMap<String, usize>, usize) {
    let mut counts = BTreeMap::new();
    let mut all = [0; 2];
    for seed in 0..40 {
        let (found, asks) = found_in(seed);
        found.into_iter().for_each(|feature| *counts.entry(feature).or_insert(0) += 1);
        all = [all[0] + asks[0], all[1] + asks[1]];
    }
    (counts, 100 * all[1] / (all[0] + all[1]))
}

fn all_found(counts: &BTreeMap<String, usize>, wanted: &[&str], least: usize) {
    for &feature in wanted {
        let count = counts.get(feature).copied().unwrap_or(0);
        assert!(count >= least, "{feature} found in {count} of 40 seeds: {counts:?}");
    }
    for never in ["wait", "no 4", "no 5", "no 8"] {
        assert!(!counts.contains_key(never), "{never}");
    }
}

#[test]
fn lines_reach_every_feature() {
    let (counts, back) = counted(|seed| {
        let input = made(&["make", "stamps", &seed.to_string(), "600"]);
        assert_eq!(input.split_inclusive(|&byte| byte == b'\n').count(), 600);
        found_in(1, &input, |line| read_request(line).ok())
    });
    all_found(&counts, WANTED, 21);
    all_found(&counts, SELDOM, 4);
    assert!((20..=33).contains(&back), "{back} percent of the asks go back");
    assert!(counts["no 9"] > 20 && counts["no 9"] < 40 && counts["torn"] > 3 && counts["torn"] < 20);
    assert!(!counts.contains_key("no 1") && !counts.contains_key("no 7"));
}

#[test]
fn steps_reach_every_feature() {
    let of = |first: u32| {
        counted(|seed| {
            let input = made(&["make", "stamp_steps", &seed.to_string(), "600", &first.to_string()]);
            found_in(first, &input, |line| Some(read_step(line).expect("a step")))
        })
    };
    let (counts, back) = of(1);
    all_found(&counts, WANTED, 21);
    all_found(&counts, SELDOM, 4);
    all_found(&counts, &["no 1"], 21);
    assert!((20..=33).contains(&back), "{back} percent of the asks go back");
    let (counts, _) = of(LAST_NUMBER - 60);
    let near =
        ["no 1", "no 2", "no 3", "no 7", "no 19", "r goes", "w goes", "w back by both numbers", "c goes"];
    all_found(&counts, &near, 21);
    all_found(&counts, &["no 6", "32 open"], 8);
}

#[test]
fn histories_dirty_and_clean() {
    let mut counts: BTreeMap<String, usize> = BTreeMap::new();
    for seed in (0..60u64).map(|seed| seed.to_string()) {
        let (history, _) = printed(&["stamp_history"], &made(&["make", "stamps", &seed, "500"]));
        let verdict = shown(&verdict_line(&history));
        let words: Vec<&str> = verdict.trim_end().split('\t').collect();
        *counts.entry(words[0].to_string()).or_insert(0) += 1;
        *counts.entry(format!("{}, long", words[0])).or_insert(0) += usize::from(words.len() > 15);
    }
    assert!(counts["dirty"] > 20 && counts["orderly, long"] > 10, "{counts:?}");
    assert!(!counts.contains_key("knot"), "{counts:?}");
}
