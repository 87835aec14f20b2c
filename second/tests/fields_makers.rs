//! The makers and the field at fault (02, No. 5): each field comes up for both readers, with a newline and
//! without, in short lines and in long ones, in every way.

use super::fields::is_number;
use super::made;
use crate::commands::CASE_MARK;
use crate::judge::{judge, Verdict};
use crate::lines::{read_history, read_request, Reader};
use crate::words::*;
use std::collections::BTreeMap;

type Counts = BTreeMap<String, usize>;

/// Counts one more of a kind.
fn seen(counts: &mut Counts, what: String) {
    *counts.entry(what).or_insert(0) += 1;
}

/// `2, no newline, long`: long is a line of more than 16 bytes, its newline left out.
fn bucket(field: u8, newline: bool, length: usize) -> String {
    let end = if newline { "newline" } else { "no newline" };
    format!("{field}, {end}, {}", if length > 16 { "long" } else { "short" })
}

fn all_buckets(what: &str, counts: &Counts) {
    for field in LETTER..=END {
        for (newline, length) in [(true, 1), (true, 99), (false, 1), (false, 99)] {
            let wanted = bucket(field, newline, length);
            assert!(counts.contains_key(&wanted), "{what}: no {wanted} in {counts:?}");
        }
    }
}

/// What a reader says of the bad lines of a text.
fn count_bad(counts: &mut Counts, input: &[u8], read: fn(&[u8]) -> Result<Line, u8>) {
    for line in input.split_inclusive(|&byte| byte == b'\n') {
        let text = line.strip_suffix(b"\n").unwrap_or(line);
        if let Err(field) = read(line) {
            seen(counts, bucket(field, text.len() < line.len(), text.len()));
        }
    }
}

/// What the judge says of a text that has a bad line before every other fault.
fn count_verdict(counts: &mut Counts, input: &[u8]) {
    if let Verdict::No { line, field: Some(field), text, .. } = judge(input, &mut [0; HISTORY_JOBS]) {
        let last = line == input.split_inclusive(|&byte| byte == b'\n').count();
        seen(counts, bucket(field, !last || input.ends_with(b"\n"), text.len()));
    }
}

#[test]
fn lines_reach_every_field_of_both_readers() {
    let (mut requests, mut events) = (Counts::new(), Counts::new());
    for seed in 0..400u64 {
        let input = made(&["make", "lines", &seed.to_string(), "40"]);
        assert_eq!(input.split_inclusive(|&byte| byte == b'\n').count(), 40);
        count_bad(&mut requests, &input, read_request);
        count_bad(&mut events, &input, read_history);
    }
    all_buckets("lines as requests", &requests);
    all_buckets("lines of histories", &events);
}

#[test]
fn requests_reach_every_field() {
    let mut counts = Counts::new();
    for seed in 0..2_000u64 {
        let input = made(&["make", "requests", &seed.to_string(), "20"]);
        count_bad(&mut counts, &input, read_request);
    }
    all_buckets("requests", &counts);
}

#[test]
fn histories_reach_every_field() {
    let mut counts = Counts::new();
    for seed in (0..1_500).chain((1_500..66_000).filter(|seed| seed % 33 == 31)) {
        let input = made(&["make", "histories", &seed.to_string(), "30"]);
        if input.len() <= HISTORY_BYTES {
            count_verdict(&mut counts, &input);
        }
    }
    all_buckets("histories", &counts);
}

#[test]
fn cases_reach_every_field() {
    let mut counts = Counts::new();
    for seed in 0..2_000u64 {
        // Kinds 11 and 15 have bad lines within; later seeds are for the last line of the last case.
        let count = if seed < 250 { 16 } else { 1 + seed % 10 };
        let input = made(&["make", "cases", &seed.to_string(), &count.to_string()]);
        let mut texts: Vec<Vec<u8>> = Vec::new();
        for line in input.split_inclusive(|&byte| byte == b'\n') {
            if line[0] == CASE_MARK {
                texts.push(Vec::new());
            } else {
                texts.last_mut().expect("a header").extend_from_slice(line);
            }
        }
        texts.iter().for_each(|text| count_verdict(&mut counts, text));
    }
    all_buckets("cases", &counts);
}

/// How far a line without its newline goes that is good so far.
fn stage(line: &[u8]) -> Option<String> {
    let mut reader = Reader::of(b"bcatrwiku");
    reader.take(line);
    let kind = match line[0] {
        BEGIN => "b",
        letter if has_cell(letter) => "r",
        _ => "c",
    };
    let tab = if reader.begun { "" } else { ", nothing of it" };
    reader.fault.is_none().then(|| format!("{kind} in field {}{tab}", reader.field))
}

#[test]
fn lines_break_off_at_every_stage() {
    let mut counts = Counts::new();
    let mut torn = 0;
    for seed in 0..400u64 {
        let input = made(&["make", "lines", &seed.to_string(), "5"]);
        let last = input.split_inclusive(|&byte| byte == b'\n').next_back().unwrap();
        if !last.ends_with(b"\n") {
            torn += 1;
            seen(&mut counts, stage(last).unwrap_or("faulty".to_string()));
        }
    }
    assert!(torn > 250 && torn < 350, "{torn} of 400");
    for wanted in [
        "b in field 1",
        "c in field 1",
        "c in field 2, nothing of it",
        "c in field 2",
        "r in field 1",
        "r in field 2, nothing of it",
        "r in field 2",
        "r in field 3, nothing of it",
        "r in field 3",
        "faulty",
    ] {
        assert!(counts.get(wanted).is_some_and(|&count| count > 3), "{wanted}: {counts:?}");
    }
}

/// The faulty fields of a line, each by itself; a line whose letter is bad is to have all of them.
fn faulty(line: &[u8]) -> Vec<u8> {
    let text = line.strip_suffix(b"\n").unwrap_or(line);
    let fields: Vec<&[u8]> = text.split(|&byte| byte == b'\t').collect();
    let good = matches!(fields[0], [letter] if REQUEST_LETTERS.contains(letter));
    let letter = if good { fields[0][0] } else { READ };
    let many = 1 + usize::from(has_job(letter)) + usize::from(has_cell(letter));
    let number = |at: usize, last: u64| fields.get(at).is_some_and(|field| is_number(field, last));
    let tests = [
        !good,
        many > 1 && !number(1, u64::from(LAST_NUMBER)),
        many > 2 && !number(2, u64::from(LAST_CELL)),
        fields.len() > many || text.len() == line.len(),
    ];
    (LETTER..=END).zip(tests).filter(|(_, fault)| *fault).map(|(field, _)| field).collect()
}

#[test]
fn faults_come_alone_and_by_two() {
    let mut counts = Counts::new();
    for seed in 0..40u64 {
        let input = made(&["make", "lines", &seed.to_string(), "500"]);
        for line in input.split_inclusive(|&byte| byte == b'\n') {
            let found = faulty(line);
            assert_eq!(read_request(line).err(), found.first().copied());
            seen(&mut counts, format!("{found:?}"));
        }
    }
    for wanted in ["[1]", "[2]", "[3]", "[4]", "[1, 2]", "[1, 3]", "[1, 4]", "[2, 3]", "[2, 4]", "[3, 4]"] {
        assert!(counts.get(wanted).is_some_and(|&count| count > 100), "{wanted}: {counts:?}");
    }
    assert!((6_000..9_000).contains(&counts["[]"]), "{counts:?}");
}

/// What a bad request line shows of the ways: where its fault stands, and what it is.
fn ways(line: &[u8]) -> Vec<String> {
    let text = line.strip_suffix(b"\n").unwrap_or(line);
    let fields: Vec<&[u8]> = text.split(|&byte| byte == b'\t').collect();
    let Err(field) = read_request(line) else {
        return Vec::new();
    };
    let mut found = vec![format!("length {}", text.len())];
    let fault = (1..=text.len()).find(|&end| {
        let mut reader = Reader::of(REQUEST_LETTERS);
        reader.take(&text[..end]);
        reader.fault.is_some()
    });
    found.extend(fault.map(|at| format!("fault at byte {at}")));
    found.extend(fault.map(|at| format!("{field} by {:?}", char::from(text[at - 1]))));
    found.extend((fault.is_none()).then(|| format!("{field} by nothing")));
    let Some(bad) = fields.get(usize::from(field) - 1).filter(|_| field < END) else {
        return found;
    };
    let digits = bad.iter().all(u8::is_ascii_digit);
    let mut show = |shown: bool, what: &str| found.extend(shown.then(|| format!("{field} {what}")));
    show(bad.is_empty(), "empty");
    show(digits && bad.len() > 1 && bad[0] == b'0', "leading zero");
    show(digits && bad.starts_with(b"00000000000"), "many leading zeros");
    show(digits && bad.len() > 10 && bad[0] != b'0', "digits that run on");
    show(bad.len() > 100, "long");
    show(digits && [&b"4294967296"[..], b"100"].contains(bad), "just above");
    show(bad.len() == 2 && bad.iter().all(|byte| REQUEST_LETTERS.contains(byte)), "two letters");
    found
}

#[test]
fn every_way_comes_up() {
    let mut counts = Counts::new();
    for seed in 0..40u64 {
        let input = made(&["make", "lines", &seed.to_string(), "500"]);
        for line in input.split_inclusive(|&byte| byte == b'\n') {
            ways(line).into_iter().for_each(|way| seen(&mut counts, way));
        }
    }
    let mut wanted: Vec<String> = (0..=20).map(|length| format!("length {length}")).collect();
    wanted.extend((1..=16).map(|at| format!("fault at byte {at}")));
    for field in LETTER..=CELL {
        for byte in *b"\t \r\0+-x" {
            wanted.push(format!("{field} by {:?}", char::from(byte)));
        }
        wanted.extend([0x80, 0xff].map(|byte| format!("{field} by {:?}", char::from(byte))));
        wanted.extend(["empty", "long"].map(|what| format!("{field} {what}")));
    }
    for field in [JOB, CELL] {
        let all = [
            "leading zero",
            "many leading zeros",
            "digits that run on",
            "just above",
            "by nothing",
            "by 'r'",
        ];
        wanted.extend(all.map(|what| format!("{field} {what}")));
    }
    wanted.extend(["1 by 'k'", "1 by nothing", "1 two letters", "4 by '\\t'"].map(str::to_string));
    for way in wanted {
        assert!(counts.get(&way).is_some_and(|&count| count > 3), "{way}: {counts:?}");
    }
    assert!(!counts.contains_key("fault at byte 17"), "{counts:?}");
}

#[test]
fn the_longest_good_lines_with_one_byte_more() {
    let mut counts = Counts::new();
    for seed in 0..40u64 {
        let input = made(&["make", "lines", &seed.to_string(), "500"]);
        for line in input.split_inclusive(|&byte| byte == b'\n').filter(|line| line.len() > 15) {
            if read_request(&[&line[..15], b"\n"].concat()).is_ok() {
                let more = if line.len() == 17 { "one byte" } else { "more" };
                let what = match line[15] {
                    b'\n' => "the newline",
                    b'\t' => "a tab",
                    b'0'..=b'9' => "a digit",
                    _ => "a stray byte",
                };
                seen(&mut counts, format!("{what}, {}", if what == "the newline" { "good" } else { more }));
            }
        }
    }
    for what in ["a tab", "a digit", "a stray byte"] {
        for more in ["one byte", "more"] {
            let wanted = format!("{what}, {more}");
            assert!(counts.get(&wanted).is_some_and(|&count| count > 3), "{wanted}: {counts:?}");
        }
    }
    assert!(counts["the newline, good"] > 100, "{counts:?}");
}
