//! Tests: what they share, and the samples of document 01.

mod chain;
mod chain_demands;
mod chain_makers;
mod demands;
mod desk;
mod dirty;
mod dirty_makers;
mod fields;
mod fields_makers;
mod judge;
mod knots_makers;
mod lines;
mod makers;
mod stamps;
mod stamps_demands;
mod stamps_makers;
mod update;
mod update_makers;

use crate::judge::{judge, Verdict};
use crate::run;

/// `b, r 2 5` as text: a newline after each line, a tab for each blank.
pub fn text(lines: &str) -> Vec<u8> {
    let mut text = String::new();
    for line in lines.split(", ").filter(|line| !line.is_empty()) {
        text.push_str(&line.replace(' ', "\t"));
        text.push('\n');
    }
    text.into_bytes()
}

/// What a command prints for an input, and its exit status.
pub fn printed(words: &[&str], input: &[u8]) -> (Vec<u8>, i32) {
    let mut output = Vec::new();
    let status = run(words, input, &mut output).expect("a vector takes every byte");
    (output, status)
}

pub fn shown(bytes: &[u8]) -> String {
    String::from_utf8_lossy(bytes).into_owned()
}

pub fn check(words: &[&str], input: &str, wanted: &str) {
    let (output, status) = printed(words, &text(input));
    assert_eq!(shown(&output), shown(&text(wanted)), "{words:?} of {input}");
    assert_eq!(status, 0);
}

/// The answers to `requests` after so many begins, as the samples have it.
pub fn check_answers(begins: usize, requests: &str, wanted: &str) {
    let input = [vec!["b"; begins].join(", "), requests.to_string()].join(", ");
    let (output, _) = printed(&["answers"], &text(&input));
    let after: Vec<u8> =
        output.split_inclusive(|&byte| byte == b'\n').skip(begins).collect::<Vec<&[u8]>>().concat();
    assert_eq!(shown(&after), shown(&text(wanted)), "answers to {requests}");
}

pub fn check_verdict(history: &str, wanted: &str) {
    check(&["verdict"], history, wanted);
}

pub fn made(words: &[&str]) -> Vec<u8> {
    let (output, status) = printed(words, b"");
    assert_eq!(status, 0);
    output
}

#[test]
fn s1() {
    let input = "b, b, r 2 5, w 1 5, w 2 5, r 1 5, c 2, r 2 5, c 1";
    let answers = "1 go 1, 2 go 2, 3 go 2, 4 wait 1, 5 go 2, 6 no 4, 7 go 2, 7 wake 1, 8 no 3, 9 go 1";
    let history = "r 2 5, w 2 5, c 2, w 1 5, c 1";
    check(&["answers"], input, answers);
    check(&["history"], input, history);
    check(&["verdict"], history, "orderly 2 1");
}

#[test]
fn s2() {
    check_answers(2, "r 1 5, w 2 5", "3 go 1, 4 back 2");
}

#[test]
fn s3() {
    check_answers(2, "r 1 5, r 2 5, w 1 5, w 2 5", "3 go 1, 4 go 2, 5 wait 1, 6 back 2, 6 wake 1");
    check(&["history"], "b, b, r 1 5, r 2 5, w 1 5, w 2 5", "r 1 5, r 2 5, k 2, w 1 5");
}

#[test]
fn s4() {
    check_answers(2, "i 1 5, i 2 5, r 1 5, c 2", "3 go 1, 4 go 2, 5 wait 1, 6 go 2, 6 wake 1");
    check(&["history"], "b, b, i 1 5, i 2 5, r 1 5, c 2", "i 1 5, i 2 5, c 2, r 1 5");
}

#[test]
fn s5() {
    let requests = "r 3 5, w 2 5, r 1 5, r 4 5, c 3, c 2";
    check_answers(
        4,
        requests,
        "5 go 3, 6 wait 2, 7 wait 1, 8 back 4, 9 go 3, 9 wake 2, 10 go 2, 10 wake 1",
    );
}

#[test]
fn s6() {
    check_verdict(
        "r 2 0, r 1 1, w 2 0, r 3 0, w 1 1, w 3 0, r 2 1, w 2 1, c 1, c 2, c 3",
        "orderly 1 2 3",
    );
}

#[test]
fn s7() {
    check_verdict("r 2 0, r 1 1, w 2 0, r 2 1, r 3 0, w 1 1, w 3 0, w 2 1, c 1, c 2, c 3", "knot 1 2");
}

#[test]
fn s8() {
    check_verdict("r 1 0, r 2 0, w 1 0, w 2 0, c 1, c 2", "knot 1 2");
}

#[test]
fn s9() {
    check_verdict("i 1 0, i 2 0, i 1 0, c 1, c 2", "orderly 1 2");
    check_verdict("i 1 0, i 2 0, r 2 0, i 1 0, c 1, c 2", "knot 1 2");
}

#[test]
fn s10() {
    check_verdict("", "orderly");
}

#[test]
fn s11() {
    let (output, _) = printed(&["steps", "4294967295"], b"98 0 0\n98 0 0\n");
    assert_eq!(shown(&output), "go\t4294967295\nno\t7\n");
}

#[test]
fn s12() {
    let full = (1..=32).map(|n| format!("{n} go {n}")).collect::<Vec<String>>().join(", ");
    let begins = ["b"; 33].join(", ");
    check(&["answers"], &format!("{begins}, a 7, b"), &format!("{full}, 33 no 6, 34 go 7, 35 go 33"));
}

#[test]
fn s13() {
    assert_eq!(judge(b"", &mut [7; 255]), Verdict::Orderly(0));
    assert_eq!(judge(b"k\t0\n", &mut [7; 254]), Verdict::No { line: 0, refusal: 14, field: None, text: b"" });
    let lines = b"r\t1\t0\n".repeat(4_096);
    assert_eq!(judge(&lines, &mut [0; 255]), Verdict::Orderly(0));
    let more = [&lines[..], b"x\ty"].concat();
    assert_eq!(judge(&more, &mut [0; 255]), Verdict::No { line: 4_097, refusal: 11, field: None, text: b"x\ty" });
    let faulty = [b"r\t1\t64\n", &lines[..]].concat();
    assert_eq!(judge(&faulty, &mut [0; 255]), Verdict::No { line: 1, refusal: 2, field: None, text: b"r\t1\t64" });
}
