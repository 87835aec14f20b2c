//! The field at fault (02, No. 5): told of every bad line, however long it is, and passed on.

use super::lines::{Dribble, Torn};
use super::{check, check_verdict, made, printed, shown};
use crate::commands::answers;
use crate::desk::Desk;
use crate::lines::{read_history, read_request, Reader};
use crate::run;
use crate::words::*;
use std::io::{self, Read};

/// A line that is good for that reader.
const GOOD: u8 = 0;

/// The sixteen lines by which No. 5 was settled: the line, its field as a request, and in a history.
const TABLE: [(&[u8], u8, u8); 16] = [
    (b"\n", 1, 1),
    (b"b \n", 1, 1),
    (b"x", 1, 1),
    (b"k\t1\n", 1, GOOD),
    (b"c\n", 2, 2),
    (b"c\t1 \n", 2, 2),
    (b"r", 2, 2),
    (b"r\t7x\t5\n", 2, 2),
    (b"r\t1\t5x\n", 3, 3),
    (b"r\t1\t5\r\n", 3, 3),
    (b"r\t1\n", 3, 3),
    (b"r\t1", 3, 3),
    (b"r\t1\t100\n", 3, 3),
    (b"b\t\n", 4, 1),
    (b"c\t1\t5\n", 4, 4),
    (b"b", 4, 1),
];

/// More of them.
const MORE: &[(&[u8], u8, u8)] = &[
    (b"\t", 1, 1),
    (b"\r\n", 1, 1),
    (b"b\r\n", 1, 1),
    (b"b\r", 1, 1),
    (b" b\n", 1, 1),
    (b"bb\n", 1, 1),
    (b"r \t7\t5\n", 1, 1),
    (b"rw\t7\t5", 1, 1),
    (b"\tr\t7\t5\n", 1, 1),
    (b"x\ty\tz\t\n", 1, 1),
    (b"x\ty\tz\t", 1, 1),
    (b"t\t1\n", GOOD, 1),
    (b"t\t1", 4, 1),
    (b"t\n", 2, 1),
    (b"u\t7\t5\n", GOOD, 1),
    (b"u\t7\t5\t", 4, 1),
    (b"k\t1", 1, 4),
    (b"k", 1, 2),
    (b"k\t1\t\n", 1, 4),
    (b"b\n", GOOD, 1),
    (b"b\t", 4, 1),
    (b"b\t\t\n", 4, 1),
    (b"b\t1\n", 4, 1),
    (b"c", 2, 2),
    (b"c\t", 2, 2),
    (b"c\t\n", 2, 2),
    (b"c\t\t\n", 2, 2),
    (b"c\t1\r\n", 2, 2),
    (b"c\t1\r", 2, 2),
    (b"c\t01\n", 2, 2),
    (b"c\t-1\t5\n", 2, 2),
    (b"c\t4294967296\n", 2, 2),
    (b"c\t4294967295", 4, 4),
    (b"c\t1", 4, 4),
    (b"c\t1\t", 4, 4),
    (b"c\t1\t\n", 4, 4),
    (b"c\t1\t\r\n", 4, 4),
    (b"r\n", 2, 2),
    (b"r\t\n", 2, 2),
    (b"r\t", 2, 2),
    (b"r\t\t5\n", 2, 2),
    (b"r\t\t\n", 2, 2),
    (b"r\t4294967296\t100\t\n", 2, 2),
    (b"r\t7\r\n", 2, 2),
    (b"r\t7", 3, 3),
    (b"r\t7\t", 3, 3),
    (b"r\t7\t\n", 3, 3),
    (b"r\t1\t\t\n", 3, 3),
    (b"r\t1\t\t", 3, 3),
    (b"r\t7\t05\n", 3, 3),
    (b"r\t7\t5 ", 3, 3),
    (b"r\t7\t100\t\n", 3, 3),
    (b"r\t7\t5", 4, 4),
    (b"r\t7\t64", 4, 4),
    (b"r\t7\t5\t", 4, 4),
    (b"r\t7\t5\t\n", 4, 4),
    (b"r\t7\t5\t\t\n", 4, 4),
    (b"r\t7\t5\tx\n", 4, 4),
    (b"r\t4294967295\t99", 4, 4),
    (b"r\t4294967295\t99\t\n", 4, 4),
    (b"r\t4294967295\t99x\n", 3, 3),
    (b"r\t4294967295\t999\n", 3, 3),
    (b"r\t42949672950\t99\n", 2, 2),
];

fn field_of(read: Result<Line, u8>) -> u8 {
    read.map_or_else(|field| field, |_| GOOD)
}

#[test]
fn the_fields_of_the_table() {
    for &(line, request, event) in TABLE.iter().chain(MORE) {
        assert_eq!(field_of(read_request(line)), request, "{:?} as a request", shown(line));
        assert_eq!(field_of(read_history(line)), event, "{:?} in a history", shown(line));
    }
}

#[test]
fn the_field_stands_last_in_the_record() {
    for &(line, request, event) in TABLE.iter().chain(MORE).filter(|line| line.1 > 0 && line.2 > 0) {
        let after = |before: &[u8]| [before, line].concat();
        let whole = shown(line.strip_suffix(b"\n").unwrap_or(line));
        let answered = printed(&["answers"], &after(b"b\nc\t1\n")).0;
        assert_eq!(shown(&answered), format!("1\tgo\t1\n2\tgo\t1\n3\tno\t9\t{request}\n"));
        let judged = printed(&["verdict"], &after(b"r\t1\t5\nc\t1\n")).0;
        assert_eq!(shown(&judged), format!("no\t3\t9\t{event}\n"));
        let case = printed(&["cases"], &after(b"= 255\nc\t1\n")).0;
        assert_eq!(shown(&case), format!("no\t2\t9\t{event}\nline\t{whole}\n"));
        let both = printed(&["lines"], &after(b"b\n")).0;
        assert_eq!(
            shown(&both),
            format!("1\tgo\t98\n1\twake\t9\t1\n2\tno\t9\t{request}\n2\twake\t9\t{event}\n")
        );
    }
}

#[test]
fn only_refusal_9_has_a_field() {
    check(
        &["answers"],
        "b, r 1 64, c 7, t 1, r 1 5x, r 1",
        "1 go 1, 2 no 2, 3 no 3, 4 no 8, 5 no 9 3, 6 no 9 3",
    );
    check_verdict("r 256 0", "no 1 12");
    check_verdict("r 1 64", "no 1 2");
    check_verdict("c 1, k 1", "no 2 13");
    check_verdict(&["k 1"; 4_097].join(", "), "no 4097 11");
    assert_eq!(printed(&["verdict"], &[b'x'; 65_537]).0, b"no\t0\t16\n");
    assert_eq!(printed(&["cases"], b"= 254\nx\n").0, b"no\t0\t14\n");
    // 11 comes before 9, and 9 before 12, 2 and 13; the first faulty line decides.
    check_verdict(&[&["k 1"; 4_096].join(", "), "x"].join(", "), "no 4097 11");
    check_verdict("c 1, r 1 64 5", "no 2 9 4");
    check_verdict("c 1, r 256 100, x", "no 2 9 3");
    check_verdict("c 0, x", "no 1 12");
}

#[test]
fn bad_lines_change_nothing() {
    let good = b"b\nb\nw\t2\t5\nr\t1\t5\n";
    for &(line, request, _) in TABLE.iter().chain(MORE).filter(|line| line.1 > 0) {
        let more = [good, line].concat();
        for word in ["history", "chain"] {
            assert_eq!(printed(&[word], &more), printed(&[word], good), "field {request}");
        }
    }
}

#[test]
fn a_failed_read_ends_the_line_without_a_newline() {
    let mut output = Vec::new();
    answers::<Desk>(Torn(Dribble(b"b\nr\t1", 3)), &mut output).unwrap();
    assert_eq!(shown(&output), "1\tgo\t1\n2\tno\t9\t3\n");
}

/// The papers' words, field by field: what stands between the tabs, each judged by itself.
fn by_fields(line: &[u8], letters: &[u8]) -> u8 {
    let text = line.strip_suffix(b"\n").unwrap_or(line);
    let fields: Vec<&[u8]> = text.split(|&byte| byte == b'\t').collect();
    let letter = match fields[0] {
        [letter] if letters.contains(letter) => *letter,
        _ => return 1,
    };
    let number = |at: usize, last: u64| fields.get(at).is_some_and(|field| is_number(field, last));
    let many = if letter == b'b' { 1 } else { 2 + usize::from(b"rwiu".contains(&letter)) };
    match many {
        2.. if !number(1, 4_294_967_295) => 2,
        3 if !number(2, 99) => 3,
        _ if fields.len() > many || text.len() == line.len() => 4,
        _ => GOOD,
    }
}

/// A number's shortest decimal.
pub fn is_number(field: &[u8], last: u64) -> bool {
    let number = std::str::from_utf8(field).ok().and_then(|text| text.parse::<u64>().ok());
    number.is_some_and(|number| number <= last && number.to_string().as_bytes() == field)
}

fn same_by_fields(line: &[u8]) {
    assert_eq!(
        field_of(read_request(line)),
        by_fields(line, b"bcatrwiu"),
        "{:?} as a request",
        shown(line)
    );
    assert_eq!(field_of(read_history(line)), by_fields(line, b"rwicak"), "{:?} in a history", shown(line));
}

#[test]
fn every_short_line_by_its_fields() {
    let bytes = b"bcrk\t019 ";
    for length in 0..=6 {
        for number in 0..bytes.len().pow(length) {
            let byte = |at: u32| bytes[number / bytes.len().pow(at) % bytes.len()];
            let mut line: Vec<u8> = (0..length).map(byte).collect();
            same_by_fields(&line);
            line.push(b'\n');
            same_by_fields(&line);
        }
    }
}

#[test]
fn every_beginning_of_made_lines_by_its_fields() {
    for seed in 0..40u64 {
        let input = made(&["make", "lines", &seed.to_string(), "150"]);
        for line in input.split_inclusive(|&byte| byte == b'\n') {
            same_by_fields(line);
            for end in 0..line.len().min(70) {
                same_by_fields(&line[..end]);
                same_by_fields(&[&line[..end], b"\n"].concat());
            }
        }
    }
}

#[test]
fn every_byte_in_every_field() {
    for byte in (0..=255).filter(|&byte| byte != b'\n') {
        for line in [&b"b"[..], b"c\t12", b"k\t0", b"r\t12\t34", b"u\t4294967295\t99"] {
            for at in 0..=line.len() {
                let more = [&line[..at], &[byte], &line[at..]].concat();
                let other = [&line[..at], &[byte], &line[(at + 1).min(line.len())..]].concat();
                for line in [more, other] {
                    same_by_fields(&line);
                    same_by_fields(&[&line[..], b"\n"].concat());
                }
            }
        }
    }
}

/// Beginnings, and the field of a line that goes on with a long run of a byte.
const RUNS: &[(&[u8], u8, u8)] = &[
    (b"", b'r', 1),
    (b"", b' ', 1),
    (b"", b'\t', 1),
    (b"", 0xff, 1),
    (b"r", b'7', 1),
    (b"b", 0, 1),
    (b"c ", b'\t', 1),
    (b"x\t7\t5", b'\t', 1),
    (b"c\t", b'9', 2),
    (b"c\t", b'0', 2),
    (b"c\t1", b'\r', 2),
    (b"r\t", b'\t', 2),
    (b"r\t-", b'1', 2),
    (b"r\t4294967295", b'0', 2),
    (b"r\t42949672950\t", b'5', 2),
    (b"r\t7\t", b'1', 3),
    (b"r\t7\t", b'0', 3),
    (b"r\t7\t", b'\t', 3),
    (b"r\t7\t5", b' ', 3),
    (b"r\t4294967295\t99", b'9', 3),
    (b"r\t4294967295\t99", b'x', 3),
    (b"r\t7\t5", b'\t', 4),
    (b"r\t7\t5\t", b'5', 4),
    (b"r\t4294967295\t99", b'\t', 4),
    (b"r\t4294967295\t99\t", 0, 4),
    (b"c\t7", b'\t', 4),
    (b"a\t4294967295\t", b'r', 4),
];

#[test]
fn long_lines_have_the_field_of_the_whole() {
    for &(beginning, byte, field) in RUNS {
        for (long, behind) in [(100_000, &b""[..]), (100_000, b"\t5"), (131_072, b"x"), (20, b"\t7\t5")] {
            let line = [beginning, &vec![byte; long], behind].concat();
            let input = [&line[..], b"\nc\t1\n", &line].concat();
            let bad = |number: u32| format!("{number}\tno\t9\t{field}\n{number}\twake\t9\t{field}\n");
            let wanted = [bad(1), "2\tgo\t99\n2\twait\t1\nc\t1\n".to_string(), bad(3)].concat();
            for size in [1 << 20, 65_536, 4_099, 1] {
                let mut output = Vec::new();
                run(&["lines"], Dribble(&input, size), &mut output).unwrap();
                assert_eq!(shown(&output), wanted, "{:?} and {byte}", shown(beginning));
            }
        }
    }
}

#[test]
fn begin_is_a_request_alone_in_long_lines_too() {
    for (byte, field) in [(b'\t', 4), (b'b', 1)] {
        let line = [b"b".to_vec(), vec![byte; 100_000]].concat();
        assert_eq!(
            printed(&["lines"], &line).0,
            format!("1\tno\t9\t{field}\n1\twake\t9\t1\n").into_bytes()
        );
    }
}

#[test]
fn the_verdict_on_long_lines() {
    for &(beginning, byte, field) in RUNS {
        let line = [beginning, &vec![byte; HISTORY_BYTES - beginning.len() - 7]].concat();
        let field = if beginning.starts_with(b"b") { 1 } else { field };
        for end in [&b"\n"[..], b""] {
            let judged = printed(&["verdict"], &[b"k\t255\n", &line[..], end].concat()).0;
            assert_eq!(shown(&judged), format!("no\t2\t9\t{field}\n"), "{:?} and {byte}", shown(beginning));
        }
    }
}

#[test]
fn no_line_is_too_long() {
    assert!(std::mem::size_of::<Reader>() <= 64);
    for (beginning, byte, field) in [(&b"r\t7\t"[..], b'1', 3), (b"r\t7\t5", b'\t', 4), (b"a\t0", b'0', 2)]
    {
        let mut output = Vec::new();
        let input = beginning.chain(io::repeat(byte).take(1 << 27)).chain(&b"\nb\n"[..]);
        answers::<Desk>(input, &mut output).unwrap();
        assert_eq!(shown(&output), format!("1\tno\t9\t{field}\n2\tgo\t1\n"));
    }
}
