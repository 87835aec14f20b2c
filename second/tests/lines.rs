//! Lines, and how input comes in and records go out.

use super::{made, printed, shown, text};
use crate::commands::{answers, keep, KEPT};
use crate::desk::Desk;
use crate::lines::{read_history, read_request};
use crate::run;
use crate::words::*;
use std::cell::RefCell;
use std::io::{self, Read, Write};

#[test]
fn good_lines() {
    let both: &[(&[u8], Line)] = &[
        (b"r\t7\t64\n", Line { letter: READ, job: 7, cell: 64 }),
        (b"w\t0\t0\n", Line { letter: WRITE, job: 0, cell: 0 }),
        (b"i\t4294967295\t99\n", Line { letter: INCREMENT, job: 4_294_967_295, cell: 99 }),
        (b"c\t10\n", Line { letter: COMMIT, job: 10, cell: 0 }),
        (b"a\t999999999\n", Line { letter: GIVE_UP, job: 999_999_999, cell: 0 }),
    ];
    for (line, wanted) in both {
        assert_eq!(read_request(line), Ok(*wanted));
        assert_eq!(read_history(line), Ok(*wanted));
    }
    assert_eq!(read_request(b"b\n"), Ok(Line { letter: BEGIN, job: 0, cell: 0 }));
    assert_eq!(read_request(b"t\t3\n"), Ok(Line { letter: RETRY, job: 3, cell: 0 }));
    assert_eq!(read_history(b"k\t3\n"), Ok(Line { letter: SENT_BACK, job: 3, cell: 0 }));
    assert_eq!(read_request(b"k\t3\n"), Err(LETTER));
    assert_eq!(read_history(b"t\t3\n"), Err(LETTER));
    assert_eq!(read_history(b"b\n"), Err(LETTER));
}

/// Bad lines by the field at fault, as requests. As histories they are the same, but for a `b`.
#[rustfmt::skip]
const BAD: [(u8, &[&[u8]]); 4] = [
    (LETTER, &[
        b"", b"\n", b"\t\n", b"bb\n", b"b\r\n", b"B\n", b" b\n", b"c 1\n", b"C\t1\n", b"x\t1\n", b"1\tc\n",
        b"rr\t7\t6\n", b"\tr\t7\t6\n",
    ]),
    (JOB, &[
        b"c\n", b"c\t\n", b"c\t\t1\n", b"c\t01\n", b"c\t00\n", b"c\t+1\n", b"c\t-1\n", b"c\t 1\n", b"c\t1 \n",
        b"c\t1\r\n", b"c\t1\0\n", b"c\t4294967296\n", b"c\t9999999999\n", b"c\t10000000000\n",
        b"c\t18446744073709551617\n", b"c\t1x\n", b"c\t:\n", b"c\t/\n", b"r\n", b"r\t\t6\n", b"r\t\t7\t6\n",
    ]),
    (CELL, &[
        b"r\t7\n", b"r\t7\t\n", b"r\t7\t100\n", b"r\t7\t00\n", b"r\t7\t07\n", b"r\t7\t-1\n", b"r\t7\t6\xb2\n",
        b"r\t7\t6\n\n",
    ]),
    (END, &[
        b"b", b"c\t1", b"r\t7\t6", b"b\t\n", b"b\t1\n", b"c\t1\t5\n", b"c\t1\t\n", b"r\t7\t6\t\n", b"r\t7\t6\t1\n",
        b"r\t7\t64\t1\n",
    ]),
];

#[test]
fn bad_lines() {
    for (field, lines) in BAD {
        for line in lines {
            assert_eq!(read_request(line), Err(field), "{}", shown(line));
            let field = if line.starts_with(b"b") { LETTER } else { field };
            assert_eq!(read_history(line), Err(field), "{}", shown(line));
        }
    }
}

#[test]
fn lines_report_both_readings() {
    let (output, _) = printed(&["lines"], b"r\t7\t64\nb\nk\t3\n\nt\t0\nc\t5\nc\t5");
    let wanted =
        "1 go 114, 1 wait 7, 1 back 64, r 7 64, 2 go 98, 2 wake 9 1, 3 no 9 1, k 3, 4 no 9 1, 4 wake 9 1, \
                  5 go 116, 5 wait 0, 5 wake 9 1, 6 go 99, 6 wait 5, c 5, 7 no 9 4, 7 wake 9 4";
    assert_eq!(shown(&output), shown(&text(wanted)));
}

/// A reader that hands out a few bytes at a time.
pub struct Dribble<'a>(pub &'a [u8], pub usize);

impl Read for Dribble<'_> {
    fn read(&mut self, buffer: &mut [u8]) -> io::Result<usize> {
        let count = self.1.min(self.0.len()).min(buffer.len());
        buffer[..count].copy_from_slice(&self.0[..count]);
        self.0 = &self.0[count..];
        Ok(count)
    }
}

#[test]
fn reads_of_any_size_give_the_same() {
    for seed in 0..6 {
        let input = made(&["make", "requests", &seed.to_string(), "400"]);
        for words in [["answers"], ["history"], ["lines"]] {
            let (whole, _) = printed(&words, &input);
            assert!(whole.len() > 500);
            for size in [1, 2, 7, 63, 64, 65] {
                let mut output = Vec::new();
                run(&words, Dribble(&input, size), &mut output).unwrap();
                assert_eq!(shown(&output), shown(&whole));
            }
        }
    }
}

#[test]
fn little_is_kept_of_a_long_step() {
    let mut kept = Vec::new();
    for _ in 0..1_000 {
        keep(&mut kept, b"r\t7\t63 and more");
    }
    assert_eq!(kept.len(), KEPT);
    assert!(kept.starts_with(b"r\t7\t63 and morer\t7"));
    let long = [b"98 0 0\n98 0 ", &b"0".repeat(100)[..], b"\n"].concat();
    assert_eq!(printed(&["steps", "1"], &long), (b"go\t1\n".to_vec(), 2));
}

#[test]
fn long_lines_are_one_bad_line() {
    for long in [15, 16, 17, 63, 64, 65, 66, 200_000] {
        for byte in [b'1', b'\t', b'r'] {
            let input = [b"b\nc\t", &vec![byte; long][..], b"\nb\n", &vec![byte; long]].concat();
            for size in [1_000_000, 50, 1] {
                let mut output = Vec::new();
                answers::<Desk>(Dribble(&input, size), &mut output).unwrap();
                assert_eq!(shown(&output), "1\tgo\t1\n2\tno\t9\t2\n3\tgo\t2\n4\tno\t9\t1\n");
            }
        }
    }
}

/// At each read, every complete line read before must have its record in the output.
struct Impatient<'a>(Dribble<'a>, &'a RefCell<Vec<u8>>, usize);

impl Read for Impatient<'_> {
    fn read(&mut self, buffer: &mut [u8]) -> io::Result<usize> {
        let written = self.1.borrow().iter().filter(|&&byte| byte == b'\n').count();
        assert_eq!(written, self.2, "records before the read");
        let count = self.0.read(buffer)?;
        self.2 += buffer[..count].iter().filter(|&&byte| byte == b'\n').count();
        Ok(count)
    }
}

struct Shared<'a>(&'a RefCell<Vec<u8>>);

impl Write for Shared<'_> {
    fn write(&mut self, bytes: &[u8]) -> io::Result<usize> {
        self.write_shared(bytes)
    }
    fn flush(&mut self) -> io::Result<()> {
        Ok(())
    }
}

impl Shared<'_> {
    fn write_shared(&self, bytes: &[u8]) -> io::Result<usize> {
        self.0.borrow_mut().extend_from_slice(bytes);
        Ok(bytes.len())
    }
}

#[test]
fn records_are_out_before_more_is_awaited() {
    let output = RefCell::new(Vec::new());
    let input = b"b\nb\nc\t1\nb\nx\nb\nb\n\n\nb\n".repeat(3);
    answers::<Desk>(Impatient(Dribble(&input, 3), &output, 0), &mut Shared(&output)).unwrap();
    assert_eq!(output.borrow().iter().filter(|&&byte| byte == b'\n').count(), 30);
}

#[test]
fn desk_programs_stop_after_a_million_lines() {
    let input = [b"b\n", &b"r\t1\t0\n".repeat(999_999)[..], b"r\t1\t0\nx"].concat();
    let (output, _) = printed(&["answers"], &input);
    assert!(output.ends_with(b"\n999999\tgo\t1\n1000000\tgo\t1\n"));
    let (output, _) = printed(&["history"], &input);
    assert_eq!(output, b"r\t1\t0\n".repeat(999_999));
    let torn = [b"b\n".repeat(999_999), b"c\t1".to_vec()].concat();
    let (output, _) = printed(&["answers"], &torn);
    assert!(output.ends_with(b"\n999999\tno\t6\n1000000\tno\t9\t4\n"));
}

/// A reader that fails once its bytes are read.
pub struct Torn<'a>(pub Dribble<'a>);

impl Read for Torn<'_> {
    fn read(&mut self, buffer: &mut [u8]) -> io::Result<usize> {
        match self.0.read(buffer)? {
            0 => Err(io::Error::other("torn")),
            count => Ok(count),
        }
    }
}

#[test]
fn a_failed_read_leaves_records_and_no_verdict() {
    let tried: &[(&str, &[u8], &str)] = &[
        ("answers", b"b\nc\t1\n", "1\tgo\t1\n2\tgo\t1\n"),
        ("history", b"b\nc\t1\n", "c\t1\n"),
        ("verdict", b"c\t1\nc\t2\n", ""),
        ("cases", b"= 255\nc\t1\n= 255\nc\t2\n", "orderly\t1\n"),
    ];
    for (word, input, wanted) in tried {
        let mut output = Vec::new();
        run(&[word], Torn(Dribble(input, 3)), &mut output).unwrap();
        assert_eq!(shown(&output), *wanted, "{word}");
    }
}
