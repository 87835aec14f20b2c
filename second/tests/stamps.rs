//! The timestamp desk (02, No. 6): its samples, who goes, records and refusals.

use super::lines::{Dribble, Torn};
use super::{check, check_verdict, made, printed, shown, text};
use crate::lines::read_request;
use crate::run;
use crate::stamps::{Marks, Stamps};
use crate::words::*;

/// The answers to `requests` after so many begins.
fn check_stamps(begins: usize, requests: &str, wanted: &str) {
    let input = [vec!["b"; begins].join(", "), requests.to_string()].join(", ");
    let (output, _) = printed(&["stamp_answers"], &text(&input));
    let after: Vec<&[u8]> = output.split_inclusive(|&byte| byte == b'\n').skip(begins).collect();
    assert_eq!(shown(&after.concat()), shown(&text(wanted)), "answers to {requests}");
}

fn stepped(first: u32, steps: &str) -> String {
    let (output, status) = printed(&["stamp_steps", &first.to_string()], steps.replace('|', "\n").as_bytes());
    assert_eq!(status, 0);
    shown(&output).replace('\t', " ").trim_end().replace('\n', "|")
}

#[test]
fn two_jobs_increments_do_not_commute() {
    check_stamps(2, "i 1 5, i 2 5, i 1 5, c 2", "3 go 1, 4 go 2, 5 back 1, 6 go 2");
    let history = "i 1 5, i 2 5, k 1, c 2";
    check(&["stamp_history"], "b, b, i 1 5, i 2 5, i 1 5, c 2", history);
    check_verdict(history, "orderly 2");
}

#[test]
fn equal_numbers_go() {
    for letters in ["ww", "rw", "wr", "ii", "ri", "iw", "ir", "wi", "uw", "wu", "iu", "uu"] {
        let requests: Vec<String> = letters.chars().map(|letter| format!("{letter} 1 5")).collect();
        check_stamps(1, &requests.join(", "), "2 go 1, 3 go 1");
    }
    check_stamps(2, "i 2 5, r 2 5, u 2 5, w 2 5, i 2 5", "3 go 2, 4 go 2, 5 go 2, 6 go 2, 7 go 2");
}

#[test]
fn who_goes_and_who_is_sent_back() {
    // The younger first, then the older; and the other way round everything goes.
    let back = ["wr", "wu", "ww", "wi", "rw", "ri", "uw", "ui", "ir", "iu", "iw", "ii"];
    let all = "rwiu".chars().flat_map(|one| "rwiu".chars().map(move |other| format!("{one}{other}")));
    for pair in all {
        let (one, other) = pair.split_at(1);
        let word = if back.contains(&pair.as_str()) { "back" } else { "go" };
        check_stamps(2, &format!("{one} 2 5, {other} 1 5"), &format!("3 go 2, 4 {word} 1"));
        check_stamps(2, &format!("{one} 1 5, {other} 2 5"), "3 go 1, 4 go 2");
        check_stamps(2, &format!("{one} 2 5, {other} 1 6"), "3 go 2, 4 go 1");
    }
    // The largest reader counts, not the last.
    check_stamps(3, "r 3 5, r 1 5, w 2 5", "4 go 3, 5 go 1, 6 back 2");
    // A write is held against the reader number too, where the writer number would let it go.
    check_stamps(3, "w 1 5, r 3 5, w 2 5", "4 go 1, 5 go 3, 6 back 2");
}

#[test]
fn the_numbers_stay() {
    // After a sending back, a commit and a give-up; and a request sent back sets neither.
    check_stamps(3, "w 2 5, w 3 6, w 2 6, r 1 5", "4 go 2, 5 go 3, 6 back 2, 7 back 1");
    check_stamps(2, "w 2 5, c 2, r 1 5", "3 go 2, 4 go 2, 5 back 1");
    check_stamps(2, "r 2 5, a 2, w 1 5", "3 go 2, 4 go 2, 5 back 1");
    check_stamps(
        3,
        "w 3 5, r 2 5, c 3, b, w 1 6, r 1 5",
        "4 go 3, 5 back 2, 6 go 3, 7 go 4, 8 go 1, 9 back 1",
    );
    let mut desk = Stamps::start(1).unwrap();
    for line in text("b, b, b, r 2 5, i 3 5, w 2 5, u 1 6, w 3 6, r 3 7, w 1 7")
        .split_inclusive(|&byte| byte == b'\n')
    {
        desk.step(read_request(line).unwrap());
    }
    let marks = |reader, writer| Marks { reader, writer };
    assert_eq!(desk.cells[5..9], [marks(3, 3), marks(1, 3), marks(3, 0), marks(0, 0)]);
    assert_eq!(desk.jobs, [3]);
}

#[test]
fn sent_back_is_closed_and_its_place_free() {
    check_stamps(
        2,
        "w 2 5, r 1 5, r 1 5, t 1, c 1, a 1, b, r 3 5",
        "3 go 2, 4 back 1, 5 no 3, 6 no 3, 7 no 3, 8 no 3, 9 go 3, 10 go 3",
    );
    check(
        &["stamp_history"],
        "b, b, w 2 5, r 1 5, r 1 5, t 1, c 1, a 1, b, u 3 5, c 3",
        "w 2 5, k 1, r 3 5, c 3",
    );
    let full: Vec<String> = (1..=32).map(|n| format!("{n} go {n}")).collect();
    let begins = ["b"; 33].join(", ");
    check(
        &["stamp_answers"],
        &format!("{begins}, w 9 5, r 8 5, b, b"),
        &format!("{}, 33 no 6, 34 go 9, 35 back 8, 36 go 33, 37 no 6", full.join(", ")),
    );
}

#[test]
fn a_history_may_be_dirty() {
    let requests = "b, b, w 1 0, r 2 0, c 2, a 1";
    check(&["stamp_history"], requests, "w 1 0, r 2 0, c 2, a 1");
    check_verdict("w 1 0, r 2 0, c 2, a 1", "dirty 2 1");
    check(&["stamp_answers"], requests, "1 go 1, 2 go 2, 3 go 1, 4 go 2, 5 go 2, 6 go 1");
    check_verdict("w 1 0, r 2 0, c 2, c 1", "orderly 1 2");
}

#[test]
fn the_sample_of_document_004() {
    // X, Y and Z are cells 0, 1 and 2; one of the orders that the table leaves open. Job 2 gives up, 3 goes back.
    check_stamps(
        5,
        "r 5 0, r 2 1, r 1 1, w 3 1, w 3 2, r 5 2, r 2 0, a 2, r 1 0, w 3 2, w 5 1, w 5 2",
        "6 go 5, 7 go 2, 8 go 1, 9 go 3, 10 go 3, 11 go 5, 12 go 2, 13 go 2, 14 go 1, 15 back 3, 16 go 5, 17 go 5",
    );
}

#[test]
fn refusals_in_their_order() {
    // Job 1 was sent back, 2 runs, 3 has committed, and 4 was never begun.
    let start = "98 0 0|98 0 0|98 0 0|119 2 5|114 1 5|99 3 0|";
    let tried = "0 2 0|107 9 99|66 0 0|112 2 0|114 4 64|119 1 64|116 0 64|116 1 0|116 3 64|116 4 5|116 2 64|116 2 0|\
                 114 2 64|119 2 64|105 2 4294967295|117 2 261|117 0 0|99 1 0|97 3 0|114 2 63|99 2 99|116 2 0|98 7 99";
    let wanted = "no 1|no 1|no 1|no 1|no 3|no 3|no 3|no 3|no 3|no 3|no 19|no 19|\
                  no 2|no 2|no 2|no 2|no 3|no 3|no 3|go 2|go 2|no 3|go 4";
    let answers = stepped(1, &[start, tried].concat());
    assert_eq!(answers.split('|').skip(6).collect::<Vec<&str>>().join("|"), wanted);
    assert!(answers.starts_with("go 1|go 2|go 3|go 2|back 1|go 3|"));
}

#[test]
fn the_first_number_and_the_last() {
    assert_eq!(stepped(0, "98 0 0|98 0 0|x"), "no 10");
    assert_eq!(Stamps::start(0), Err(START_ZERO));
    let last = "go 4294967295|no 7|go 4294967295|no 19|go 4294967295|no 7|no 3";
    assert_eq!(
        stepped(
            LAST_NUMBER,
            "98 0 0|98 0 0|119 4294967295 5|116 4294967295 0|99 4294967295 0|98 0 0|114 4294967295 5"
        ),
        last
    );
    // 7 is tested before 6.
    let begins = ["98 0 0"; 33].join("|");
    assert!(stepped(4_294_967_264, &begins).ends_with("go 4294967295|no 7"));
    assert!(stepped(4_294_967_263, &begins).ends_with("go 4294967294|no 6"));
}

#[test]
fn questions_are_no_steps_here() {
    for bad in ["256 1 32", "257 0 0", "98 0", "98 0 0 0", "98  0 0", "98 4294967296 0", "x 0 0", ""] {
        let input = format!("98 0 0\n{bad}\n98 0 0\n");
        assert_eq!(printed(&["stamp_steps", "5"], input.as_bytes()), (b"go\t5\n".to_vec(), 2), "{bad}");
    }
    assert_eq!(printed(&["stamp_steps", "4294967296"], b"").1, 2);
    assert_eq!(printed(&["stamp_mix", "x"], b"").1, 2);
    assert_eq!(printed(&["stamp_demands", "1"], b"").1, 2);
}

#[test]
fn lines_and_limits_as_on_the_lock_desk() {
    check(
        &["stamp_answers"],
        "b, k 1, r 1 100, c, r 1 64, r 1 63, b 1",
        "1 go 1, 2 no 9 1, 3 no 9 3, 4 no 9 2, 5 no 2, 6 go 1, 7 no 9 4",
    );
    assert_eq!(printed(&["stamp_answers"], b"b\nc\t1").0, b"1\tgo\t1\n2\tno\t9\t4\n");
    let input = [b"b\n", &b"u\t1\t0\n".repeat(999_999)[..], b"r\t1\t0\nx"].concat();
    let (output, _) = printed(&["stamp_answers"], &input);
    assert!(output.ends_with(b"\n999999\tgo\t1\n1000000\tgo\t1\n"));
    let (output, _) = printed(&["stamp_history"], &input);
    assert_eq!(output, b"r\t1\t0\n".repeat(999_999));
    for (word, wanted) in [("stamp_answers", "1\tgo\t1\n2\tgo\t1\n"), ("stamp_history", "c\t1\n")] {
        let mut output = Vec::new();
        run(&[word], Torn(Dribble(b"b\nc\t1\n", 3)), &mut output).unwrap();
        assert_eq!(shown(&output), wanted);
    }
    let input = made(&["make", "stamps", "5", "400"]);
    for words in [["stamp_answers"], ["stamp_history"]] {
        let (whole, _) = printed(&words, &input);
        for size in [1, 7, 64] {
            let mut output = Vec::new();
            run(&words, Dribble(&input, size), &mut output).unwrap();
            assert_eq!(shown(&output), shown(&whole));
        }
    }
}

#[test]
fn drawn_steps_for_both_desks() {
    let drawn = |word: &str| shown(&printed(&[word, "5000"], b"").0);
    assert_eq!(drawn("mix"), "3680\t156\t594\t570\t140\n");
    assert_eq!(drawn("stamp_mix"), "4485\t0\t389\t126\t0\n");
}
