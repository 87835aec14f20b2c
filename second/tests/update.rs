//! The update lock (02, No. 1): its own cases, the matrix, the promotions, records and refusals.

use super::{check, check_answers, check_verdict, printed, shown, text};
use crate::desk::{Answer, Desk};
use crate::lines::{read_history, read_request};
use crate::words::*;

#[test]
fn two_that_read_before_they_write() {
    let requests = "u 2 5, u 1 5, w 2 5, c 2, w 1 5, c 1";
    check_answers(2, requests, "3 go 2, 4 wait 1, 5 go 2, 6 go 2, 6 wake 1, 7 go 1, 8 go 1");
    let history = "r 2 5, w 2 5, c 2, r 1 5, w 1 5, c 1";
    check(&["history"], &format!("b, b, {requests}"), history);
    check_verdict(history, "orderly 2 1");
    // By plain reads it costs a sending back; and the younger does not wait for the older.
    check_answers(2, "r 2 5, r 1 5, w 2 5, c 2, w 1 5", "3 go 2, 4 go 1, 5 back 2, 6 no 5, 7 go 1");
    check_answers(
        2,
        "u 1 5, u 2 5, w 1 5, c 1, t 2, u 2 5",
        "3 go 1, 4 back 2, 5 go 1, 6 go 1, 7 go 2, 8 go 2",
    );
}

#[test]
fn age_is_held_against_every_other_holder() {
    // 1 and 2 hold S, 3 holds U, which alone is in the way of 2; but 1 is older.
    check_answers(
        3,
        "r 1 5, r 2 5, u 3 5, u 2 5, u 1 5, c 3",
        "4 go 1, 5 go 2, 6 go 3, 7 back 2, 8 wait 1, 9 go 3, 9 wake 1",
    );
    check_answers(3, "r 2 5, u 3 5, u 2 5, w 3 5", "4 go 2, 5 go 3, 6 wait 2, 7 back 3, 7 wake 2");
    check_answers(3, "r 1 5, r 3 5, u 2 5, w 2 5", "4 go 1, 5 go 3, 6 go 2, 7 back 2");
    check_answers(
        3,
        "r 2 5, r 3 5, u 1 5, i 1 5, c 2, c 3",
        "4 go 2, 5 go 3, 6 go 1, 7 wait 1, 8 go 2, 9 go 3, 9 wake 1",
    );
}

#[test]
fn queues_and_the_update_lock() {
    // S to U goes past a waiting write, and a waiting promotion stands before it.
    check_answers(
        3,
        "r 2 5, r 3 5, w 1 5, u 3 5, u 2 5, c 3, w 2 5, c 2",
        "4 go 2, 5 go 3, 6 wait 1, 7 go 3, 8 wait 2, 9 go 3, 9 wake 2, 10 go 2, 11 go 2, 11 wake 1",
    );
    // A job new to the cell takes U beside S only where nobody waits.
    check_answers(3, "r 3 5, w 1 5, u 2 5", "4 go 3, 5 wait 1, 6 back 2");
    check_answers(
        3,
        "r 3 5, w 2 5, u 1 5, c 3, c 2",
        "4 go 3, 5 wait 2, 6 wait 1, 7 go 3, 7 wake 2, 8 go 2, 8 wake 1",
    );
    // U is granted beside those woken before it, and then nobody beside it.
    check_answers(
        5,
        "w 5 5, r 4 5, r 3 5, u 2 5, r 1 5, c 5, c 2",
        "6 go 5, 7 wait 4, 8 wait 3, 9 wait 2, 10 wait 1, 11 go 5, 11 wake 4, 11 wake 3, 11 wake 2, \
         12 go 2, 12 wake 1",
    );
}

/// A desk with so many jobs, after requests on cell 5 such as `r1`, and the last answer.
fn desk_after(begins: usize, requests: &[String]) -> (Desk, Answer) {
    let mut desk = Desk::start(1).unwrap();
    let mut answer = Answer::No(0);
    for _ in 0..begins {
        desk.step(Line { letter: BEGIN, job: 0, cell: 0 });
    }
    for request in requests {
        let job = request[1..].parse().unwrap();
        answer = desk.step(Line { letter: request.as_bytes()[0], job, cell: 5 }).answer;
    }
    (desk, answer)
}

/// Each letter by which a mode is held, and those that are granted beside it.
const MATRIX: [(&str, &str); 4] = [("r", "ru"), ("u", ""), ("i", "i"), ("w", "")];

#[test]
fn the_matrix_of_held_and_asked() {
    for (held, beside) in MATRIX {
        for asked in ["r", "u", "i", "w"] {
            let goes = beside.contains(asked);
            let (desk, answer) = desk_after(2, &[format!("{held}2"), format!("{asked}1")]);
            assert_eq!(
                answer,
                if goes { Answer::Go(1) } else { Answer::Wait(1) },
                "{asked} by 1 at {held} of 2"
            );
            assert_eq!(desk.cells[5].holders.len(), if goes { 2 } else { 1 });
            let (_, answer) = desk_after(2, &[format!("{held}1"), format!("{asked}2")]);
            assert_eq!(
                answer,
                if goes { Answer::Go(2) } else { Answer::Back(2) },
                "{asked} by 2 at {held} of 1"
            );
        }
    }
}

/// Held, asked, and what is held then.
#[rustfmt::skip]
const TABLE: [(&str, &str, Mode); 16] = [
    ("r", "r", Mode::S), ("r", "u", Mode::U), ("r", "i", Mode::X), ("r", "w", Mode::X),
    ("u", "r", Mode::U), ("u", "u", Mode::U), ("u", "i", Mode::X), ("u", "w", Mode::X),
    ("i", "r", Mode::X), ("i", "u", Mode::X), ("i", "i", Mode::I), ("i", "w", Mode::X),
    ("w", "r", Mode::X), ("w", "u", Mode::X), ("w", "i", Mode::X), ("w", "w", Mode::X),
];

#[test]
fn the_table_of_promotions() {
    for (held, asked, mode) in TABLE {
        let letters = (held.as_bytes()[0], asked.as_bytes()[0]);
        let first = held_after(None, letters.0);
        assert_eq!(first, needs(letters.0));
        assert_eq!(held_after(Some(first), letters.1), mode, "{held}, then {asked}");
        assert_eq!(covers(first, needs(letters.1)), mode == first, "{held}, then {asked}");
        let (desk, answer) = desk_after(1, &[format!("{held}1"), format!("{asked}1")]);
        assert_eq!((answer, desk.cells[5].held_by(1)), (Answer::Go(1), Some(mode)), "{held}, then {asked}");
    }
}

/// What others hold, what the job holds, and the letters that go then.
const COMPANY: [(&str, &str, &str); 4] =
    [("r", "r", "ru"), ("r", "u", "ru"), ("u", "r", "r"), ("i", "i", "i")];

#[test]
fn promotions_beside_others() {
    for (others, held, goes) in COMPANY {
        for asked in ["r", "u", "i", "w"] {
            // Beside a U the job's lock came first, and else the other's.
            let both = |job: u32, other: u32| {
                let mut requests = vec![format!("{others}{other}"), format!("{held}{job}")];
                if others == "u" {
                    requests.swap(0, 1);
                }
                requests.push(format!("{asked}{job}"));
                desk_after(2, &requests)
            };
            let mode = TABLE.iter().find(|row| (row.0, row.1) == (held, asked)).unwrap().2;
            let (old, new) =
                if goes.contains(asked) { (mode, mode) } else { (needs(held.as_bytes()[0]), mode) };
            let (desk, answer) = both(1, 2);
            assert_eq!(desk.cells[5].held_by(1), Some(old), "{others} of 2, {held} and {asked} of 1");
            if goes.contains(asked) {
                assert_eq!(
                    (answer, both(2, 1).1),
                    (Answer::Go(1), Answer::Go(2)),
                    "{others}, {held}, {asked}"
                );
                continue;
            }
            assert_eq!(
                (answer, both(2, 1).1),
                (Answer::Wait(1), Answer::Back(2)),
                "{others}, {held}, {asked}"
            );
            assert_eq!(desk.cells[5].queue[0].mode, new);
            let mut desk = desk;
            let wakes = desk.step(Line { letter: COMMIT, job: 2, cell: 0 }).wakes;
            assert_eq!(wakes, [Line { letter: asked.as_bytes()[0], job: 1, cell: 5 }]);
            assert_eq!(desk.cells[5].held_by(1), Some(new));
        }
    }
}

#[test]
fn u_is_recorded_as_r() {
    // At once, by rule 1 under U and X, as a promotion, and as a wake.
    check(&["history"], "b, u 1 5, u 1 5, r 1 5, w 1 5, u 1 5", "r 1 5, r 1 5, r 1 5, w 1 5, r 1 5");
    check(&["history"], "b, r 1 5, u 1 5, i 1 6, u 1 6", "r 1 5, r 1 5, i 1 6, r 1 6");
    check(&["history"], "b, b, i 1 5, i 2 5, u 1 5, c 2, w 1 5", "i 1 5, i 2 5, c 2, r 1 5, w 1 5");
    check(&["history"], "b, b, w 2 5, u 1 5, a 2", "w 2 5, a 2, r 1 5");
    check(&["history"], "b, b, r 2 5, u 1 5, i 1 5, c 2", "r 2 5, r 1 5, c 2, i 1 5");
    check_verdict("r 1 5, u 2 5, c 1", "no 2 9 1");
    check_verdict("u 256 64", "no 1 9 1");
    // The step tells the letter that was asked.
    let (output, _) = printed(&["steps", "1"], b"98 0 0\n98 0 0\n119 2 5\n117 1 5\n99 2 0\n");
    assert_eq!(shown(&output), "go\t1\ngo\t2\ngo\t2\nwait\t1\ngo\t2\twake\t1\t5\t114\n");
}

#[test]
fn refusals_of_u() {
    // Job 1 waits for cell 5, job 2 runs, job 3 was sent back; the rest is not open.
    let steps = "98 0 0|98 0 0|98 0 0|117 2 5|117 1 5|117 3 5|\
                 117 9 64|117 0 5|117 1 64|117 3 64|117 2 64|117 2 4294967295|85 2 5|117 2 63|99 2 0";
    let wanted =
        "go 1|go 2|go 3|go 2|wait 1|back 3|no 3|no 3|no 4|no 5|no 2|no 2|no 1|go 2|go 2 wake 1 5 114";
    let (output, _) = printed(&["steps", "1"], steps.replace('|', "\n").as_bytes());
    assert_eq!(shown(&output).replace('\t', " ").trim_end().replace('\n', "|"), wanted);
}

#[test]
fn lines_of_u() {
    let good: &[(&[u8], u32, u32)] =
        &[(b"u\t7\t64\n", 7, 64), (b"u\t0\t0\n", 0, 0), (b"u\t4294967295\t99\n", LAST_NUMBER, 99)];
    for &(line, job, cell) in good {
        assert_eq!(read_request(line), Ok(Line { letter: UPDATE, job, cell }));
        assert_eq!(read_history(line), Err(LETTER));
    }
    #[rustfmt::skip]
    let bad: [(u8, &[&[u8]]); 4] = [
        (LETTER, &[b"U\t7\t6\n", b"uu\t7\t6\n"]),
        (JOB, &[b"u\n", b"u", b"u\t07\t6\n", b"u\t4294967296\t6\n"]),
        (CELL, &[b"u\t7\n", b"u\t7\t\n", b"u\t7\t100\n", b"u\t7\t06\n", b"u\t7\t6\r\n"]),
        (END, &[b"u\t7\t6", b"u\t7\t6\t\n", b"u\t7\t6\t1\n"]),
    ];
    for (field, lines) in bad {
        for line in lines {
            assert_eq!(read_request(line), Err(field), "{}", shown(line));
            assert_eq!(read_history(line), Err(LETTER), "{}", shown(line));
        }
    }
    let (output, _) = printed(&["lines"], b"u\t7\t64\nu\t7\n");
    let wanted = "1 go 117, 1 wait 7, 1 back 64, 1 wake 9 1, 2 no 9 3, 2 wake 9 1";
    assert_eq!(shown(&output), shown(&text(wanted)));
}
