//! The desk: refusals in their order, the rules, and the points of docs/DECISIONS.md.

use super::{check, check_answers, printed, shown};

#[test]
fn refusals_in_their_order() {
    // Job 1 waits for cell 5, job 2 runs, job 3 was sent back; the rest is not open.
    let start = "98 0 0|98 0 0|98 0 0|119 2 5|114 1 5|119 3 5|";
    let tried = "0 2 0|107 9 99|66 0 0|114 9 64|99 0 5|114 1 64|116 1 0|99 1 0|114 3 64|99 3 0|\
                 116 2 64|119 2 64|105 2 4294967295|114 2 261|114 2 63|99 2 99|97 3 99|97 1 77";
    let wanted = "no 1|no 1|no 1|no 3|no 3|no 4|no 4|no 4|no 5|no 5|no 8|no 2|no 2|no 2|go 2|go 2 wake 1 5 114|go 3|go 1";
    let input = [start, tried].concat().replace('|', "\n");
    let (output, _) = printed(&["steps", "1"], input.as_bytes());
    let output = shown(&output).replace('\t', " ");
    let last: Vec<&str> = output.lines().skip(6).collect();
    assert_eq!(last.join("|"), wanted);
}

#[test]
fn begin_tests_7_before_6() {
    let input = b"98 0 0\n".repeat(33);
    let (output, _) = printed(&["steps", "4294967264"], &input);
    assert!(shown(&output).ends_with("go\t4294967295\nno\t7\n"));
    let (output, _) = printed(&["steps", "4294967263"], &input);
    assert!(shown(&output).ends_with("go\t4294967294\nno\t6\n"));
}

#[test]
fn steps_started_at_0_and_misused() {
    assert_eq!(printed(&["steps", "0"], b"98 0 0\n"), (b"no\t10\n".to_vec(), 0));
    for bad in ["98 0", "98 0 0 0", "257 0 0", "354 0 0", "98  0 0", "98 4294967296 0", "x 0 0", ""] {
        let input = format!("98 0 0\n{bad}\n98 0 0\n");
        assert_eq!(printed(&["steps", "5"], input.as_bytes()), (b"go\t5\n".to_vec(), 2), "{bad}");
    }
    assert_eq!(printed(&["steps", "4294967296"], b"").1, 2);
    assert_eq!(printed(&["make", "rabbits", "1", "1"], b"").1, 2);
}

#[test]
fn rules_one_by_one() {
    // Rule 1: S does not cover I; two modes agree only as S with S or I with I.
    check_answers(2, "r 1 5, r 2 5, i 1 5", "3 go 1, 4 go 2, 5 wait 1");
    check_answers(2, "r 1 5, i 2 5", "3 go 1, 4 back 2");
    check_answers(2, "i 2 5, r 1 5", "3 go 2, 4 wait 1");
    // Rule 2: a promotion waits before those that wait already, and is granted X.
    check_answers(
        4,
        "r 3 5, r 4 5, w 1 5, w 3 5, c 4, c 3",
        "5 go 3, 6 go 4, 7 wait 1, 8 wait 3, 9 go 4, 9 wake 3, 10 go 3, 10 wake 1",
    );
    check_answers(
        3,
        "i 1 5, i 2 5, r 1 5, c 2, r 3 5, i 1 5",
        "4 go 1, 5 go 2, 6 wait 1, 7 go 2, 7 wake 1, 8 back 3, 9 go 1",
    );
    // Rule 3: older than every holder, but not than every waiter; and the other way round.
    check_answers(4, "r 4 5, w 1 5, r 2 5", "5 go 4, 6 wait 1, 7 back 2");
    check_answers(4, "r 1 5, r 4 5, w 2 5", "5 go 1, 6 go 4, 7 back 2");
}

#[test]
fn points_that_01_leaves_open() {
    // A woken promotion: I held, read asked, X granted, and the record's letter is r.
    check(&["history"], "b, b, i 1 5, i 2 5, r 1 5, c 2, w 1 5", "i 1 5, i 2 5, c 2, r 1 5, w 1 5");
    // A sent back job gives up: go, `a`, no wakes; then it is not open.
    check_answers(2, "r 1 5, w 2 5, a 2, a 2", "3 go 1, 4 back 2, 5 go 2, 6 no 3");
    check(&["history"], "b, b, r 1 5, w 2 5, a 2, a 2", "r 1 5, k 2, a 2");
    // A waiting job that gives up drops its locks and may wake those behind it.
    check_answers(
        4,
        "w 3 9, w 2 9, r 4 5, w 3 5, r 2 9, a 3",
        "5 go 3, 6 wait 2, 7 go 4, 8 wait 3, 9 no 4, 10 go 3, 10 wake 2",
    );
    check_answers(3, "r 3 5, w 2 5, r 1 5, a 2", "4 go 3, 5 wait 2, 6 wait 1, 7 go 2, 7 wake 1");
    // A read does not pass a waiting write although the holder reads; a woken pair shares.
    check_answers(
        4,
        "w 4 5, r 3 5, r 2 5, w 1 5, c 4",
        "5 go 4, 6 wait 3, 7 wait 2, 8 wait 1, 9 go 4, 9 wake 3, 9 wake 2",
    );
    // Wakes go by cells, 0 first, whatever the order of asking.
    check_answers(
        3,
        "w 3 63, w 3 0, r 1 63, r 2 0, a 3",
        "4 go 3, 5 go 3, 6 wait 1, 7 wait 2, 8 go 3, 8 wake 2, 8 wake 1",
    );
    // Retry keeps the number and holds nothing.
    check_answers(
        3,
        "r 2 1, r 1 5, w 2 5, w 3 1, t 2, r 2 1",
        "4 go 2, 5 go 1, 6 back 2, 7 go 3, 8 go 2, 9 wait 2",
    );
}
