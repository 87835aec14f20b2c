//! The papers' words: letters, limits and refusals, the modes of locks, and what conflicts.

use Mode::{I, S, U, X};

/// 01, Lines, and 02, No. 1: the letters of requests and histories.
pub const BEGIN: u8 = b'b';
pub const COMMIT: u8 = b'c';
pub const GIVE_UP: u8 = b'a';
pub const RETRY: u8 = b't';
pub const READ: u8 = b'r';
pub const WRITE: u8 = b'w';
pub const INCREMENT: u8 = b'i';
pub const UPDATE: u8 = b'u';
pub const SENT_BACK: u8 = b'k';

/// 01, Lines: "Requests" and "History"; `u` is a request alone (02, No. 1).
pub const REQUEST_LETTERS: &[u8] = b"bcatrwiu";
pub const HISTORY_LETTERS: &[u8] = b"rwicak";

/// 01, What is delivered, Jobs and their numbers, Lines, Refusals by number.
pub const CELLS: usize = 64;
pub const PLACES: usize = 32;
pub const LAST_NUMBER: u32 = 4_294_967_295;
/// "cell, one or two digits"
pub const LAST_CELL: u32 = 99;
pub const DESK_LINES: u64 = 1_000_000;
pub const HISTORY_LINES: usize = 4_096;
pub const HISTORY_JOBS: usize = 255;
pub const HISTORY_BYTES: usize = 65_536;

/// 01, Refusals by number (15 belongs to buffers of fixed size, which this program has not), 18 of 02,
/// No. 3, and 19 of No. 6.
pub const NO_SUCH_KIND: u8 = 1;
pub const NO_SUCH_CELL: u8 = 2;
pub const JOB_NOT_OPEN: u8 = 3;
pub const JOB_WAITING: u8 = 4;
pub const JOB_SENT_BACK: u8 = 5;
pub const PLACES_FULL: u8 = 6;
pub const NUMBERS_OUT: u8 = 7;
pub const JOB_RUNNING: u8 = 8;
pub const BAD_LINE: u8 = 9;
pub const START_ZERO: u8 = 10;
pub const LINE_TOO_MANY: u8 = 11;
pub const JOB_OUTSIDE: u8 = 12;
pub const JOB_ENDED: u8 = 13;
pub const BUFFER_SHORT: u8 = 14;
pub const TEXT_LONG: u8 = 16;
pub const LIST_SHORT: u8 = 18;
pub const NO_RETRY: u8 = 19;

/// 02, No. 5: the fields of a line, by which refusal 9 tells the one at fault; END is "anything after the
/// last field the letter has".
pub const LETTER: u8 = 1;
pub const JOB: u8 = 2;
pub const CELL: u8 = 3;
pub const END: u8 = 4;

/// A request, a wake or a history event: its letter and, where the letter has them,
/// its job and its cell (01, Lines).
#[derive(Clone, Copy, PartialEq, Debug)]
pub struct Line {
    pub letter: u8,
    pub job: u32,
    pub cell: u32,
}

/// 01, Lines: every letter but `b` has a job.
pub fn has_job(letter: u8) -> bool {
    letter != BEGIN
}

/// 01, Lines: `r`, `w` and `i` have a cell; and so has `u` (02, No. 1).
pub fn has_cell(letter: u8) -> bool {
    matches!(letter, READ | WRITE | INCREMENT | UPDATE)
}

/// 02, No. 1: "The history records `u` as `r`."
pub fn recorded(letter: u8) -> u8 {
    if letter == UPDATE {
        READ
    } else {
        letter
    }
}

/// 01, The desk's rules, and 02, No. 1: lock modes, in the order of the tables below.
#[derive(Clone, Copy, PartialEq, Debug)]
pub enum Mode {
    S,
    U,
    I,
    X,
}

/// 01, The desk's rules: "Read needs S, write X, increment I."; 02, No. 1: "`u` ... asks for U."
pub fn needs(letter: u8) -> Mode {
    match letter {
        READ => S,
        UPDATE => U,
        INCREMENT => I,
        _ => X,
    }
}

/// 01, The desk's rules, and 02, No. 1: whether a mode asked for may be granted beside a mode that
/// another job holds. Not the same both ways: U beside a held S, but S not beside a held U.
#[rustfmt::skip]
pub fn granted_beside(held: Mode, asked: Mode) -> bool {
    let row = match held {
        // asked: S, U, I, X
        S => [true,  true,  false, false],
        U => [false, false, false, false],
        I => [false, false, true,  false],
        X => [false, false, false, false],
    };
    row[asked as usize]
}

/// 01, The desk's rules, and 02, No. 1: X covers all four needs, U covers U and S, S covers S, I
/// covers I.
#[rustfmt::skip]
pub fn covers(held: Mode, need: Mode) -> bool {
    let row = match held {
        // needed: S, U, I, X
        S => [true,  false, false, false],
        U => [true,  true,  false, false],
        I => [false, false, true,  false],
        X => [true,  true,  true,  true],
    };
    row[need as usize]
}

/// 01, Rules 2 and 3, and 02, No. 1: the mode that a job holds once a request is granted, by what it
/// held before.
#[rustfmt::skip]
pub fn held_after(held: Option<Mode>, letter: u8) -> Mode {
    let row = match held {
        // r, u, i, w
        None    => [S, U, I, X],
        Some(S) => [S, U, X, X],
        Some(U) => [U, U, X, X],
        Some(I) => [X, X, I, X],
        Some(X) => [X, X, X, X],
    };
    row[needs(letter) as usize]
}

/// 01, The judge's rules: two jobs' actions on one cell conflict unless both are reads
/// or both are increments.
pub fn conflict(one: u8, other: u8) -> bool {
    !(one == other && (one == READ || one == INCREMENT))
}
