//! The lock desk, the timestamp desk, the judge and their lines, for programs in Rust: a safe face
//! (wrapper) over the archive libtuyenlomac.a, which is for x86-64 Linux.
//!
//! Put this file beside your own, write `mod tuyenlomac;`, and tell rustc where the archive is (`-L`).
//! docs/LIBRARY.md has the commands, and include/tuyenlomac.h says for every function what it answers.
//! The types enforce what the header asks of a caller: only `start` makes a desk, nobody can write or
//! copy its fields, and a step borrows it as `&mut`, so there is one caller at a time. A program with
//! threads keeps a desk in a `Mutex`. The types do not see what the program does with the cells' data.
//! For that there are rules:
//!
//! At the lock desk a job that is sent back (aborted) has lost its locks, and others may have been granted
//! its cells, before its caller sees `Back`. To tell a woken job is to set, under the mutex, the flag that
//! its thread tests, and to signal. So
//! - after `Back`: undo (take back) what the job did before you tell any woken job and before you free the
//!   mutex, which stays locked from before the step;
//! - before a give-up (abort): first undo what the job did, then make the call;
//! - after a commit or a give-up: set the flags of the woken jobs before you free the mutex; you may signal
//!   after that;
//! - an increment is one atomic operation on the cell's data, since increment locks are shared; undo it by
//!   the opposite increment, not by restoring the old value.
//!
//! Instead of the first two: keep the job's changes aside and apply them once all its requests are granted,
//! before its commit; then there is nothing to undo. A wake grants the cell: the job does not ask again.
//! library/count.rs is a program with threads that does all this.
//!
//! The timestamp desk holds no locks: a `Go` is valid only until the mutex is freed. Act before that, and
//! undo before that. docs/LIBRARY.md says more about it.
//!
//! Nothing here allocates, or keeps anything between calls. A panic could come only from an answer that
//! the archive never gives; the comment beside each says what rules it out.
#![allow(dead_code)] // a program may use only a part of it

use std::fmt;
use std::mem::{align_of, size_of};

/// The most jobs that may be open at once; a chain has at most 32 jobs, and a step at most 31 wakes.
pub const PLACES: usize = 32;
/// Cells are 0 to 63.
pub const CELLS: u32 = 64;
/// Places of an order buffer for the judge; fewer are refused.
pub const ORDER: usize = 255;
/// No answer record to a request line up to 1,000,000 has more bytes.
pub const RECORD: usize = 24;

/// The kind of a request that begins a job.
pub const BEGIN: u8 = b'b';
/// The kind of a request that commits a job.
pub const COMMIT: u8 = b'c';
/// The kind of a request by which a job gives up.
pub const GIVE_UP: u8 = b'a';
/// The kind of a request that retries a job that was sent back: the job runs again under its number, with
/// no locks.
pub const RETRY: u8 = b't';
/// The kind of a request to read a cell.
pub const READ: u8 = b'r';
/// The kind of a request to write a cell.
pub const WRITE: u8 = b'w';
/// The kind of a request to increment a cell.
pub const INCREMENT: u8 = b'i';
/// The kind of a request to read a cell with intent to write it.
pub const UPDATE: u8 = b'u';
/// The letter of a job that was sent back, only in histories; as a request it is refused.
pub const SENT_BACK: u8 = b'k';

/// The archive's own functions and what they return, as include/tuyenlomac.h declares them.
mod raw {
    #[repr(C)]
    pub struct Answer {
        pub word: u32,
        pub number: u32,
        pub wakes: usize,
    }

    #[repr(C)]
    pub struct Chain {
        pub refusal: u32,
        pub jobs: usize,
    }

    #[repr(C)]
    pub struct Judgement {
        pub said: [u32; 4],
        pub from: usize,
        pub length: usize,
    }

    #[repr(C)]
    pub struct Line {
        pub job: u32,
        pub cell: u32,
        pub kind: u8,
        pub field: u8,
    }

    #[repr(C)]
    pub struct Written {
        pub refusal: u32,
        pub next: usize,
    }

    // A reference to an array is passed as a pointer to its first element, not null and aligned.
    #[link(name = "tuyenlomac", kind = "static")]
    unsafe extern "C" {
        pub fn tuyenlomac_locks_start_on(
            next: &mut u64,
            number: &mut [u32; 32],
            status: &mut [u8; 32],
            cell: &mut [u8; 32],
            ask: &mut [u8; 32],
            held: &mut [u8; 2048],
            first: u32,
        ) -> u32;
        pub fn tuyenlomac_locks_step_on(
            next: &mut u64,
            number: &mut [u32; 32],
            status: &mut [u8; 32],
            cell: &mut [u8; 32],
            ask: &mut [u8; 32],
            held: &mut [u8; 2048],
            jobs: &mut [u32; 32],
            cells: &mut [u32; 32],
            kinds: &mut [u8; 32],
            kind: u8,
            job: u32,
            asked: u32,
        ) -> Answer;
        pub fn tuyenlomac_locks_chain_on(
            next: &u64,
            number: &[u32; 32],
            status: &[u8; 32],
            cell: &[u8; 32],
            ask: &[u8; 32],
            held: &[u8; 2048],
            job: u32,
            list: *mut u32,
            length: usize,
        ) -> Chain;
        pub fn tuyenlomac_stamps_start_on(
            next: &mut u64,
            number: &mut [u32; 32],
            reader: &mut [u32; 64],
            writer: &mut [u32; 64],
            first: u32,
        ) -> u32;
        pub fn tuyenlomac_stamps_step_on(
            next: &mut u64,
            number: &mut [u32; 32],
            reader: &mut [u32; 64],
            writer: &mut [u32; 64],
            kind: u8,
            job: u32,
            cell: u32,
        ) -> Answer;
        pub fn tuyenlomac_judge(text: *const u8, length: usize, order: *mut u8, places: usize) -> Judgement;
        pub fn tuyenlomac_read_request(line: *const u8, length: usize) -> Line;
        pub fn tuyenlomac_read_history(line: *const u8, length: usize) -> Line;
        pub fn tuyenlomac_write_answer(
            buffer: *mut u8,
            length: usize,
            at: usize,
            line: u64,
            word: u32,
            number: u64,
            field: u64,
        ) -> Written;
        pub fn tuyenlomac_write_line(
            buffer: *mut u8,
            length: usize,
            at: usize,
            kind: u8,
            job: u64,
            cell: u64,
        ) -> Written;
    }
}

// The header's sizes; repr(C) puts the fields where the header has them.
const _: () = assert!(size_of::<usize>() == 8);
const _: () = assert!(size_of::<raw::Answer>() == 16 && align_of::<raw::Answer>() == 8);
const _: () = assert!(size_of::<raw::Chain>() == 16 && align_of::<raw::Chain>() == 8);
const _: () = assert!(size_of::<raw::Judgement>() == 32 && align_of::<raw::Judgement>() == 8);
const _: () = assert!(size_of::<raw::Line>() == 12 && align_of::<raw::Line>() == 4);
const _: () = assert!(size_of::<raw::Written>() == 16 && align_of::<raw::Written>() == 8);
const _: () = assert!(size_of::<Locks>() == 2280 && align_of::<Locks>() == 8);
const _: () = assert!(size_of::<Stamps>() == 648 && align_of::<Stamps>() == 8);
const _: () = assert!(size_of::<Wakes>() == 288 + 8 && align_of::<Wakes>() == 8);

/// Why nothing was done. The numbers are the header's.
#[derive(Clone, Copy, Debug, PartialEq, Eq, Hash)]
#[repr(u32)]
pub enum Refusal {
    /// Not a letter of requests; or, for a record, an unknown letter.
    UnknownKind = 1,
    /// A cell above 63.
    CellAbove = 2,
    /// The job is not open; 0 never is.
    NotOpen = 3,
    /// The job waits, and the request is not a give-up.
    Waiting = 4,
    /// The job was sent back, and the request is neither a retry nor a give-up; or its chain is asked for.
    WasSentBack = 5,
    /// Begin while 32 jobs are open.
    AllOpen = 6,
    /// Begin after 4,294,967,295 was given.
    NoNumberLeft = 7,
    /// Retry of a running job.
    Running = 8,
    /// A bad line; the `Field` beside it is the one at fault.
    BadLine = 9,
    /// A desk started at number 0.
    StartedAtZero = 10,
    /// A history has a line 4,097.
    TooManyLines = 11,
    /// A history has a job outside 1 to 255.
    JobOutside = 12,
    /// A history has a line for a job that has committed or given up.
    Ended = 13,
    /// An order buffer of fewer than 255 places.
    ShortOrder = 14,
    /// The record does not fit from the place given.
    NoRoom = 15,
    /// A list of fewer than 32 places for a chain.
    ShortList = 18,
    /// Retry of an open job at the timestamp desk.
    NoRetry = 19,
}

impl Refusal {
    /// Its number, as records have it.
    pub fn number(self) -> u32 {
        self as u32
    }

    const ALL: [Refusal; 17] = [
        Refusal::UnknownKind,
        Refusal::CellAbove,
        Refusal::NotOpen,
        Refusal::Waiting,
        Refusal::WasSentBack,
        Refusal::AllOpen,
        Refusal::NoNumberLeft,
        Refusal::Running,
        Refusal::BadLine,
        Refusal::StartedAtZero,
        Refusal::TooManyLines,
        Refusal::JobOutside,
        Refusal::Ended,
        Refusal::ShortOrder,
        Refusal::NoRoom,
        Refusal::ShortList,
        Refusal::NoRetry,
    ];

    fn of(number: u32) -> Refusal {
        match Refusal::ALL.iter().find(|refusal| refusal.number() == number) {
            Some(&refusal) => refusal,
            // By its contract every function of the archive returns the number of a refusal above; only the
            // program verdict gives 16.
            None => unreachable!("no refusal has the number {}", number),
        }
    }
}

impl fmt::Display for Refusal {
    fn fmt(&self, f: &mut fmt::Formatter<'_>) -> fmt::Result {
        write!(f, "refusal {}, {:?}", self.number(), self)
    }
}

impl std::error::Error for Refusal {}

/// The field of a line that is at fault; the lowest if there are several.
#[derive(Clone, Copy, Debug, PartialEq, Eq, Hash)]
#[repr(u8)]
pub enum Field {
    /// The letter; an empty line too.
    Letter = 1,
    /// The job.
    Job = 2,
    /// The cell.
    Cell = 3,
    /// What follows the last field that the letter has; a missing newline too.
    Rest = 4,
}

impl Field {
    /// Its number, as records have it.
    pub fn number(self) -> u8 {
        self as u8
    }

    const ALL: [Field; 4] = [Field::Letter, Field::Job, Field::Cell, Field::Rest];

    fn of(number: u32) -> Option<Field> {
        let found = Field::ALL.iter().find(|field| u32::from(field.number()) == number).copied();
        // By their contracts the readers and the judge return 0, or the number of one of four fields.
        assert!(found.is_some() || number == 0, "no field has the number {}", number);
        found
    }
}

impl fmt::Display for Field {
    fn fmt(&self, f: &mut fmt::Formatter<'_>) -> fmt::Result {
        write!(f, "a bad line: field {}, {:?}", self.number(), self)
    }
}

impl std::error::Error for Field {}

/// The word of an answer record. The numbers are the header's.
#[derive(Clone, Copy, Debug, PartialEq, Eq, Hash)]
#[repr(u32)]
pub enum Word {
    /// The request is done, or granted.
    Go = 0,
    /// The job waits.
    Wait = 1,
    /// The job was sent back.
    Back = 2,
    /// Nothing was done.
    No = 3,
    /// A job that waited was granted its cell.
    Wake = 4,
}

/// What a desk answers to one request. The number is the job's, for a begin the new one.
#[derive(Clone, Copy, Debug, PartialEq, Eq, Hash)]
#[must_use = "a request may have been told to wait, sent back or refused"]
pub enum Answer {
    /// The request is done.
    Go(u32),
    /// The job waits: it may only give up until a wake of a later step names it. The timestamp desk never
    /// gives this answer.
    Wait(u32),
    /// The job was sent back and holds nothing. At the lock desk it may retry or give up; at the
    /// timestamp desk it is closed. Undo what it did before you tell the woken jobs and free the mutex.
    Back(u32),
    /// Nothing was done, and the desk did not change.
    No(Refusal),
}

impl Answer {
    /// The word of its record.
    pub fn word(self) -> Word {
        match self {
            Answer::Go(_) => Word::Go,
            Answer::Wait(_) => Word::Wait,
            Answer::Back(_) => Word::Back,
            Answer::No(_) => Word::No,
        }
    }

    /// The number of its record: the job, or the refusal.
    pub fn number(self) -> u32 {
        match self {
            Answer::Go(job) | Answer::Wait(job) | Answer::Back(job) => job,
            Answer::No(refusal) => refusal.number(),
        }
    }

    fn of(told: &raw::Answer) -> Answer {
        const GO: u32 = Word::Go as u32;
        const WAIT: u32 = Word::Wait as u32;
        const BACK: u32 = Word::Back as u32;
        const NO: u32 = Word::No as u32;
        match told.word {
            GO => Answer::Go(told.number),
            WAIT => Answer::Wait(told.number),
            BACK => Answer::Back(told.number),
            NO => Answer::No(Refusal::of(told.number)),
            // By its contract each step returns the number of one of these four words.
            _ => unreachable!("no answer has the word {}", told.word),
        }
    }
}

/// A job that goes on now: the cell that it was granted, and what it does there, `READ` (also if it asked
/// `UPDATE`), `WRITE` or `INCREMENT`.
#[derive(Clone, Copy, Debug, PartialEq, Eq, Hash)]
pub struct Wake {
    pub kind: u8,
    pub job: u32,
    pub cell: u32,
}

/// The wakes of one step, in order. Keep one such list for all steps: each step replaces the wakes in it.
/// It is not a part of the desk. After `Back`, tell the woken jobs when what the job did is undone; set
/// their flags before the mutex is freed.
#[repr(C)]
#[derive(Clone)]
pub struct Wakes {
    job: [u32; PLACES],
    cell: [u32; PLACES],
    kind: [u8; PLACES],
    // how many of the first places the last step filled; the others are never shown
    len: usize,
}

impl Wakes {
    /// No wakes yet.
    pub const fn new() -> Wakes {
        Wakes { job: [0; PLACES], cell: [0; PLACES], kind: [0; PLACES], len: 0 }
    }

    /// How many jobs the last step woke.
    pub fn len(&self) -> usize {
        self.len
    }

    /// Whether the last step woke no job.
    pub fn is_empty(&self) -> bool {
        self.len == 0
    }

    /// The wake at a place, if the last step had that many.
    pub fn get(&self, place: usize) -> Option<Wake> {
        if place >= self.len {
            return None;
        }
        // A step has at most as many wakes as there are places, so none is missed here.
        Some(Wake { kind: self.kind[place], job: self.job[place], cell: self.cell[place] })
    }

    /// The wakes of the last step, in order; `for wake in &wakes` goes through them too.
    pub fn iter(&self) -> Iter<'_> {
        Iter { wakes: self, place: 0 }
    }
}

/// The wakes of a step, one after the other.
#[derive(Clone, Debug)]
pub struct Iter<'a> {
    wakes: &'a Wakes,
    place: usize,
}

impl Iterator for Iter<'_> {
    type Item = Wake;

    fn next(&mut self) -> Option<Wake> {
        let wake = self.wakes.get(self.place)?;
        self.place += 1;
        Some(wake)
    }

    fn size_hint(&self) -> (usize, Option<usize>) {
        let left = self.wakes.len - self.place;
        (left, Some(left))
    }
}

impl ExactSizeIterator for Iter<'_> {}

impl<'a> IntoIterator for &'a Wakes {
    type Item = Wake;
    type IntoIter = Iter<'a>;

    fn into_iter(self) -> Iter<'a> {
        self.iter()
    }
}

impl Default for Wakes {
    fn default() -> Wakes {
        Wakes::new()
    }
}

impl fmt::Debug for Wakes {
    fn fmt(&self, f: &mut fmt::Formatter<'_>) -> fmt::Result {
        f.debug_list().entries(self.iter()).finish()
    }
}

/// A lock desk. It cannot be copied, only moved and lent: there is no second desk for the same jobs.
#[repr(C)]
#[derive(Debug)]
pub struct Locks {
    next: u64,
    number: [u32; 32],
    status: [u8; 32],
    cell: [u8; 32],
    ask: [u8; 32],
    held: [u8; 2048],
}

impl Locks {
    /// A lock desk whose first begin gets this number; `StartedAtZero` for 0.
    pub fn start(first: u32) -> Result<Locks, Refusal> {
        let mut d =
            Locks { next: 0, number: [0; 32], status: [0; 32], cell: [0; 32], ask: [0; 32], held: [0; 2048] };
        // Sound: six fields of one value that nobody else has yet.
        let refusal = unsafe {
            raw::tuyenlomac_locks_start_on(
                &mut d.next,
                &mut d.number,
                &mut d.status,
                &mut d.cell,
                &mut d.ask,
                &mut d.held,
                first,
            )
        };
        if refusal == 0 {
            Ok(d)
        } else {
            Err(Refusal::of(refusal))
        }
    }

    /// One request; its kind is a letter such as `BEGIN`. A begin reads neither job nor cell; commit, give-up
    /// and retry read no cell. The step's wakes replace those in `wakes`; only a commit, a give-up and a
    /// `Back` wake other jobs. Undo what the job did before a give-up, and after `Back` before anything else.
    pub fn step(&mut self, kind: u8, job: u32, cell: u32, wakes: &mut Wakes) -> Answer {
        // Sound: the fields of two values that nobody else borrows during this call.
        let told = unsafe {
            raw::tuyenlomac_locks_step_on(
                &mut self.next,
                &mut self.number,
                &mut self.status,
                &mut self.cell,
                &mut self.ask,
                &mut self.held,
                &mut wakes.job,
                &mut wakes.cell,
                &mut wakes.kind,
                kind,
                job,
                cell,
            )
        };
        wakes.len = told.wakes;
        Answer::of(&told)
    }

    /// The jobs that wait now, in no particular order.
    pub fn waiting(&self) -> impl Iterator<Item = u32> + '_ {
        const WAITING: u8 = 2; // as the header has it
        (0..PLACES).filter(move |&place| self.status[place] == WAITING).map(move |place| self.number[place])
    }

    /// Why a job waits: the job, the youngest (the largest number) in its way, the youngest in that one's
    /// way, and so on to a job that runs; for a running job, itself alone. A refusal is the first that applies
    /// of `NotOpen`, `WasSentBack` and `ShortList` (fewer than 32 places). The places after the chain are
    /// unchanged.
    pub fn chain<'a>(&self, job: u32, list: &'a mut [u32]) -> Result<&'a [u32], Refusal> {
        // Sound: the desk is only read, and a slice's pointer and length go together.
        let told = unsafe {
            raw::tuyenlomac_locks_chain_on(
                &self.next,
                &self.number,
                &self.status,
                &self.cell,
                &self.ask,
                &self.held,
                job,
                list.as_mut_ptr(),
                list.len(),
            )
        };
        if told.refusal == 0 {
            // By its contract a chain has at most 32 jobs, and the list has at least 32 places.
            Ok(&list[..told.jobs])
        } else {
            Err(Refusal::of(told.refusal))
        }
    }
}

/// A timestamp desk: no job waits, and a job that comes too late is sent back (aborted) and closed. The
/// desk cannot be copied.
#[repr(C)]
#[derive(Debug)]
pub struct Stamps {
    next: u64,
    number: [u32; 32],
    reader: [u32; 64],
    writer: [u32; 64],
}

impl Stamps {
    /// A timestamp desk whose first begin gets this number; `StartedAtZero` for 0.
    pub fn start(first: u32) -> Result<Stamps, Refusal> {
        let mut d = Stamps { next: 0, number: [0; 32], reader: [0; 64], writer: [0; 64] };
        // Sound: four fields of one value that nobody else has yet.
        let refusal = unsafe {
            raw::tuyenlomac_stamps_start_on(&mut d.next, &mut d.number, &mut d.reader, &mut d.writer, first)
        };
        if refusal == 0 {
            Ok(d)
        } else {
            Err(Refusal::of(refusal))
        }
    }

    /// One request, as to a lock desk, but no job waits or wakes. After `Go`, act before the mutex is freed,
    /// since nothing is held.
    pub fn step(&mut self, kind: u8, job: u32, cell: u32) -> Answer {
        // Sound: four fields of a value that nobody else borrows during this call.
        let told = unsafe {
            raw::tuyenlomac_stamps_step_on(
                &mut self.next,
                &mut self.number,
                &mut self.reader,
                &mut self.writer,
                kind,
                job,
                cell,
            )
        };
        Answer::of(&told)
    }
}

/// What the judge says about a history, in parts of the order buffer or of the text.
#[derive(Clone, Copy, Debug, PartialEq, Eq)]
#[must_use]
pub enum Verdict<'a, 'b> {
    /// There is a serial order: these jobs, one after the other.
    Orderly(&'b [u8]),
    /// There is a cycle of conflicts: through these jobs, and from the last to the first.
    Knot(&'b [u8]),
    /// A committed run read from a run that had not ended then and never commits: reader and writer of the
    /// first such read.
    Dirty { reader: u8, writer: u8 },
    /// The history is not judged: the refusal; the number of the faulty line, 0 if none is at fault; that
    /// line, as it is in the text, without its newline; and for `BadLine` its field at fault.
    No { refusal: Refusal, line: u32, faulty: &'a [u8], field: Option<Field> },
}

/// The verdict on the text of a history. The order buffer has 255 places or more, otherwise the verdict is
/// `ShortOrder`; the places that the verdict does not fill are unchanged.
pub fn judge<'a, 'b>(text: &'a [u8], order: &'b mut [u8]) -> Verdict<'a, 'b> {
    // Sound: two slices, each pointer with its length; nobody else borrows the one that is written.
    let told = unsafe { raw::tuyenlomac_judge(text.as_ptr(), text.len(), order.as_mut_ptr(), order.len()) };
    let [word, second, third, fourth] = told.said;
    // By the judge's contract an order or a knot fills that many places of a buffer that has at least 255,
    // and the faulty line is in the text, from that place on, with that length.
    match word {
        0 => Verdict::Orderly(&order[..second as usize]),
        1 => Verdict::Knot(&order[..second as usize]),
        2 => Verdict::No {
            refusal: Refusal::of(second),
            line: third,
            faulty: &text[told.from..][..told.length],
            field: Field::of(fourth),
        },
        // A judged history has only jobs 1 to 255, so no bit of the two is lost.
        3 => Verdict::Dirty { reader: second as u8, writer: third as u8 },
        // By its contract the judge returns the number of one of these four cases.
        _ => unreachable!("no verdict has the word {}", word),
    }
}

/// What a good line says: its letter, and its job and cell, 0 if the letter has none.
#[derive(Clone, Copy, Debug, PartialEq, Eq, Hash)]
pub struct Line {
    pub kind: u8,
    pub job: u32,
    pub cell: u32,
}

impl Line {
    fn of(told: raw::Line) -> Result<Line, Field> {
        match Field::of(u32::from(told.field)) {
            None => Ok(Line { kind: told.kind, job: told.job, cell: told.cell }),
            Some(field) => Err(field),
        }
    }
}

/// What one line says as a request, with the newline that ends it; or the field at fault.
pub fn read_request(line: &[u8]) -> Result<Line, Field> {
    // Sound: a slice's pointer and length.
    Line::of(unsafe { raw::tuyenlomac_read_request(line.as_ptr(), line.len()) })
}

/// What one line says as a line of a history, with the newline that ends it; or the field at fault.
pub fn read_history(line: &[u8]) -> Result<Line, Field> {
    // Sound: a slice's pointer and length.
    Line::of(unsafe { raw::tuyenlomac_read_history(line.as_ptr(), line.len()) })
}

fn place(told: raw::Written) -> Result<usize, Refusal> {
    if told.refusal == 0 {
        Ok(told.next)
    } else {
        Err(Refusal::of(told.refusal))
    }
}

/// Writes an answer record into a buffer from a place on: the number of the request's line, the word, a
/// number, and for a `BadLine` the field at fault. Returns the place after it. On failure it returns
/// `NoRoom` and leaves the buffer unchanged.
pub fn write_answer(
    buffer: &mut [u8],
    at: usize,
    line: u64,
    word: Word,
    number: u64,
    field: Option<Field>,
) -> Result<usize, Refusal> {
    let fault = field.map_or(0, |field| u64::from(field.number()));
    // Sound: a slice's pointer and length; any place will do.
    place(unsafe {
        raw::tuyenlomac_write_answer(buffer.as_mut_ptr(), buffer.len(), at, line, word as u32, number, fault)
    })
}

/// Writes the line of a letter, with the job and cell that the letter has, into a buffer from a place on: a
/// request or a history record. Returns the place after it. On failure it returns `UnknownKind`, for an
/// unknown letter, or `NoRoom`, and leaves the buffer unchanged.
pub fn write_line(buffer: &mut [u8], at: usize, kind: u8, job: u64, cell: u64) -> Result<usize, Refusal> {
    // Sound: a slice's pointer and length; any place will do.
    place(unsafe { raw::tuyenlomac_write_line(buffer.as_mut_ptr(), buffer.len(), at, kind, job, cell) })
}
