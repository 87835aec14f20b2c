//! Runs the library through its Rust face on standard input, as the programs of this repository run their
//! own code, so that library/test can compare the two byte for byte. The modes are those of try.c:
//!
//!     try answers | stamp_answers | chain | verdict    prints what those programs print
//!     try lines | steps | cases                        prints what try_text, try_desk and try_judge print
//!     try judge                                        prints the verdict on a text of any length, and the
//!                                                      faulty line, as try_judge prints them
//!     try mix [STEPS], try stamp_mix [STEPS]           prints what time_desk prints
//!     try rubbish                                      runs steps, chains and records over random bytes
//!     try empty                                        makes every call that takes a slice with an empty one
//!
//! What is lent holds FILL, or known numbers, before each call, and is checked after it: what the header
//! says stays must stay. If it does not, there is a message and status 1.
mod tuyenlomac;

use std::collections::BTreeSet;
use std::fmt::Write as _;
use std::io::{self, Read, Write};
use tuyenlomac::*;

/// What every byte holds before it is lent.
const FILL: u8 = 0xA5;
/// The number of request lines that are answered.
const LINES: usize = 1_000_000;
/// A history of more bytes gets refusal 16 from the program `verdict`.
const JUDGED: usize = 65_536;
const TOO_LONG: u32 = 16;
/// Places that a case can lend for the order.
const ORDER_PLACES: usize = 300;
/// In steps, the kind of a question for a chain, and the places that a question can lend.
const ASKS: u32 = 256;
const LIST_PLACES: usize = 64;
/// A list's first place before it is lent; each further place is one larger.
const BEFORE: u32 = 4_000_000_000;

fn hold(fact: bool, what: &str) {
    if !fact {
        eprintln!("try: {}", what);
        std::process::exit(1);
    }
}

fn untouched(bytes: &[u8]) -> bool {
    bytes.iter().all(|&byte| byte == FILL)
}

/// A type of integers alone, with no gap between its fields: any bytes are a value of it, and all can be read.
/// The face lets nobody write a desk's fields or see a list's other places; the tests do both by this.
unsafe trait Plain: Sized {
    fn bytes(&self) -> &[u8] {
        // Sound: that many initialised bytes, borrowed as self is.
        unsafe { std::slice::from_raw_parts(self as *const Self as *const u8, std::mem::size_of::<Self>()) }
    }

    fn bytes_mut(&mut self) -> &mut [u8] {
        // Sound: likewise, and whatever is written there is a value.
        unsafe { std::slice::from_raw_parts_mut(self as *mut Self as *mut u8, std::mem::size_of::<Self>()) }
    }
}

unsafe impl Plain for Locks {}
unsafe impl Plain for Stamps {}
unsafe impl Plain for Wakes {}

// ---- Either desk

enum Either {
    Locks(Box<Locks>),
    Stamps(Box<Stamps>),
}

/// A desk, the wakes of its last step, and what its bytes were before it.
struct Desk {
    either: Either,
    wakes: Wakes,
    before: Vec<u8>,
}

impl Desk {
    fn start(by_stamps: bool, first: u32) -> Result<Desk, Refusal> {
        let either = if by_stamps {
            Either::Stamps(Box::new(Stamps::start(first)?))
        } else {
            Either::Locks(Box::new(Locks::start(first)?))
        };
        Ok(Desk { either, wakes: Wakes::new(), before: Vec::new() })
    }

    fn bytes(&self) -> &[u8] {
        match &self.either {
            Either::Locks(desk) => desk.bytes(),
            Either::Stamps(desk) => desk.bytes(),
        }
    }

    /// One step; after a refusal the desk must be as before.
    fn step(&mut self, kind: u8, job: u32, cell: u32) -> Answer {
        let mut before = std::mem::take(&mut self.before);
        before.clear();
        before.extend_from_slice(self.bytes());
        let said = match &mut self.either {
            Either::Locks(desk) => locks_step(desk, kind, job, cell, &mut self.wakes),
            Either::Stamps(desk) => desk.step(kind, job, cell),
        };
        let waits = matches!(said, Answer::Wait(_)) && matches!(self.either, Either::Stamps(_));
        hold(!waits, "somebody waits at the timestamp desk");
        let refused = matches!(said, Answer::No(_));
        let stays = before == self.bytes() && self.wakes.is_empty();
        hold(!refused || stays, "a step that is refused has changed the desk");
        self.before = before;
        said
    }
}

/// A step of the lock desk; its wakes are in the first places, and the others must stay.
fn locks_step(desk: &mut Locks, kind: u8, job: u32, cell: u32, wakes: &mut Wakes) -> Answer {
    wakes.bytes_mut().fill(FILL);
    let said = desk.step(kind, job, cell, wakes);
    let told = wakes.len();
    hold(told <= PLACES, "more wakes are told than there are places");
    // 32 jobs, 32 cells, 32 kinds, and how many of them count
    let lists = wakes.bytes();
    let rest = [&lists[4 * told..128], &lists[128 + 4 * told..256], &lists[256 + told..288]];
    let stay = rest.iter().all(|part| untouched(part));
    hold(stay, "a place of the wakes behind those that are told has changed");
    said
}

/// The chain of a job, over the first places of a list; the places after the chain stay.
fn chain_of(desk: &Locks, job: u32, places: usize) -> (Result<usize, Refusal>, Vec<u32>) {
    let mut list: Vec<u32> = (0..LIST_PLACES as u32).map(|i| BEFORE + i).collect();
    let told = desk.chain(job, &mut list[..places]).map(|chain| chain.len());
    let jobs = told.unwrap_or(0);
    hold(told.is_ok() == (jobs > 0) && jobs <= PLACES, "a chain is told that there cannot be");
    let stay = (jobs..LIST_PLACES).all(|i| list[i] == BEFORE + i as u32);
    hold(stay, "a place of the list behind the chain has changed");
    (told, list)
}

// ---- Texts and records

fn read_all() -> Vec<u8> {
    let mut text = Vec::new();
    hold(io::stdin().lock().read_to_end(&mut text).is_ok(), "cannot read");
    text
}

/// The lines of a text, each with its newline, which the last line may lack.
fn lines_of(text: &[u8]) -> impl Iterator<Item = &[u8]> {
    text.split_inclusive(|&byte| byte == b'\n')
}

/// Appends a record. It fits into exactly its own length, and with one byte less it is refused; all other
/// bytes stay.
fn put_record(out: &mut Vec<u8>, write: impl Fn(&mut [u8], usize) -> Result<usize, Refusal>) {
    const AT: usize = 16;
    let mut buffer = [FILL; 128];
    let end = write(&mut buffer, AT).unwrap_or(0);
    hold(AT < end && end <= 128, "a record is refused although there is room");
    hold(untouched(&buffer[..AT]) && untouched(&buffer[end..]), "a record has changed a byte beside it");
    out.extend_from_slice(&buffer[AT..end]);
    buffer.fill(FILL);
    let told = write(&mut buffer[..end - 1], AT);
    hold(told == Err(Refusal::NoRoom) && untouched(&buffer), "a record is written although there is no room");
    hold(write(&mut buffer[..end], AT) == Ok(end), "a record is refused although there is just room");
}

fn put_answer(out: &mut Vec<u8>, line: usize, word: Word, number: u32, field: Option<Field>) {
    put_record(out, |buffer, at| write_answer(buffer, at, line as u64, word, u64::from(number), field));
}

fn put_bad(out: &mut Vec<u8>, line: usize, word: Word, field: Field) {
    put_answer(out, line, word, Refusal::BadLine.number(), Some(field));
}

fn put_text(out: &mut Vec<u8>, text: &str) {
    out.extend_from_slice(text.as_bytes());
}

// ---- answers, stamp_answers, chain

/// All request lines on a desk started at 1; the records, the desk, and the jobs that wait by its answers.
fn serve(by_stamps: bool) -> (Vec<u8>, Desk, BTreeSet<u32>) {
    let text = read_all();
    let mut out = Vec::new();
    let mut desk = Desk::start(by_stamps, 1).expect("only 0 is refused");
    let mut waiting = BTreeSet::new();
    for (i, line) in lines_of(&text).take(LINES).enumerate() {
        let asked = match read_request(line) {
            Ok(asked) => asked,
            Err(field) => {
                put_bad(&mut out, i + 1, Word::No, field);
                continue;
            }
        };
        let said = desk.step(asked.kind, asked.job, asked.cell);
        put_answer(&mut out, i + 1, said.word(), said.number(), None);
        match said {
            Answer::Wait(job) => waiting.insert(job),
            Answer::Go(job) => waiting.remove(&job),
            _ => false,
        };
        for wake in &desk.wakes {
            put_answer(&mut out, i + 1, Word::Wake, wake.job, None);
            hold(waiting.remove(&wake.job), "a job wakes that did not wait");
        }
    }
    (out, desk, waiting)
}

/// The chains of all jobs that wait at the end, in ascending order.
fn chain() -> Vec<u8> {
    let (_, desk, waiting) = serve(false);
    let desk = match &desk.either {
        Either::Locks(desk) => desk,
        Either::Stamps(_) => unreachable!("the lock desk was served"),
    };
    hold(desk.waiting().collect::<BTreeSet<_>>() == waiting, "others wait than were told to");
    let mut out = Vec::new();
    for &job in &waiting {
        let (told, list) = chain_of(desk, job, PLACES);
        let jobs = told.unwrap_or(0);
        hold(jobs > 1, "a job that waits has no chain");
        let chain: Vec<String> = list[..jobs].iter().map(u32::to_string).collect();
        put_text(&mut out, &(chain.join("\t") + "\n"));
    }
    out
}

// ---- lines

fn put_request_reading(out: &mut Vec<u8>, number: usize, line: &[u8]) {
    let said = match read_request(line) {
        Ok(said) => said,
        Err(field) => return put_bad(out, number, Word::No, field),
    };
    put_answer(out, number, Word::Go, u32::from(said.kind), None);
    if said.kind != BEGIN {
        put_answer(out, number, Word::Wait, said.job, None);
    }
    if matches!(said.kind, READ | WRITE | INCREMENT | UPDATE) {
        put_answer(out, number, Word::Back, said.cell, None);
    }
}

fn put_history_reading(out: &mut Vec<u8>, number: usize, line: &[u8]) {
    match read_history(line) {
        Ok(said) => put_record(out, |buffer, at| {
            write_line(buffer, at, said.kind, u64::from(said.job), u64::from(said.cell))
        }),
        Err(field) => put_bad(out, number, Word::Wake, field),
    }
}

fn lines() -> Vec<u8> {
    let text = read_all();
    let mut out = Vec::new();
    for (i, line) in lines_of(&text).enumerate() {
        put_request_reading(&mut out, i + 1, line);
        put_history_reading(&mut out, i + 1, line);
    }
    out
}

// ---- steps

/// The next number, its digits up to the first other byte, and that byte; a number that is too large becomes
/// the largest.
fn next_number(text: &mut &[u8]) -> (u32, Option<u8>) {
    let mut value: u64 = 0;
    loop {
        let end = text.first().copied();
        *text = &text[end.map_or(0, |_| 1)..];
        match end {
            Some(digit @ b'0'..=b'9') => {
                value = (value * 10 + u64::from(digit - b'0')).min(u64::from(u32::MAX))
            }
            _ => return (value as u32, end),
        }
    }
}

fn spelt(word: Word) -> &'static str {
    match word {
        Word::Go => "go",
        Word::Wait => "wait",
        Word::Back => "back",
        Word::No => "no",
        Word::Wake => "wake",
    }
}

fn put_step(out: &mut Vec<u8>, desk: &mut Desk, kind: u8, job: u32, cell: u32) {
    let said = desk.step(kind, job, cell);
    let mut text = format!("{}\t{}", spelt(said.word()), said.number());
    for wake in &desk.wakes {
        write!(text, "\twake\t{}\t{}\t{}", wake.job, wake.cell, wake.kind).expect("a string takes it");
    }
    put_text(out, &(text + "\n"));
}

fn put_question(out: &mut Vec<u8>, desk: &Locks, job: u32, places: u32) {
    let places = LIST_PLACES.min(places as usize);
    let (told, list) = chain_of(desk, job, places);
    let mut text = match told {
        Ok(jobs) => format!("chain\t{}", jobs),
        Err(refusal) => format!("no\t{}", refusal.number()),
    };
    for number in &list[..places] {
        write!(text, "\t{}", number).expect("a string takes it");
    }
    put_text(out, &(text + "\n"));
}

/// The first number, followed by a blank for the timestamp desk; then steps, up to a line that is no step.
fn steps() -> Vec<u8> {
    let text = read_all();
    let (mut rest, mut out) = (&text[..], Vec::new());
    let (first, end) = next_number(&mut rest);
    let by_stamps = end == Some(b' ');
    if by_stamps {
        next_number(&mut rest);
    }
    let mut desk = match Desk::start(by_stamps, first) {
        Ok(desk) => desk,
        Err(refusal) => return format!("no\t{}\n", refusal.number()).into_bytes(),
    };
    while let (kind, Some(b' ')) = next_number(&mut rest) {
        let (job, _) = next_number(&mut rest);
        let (cell, _) = next_number(&mut rest);
        match (&desk.either, u8::try_from(kind)) {
            (_, Ok(kind)) => put_step(&mut out, &mut desk, kind, job, cell),
            (Either::Locks(desk), Err(_)) if kind == ASKS => put_question(&mut out, desk, job, cell),
            _ => break,
        }
    }
    out
}

// ---- verdict, judge, cases

/// The verdict's line; the faulty line must be a whole line of the text, without its newline.
fn verdict_line(text: &[u8], verdict: &Verdict) -> String {
    let (word, jobs) = match *verdict {
        Verdict::Orderly(jobs) => ("orderly", jobs),
        Verdict::Knot(jobs) => ("knot", jobs),
        Verdict::Dirty { reader, writer } => return format!("dirty\t{}\t{}\n", reader, writer),
        Verdict::No { refusal, line, faulty, field } => {
            hold(
                field.is_some() == (refusal == Refusal::BadLine),
                "a field is at fault of no bad line, or none of one",
            );
            let whole = lines_of(text).nth((line as usize).wrapping_sub(1)).unwrap_or(b"");
            hold(
                faulty == whole.strip_suffix(b"\n").unwrap_or(whole),
                "the faulty line is not that line of the text",
            );
            let at_fault = field.map_or(String::new(), |field| format!("\t{}", field.number()));
            return format!("no\t{}\t{}{}\n", line, refusal.number(), at_fault);
        }
    };
    let numbers: String = jobs.iter().map(|job| format!("\t{}", job)).collect();
    format!("{}{}\n", word, numbers)
}

/// How many places of the order buffer a verdict fills.
fn told_places(verdict: &Verdict) -> usize {
    match verdict {
        Verdict::Orderly(jobs) | Verdict::Knot(jobs) => jobs.len(),
        Verdict::Dirty { .. } => 2,
        Verdict::No { .. } => 0,
    }
}

/// The verdict's line on a text of any length over that many places and, if wanted, the faulty line that is
/// handed back; the places of the order buffer that the verdict does not fill stay.
fn put_judged(out: &mut Vec<u8>, text: &[u8], places: usize, wanted: bool) {
    let mut order = [FILL; ORDER_PLACES];
    let verdict = judge(text, &mut order[..places]);
    let told = told_places(&verdict);
    put_text(out, &verdict_line(text, &verdict));
    if let (true, Verdict::No { line: 1.., faulty, .. }) = (wanted, verdict) {
        put_text(out, "line\t");
        out.extend_from_slice(faulty);
        put_text(out, "\n");
    }
    let pair = if let Verdict::Dirty { reader, writer } = verdict { Some([reader, writer]) } else { None };
    hold(untouched(&order[told..]), "a place of the order buffer behind what is told has changed");
    hold(pair.map_or(true, |pair| order[..2] == pair), "reader and writer do not stand in the order buffer");
}

/// The same for a text that the programs take, and what they say about a longer one.
fn put_case(out: &mut Vec<u8>, text: &[u8], places: usize, wanted: bool) {
    if text.len() > JUDGED {
        return put_text(out, &format!("no\t0\t{}\n", TOO_LONG));
    }
    put_judged(out, text, places, wanted);
}

fn verdict() -> Vec<u8> {
    let mut out = Vec::new();
    put_case(&mut out, &read_all(), ORDER, false);
    out
}

fn judge_all() -> Vec<u8> {
    let mut out = Vec::new();
    put_judged(&mut out, &read_all(), ORDER, true);
    out
}

/// The places that a case lends: the digits of its header.
fn places_of(header: &[u8]) -> usize {
    let digits = header.iter().filter(|byte| byte.is_ascii_digit());
    digits.fold(0, |places, digit| (10 * places + usize::from(digit - b'0')).min(ORDER_PLACES))
}

/// A case reaches from its header to the next one, or to the end.
fn cases() -> Vec<u8> {
    let text = read_all();
    let mut out = Vec::new();
    let mut open: Option<(usize, usize)> = None; // its places, and where its text begins
    let mut at = 0;
    for line in lines_of(&text) {
        let end = at + line.len();
        if line[0] == b'=' {
            if let Some((places, from)) = open {
                put_case(&mut out, &text[from..at], places, true);
            }
            open = if line.ends_with(b"\n") { Some((places_of(line), end)) } else { None };
        }
        at = end;
    }
    if let Some((places, from)) = open {
        put_case(&mut out, &text[from..], places, true);
    }
    out
}

// ---- mix, stamp_mix

/// The random steps of crates/time_desk: a hand, a kind and a cell are drawn, whatever the desk has answered.
fn mix(by_stamps: bool, steps: u64) -> Vec<u8> {
    let mut x: u32 = 1;
    let mut draw = |limit: u32| {
        let drawn = (x >> 16) % limit;
        x = x.wrapping_mul(1_103_515_245).wrapping_add(12_345);
        drawn as usize
    };
    let mut desk = Desk::start(by_stamps, 1).expect("only 0 is refused");
    let (mut jobs, mut backs, mut tally) = ([0; 24], [false; 24], [0; 5]);
    for _ in 0..steps {
        let (hand, drawn, cell) = (draw(24), draw(32), draw(64) as u32);
        let job = jobs[hand];
        let kind = match job {
            0 => BEGIN,
            _ if backs[hand] => RETRY,
            _ => b"rrrrrrrrrrrrrrrwwwwwwiiiicccccat"[drawn],
        };
        let said = desk.step(kind, job, cell);
        jobs[hand] = match said {
            Answer::Go(_) if kind == COMMIT || kind == GIVE_UP => 0,
            Answer::Go(named) => named,
            Answer::Back(_) if by_stamps => 0, // the job is closed
            _ => job,
        };
        backs[hand] = matches!(said, Answer::Back(_)) && !by_stamps;
        tally[said.word() as usize] += 1;
        tally[4] += desk.wakes.len();
    }
    let numbers: Vec<String> = tally.iter().map(usize::to_string).collect();
    (numbers.join("\t") + "\n").into_bytes()
}

// ---- rubbish: the same random numbers as in try.c, so the two print the same line

const DESKS: u32 = 10_000;
const STEPS: u32 = 24;
const RECORDS: u32 = 50_000;
const CANARY: usize = 64;
const PRIME: u64 = 1_099_511_628_211;
const FIRST_SUM: u64 = 14_695_981_039_346_656_037;

struct Drawer(u64);

impl Drawer {
    fn draw(&mut self) -> u32 {
        self.0 ^= self.0 << 13;
        self.0 ^= self.0 >> 7;
        self.0 ^= self.0 << 17;
        (self.0 >> 32) as u32
    }

    /// Any numbers, of any length.
    fn wide(&mut self) -> u64 {
        let (high, low) = (u64::from(self.draw()), u64::from(self.draw()));
        (high << 32 | low) >> (self.draw() % 64)
    }

    /// Fills a desk with any bytes, or with small ones, which more often mean something.
    fn fill(&mut self, desk: &mut [u8]) {
        let mask = [255, 7, 3, 3][self.draw() as usize % 4];
        let low = self.draw() % 2 != 0;
        desk.iter_mut().for_each(|byte| *byte = (self.draw() & mask) as u8);
        if low {
            desk[4..8].fill(0); // a next number that can still be given
        }
        if desk.len() == 2280 && self.draw() % 2 != 0 {
            // a lock desk with few locks held, so that more is granted
            desk[232..].iter_mut().enumerate().filter(|(i, _)| i % 37 != 0).for_each(|(_, byte)| *byte = 0);
        }
    }

    /// A request, usually of one of the jobs on the desk.
    fn request(&mut self, desk: &[u8]) -> Line {
        let (letter, any) = (self.draw() % 10, self.draw());
        let (place, cell) = (self.draw() as usize % 32, self.draw());
        let mut number = [0; 4];
        number.copy_from_slice(&desk[8 + 4 * place..][..4]);
        Line {
            kind: b"bcatrwiuk".get(letter as usize).map_or((any & 255) as u8, |&kind| kind),
            job: if any % 4 != 0 { u32::from_le_bytes(number) } else { any },
            cell: if any % 8 != 0 { cell % 64 } else { cell },
        }
    }
}

/// An object that is lent, with a canary before and after it.
#[repr(C)]
struct Guarded<T> {
    before: [u8; CANARY],
    object: T,
    after: [u8; CANARY],
}

impl<T> Guarded<T> {
    fn of(object: T) -> Guarded<T> {
        Guarded { before: [FILL; CANARY], object, after: [FILL; CANARY] }
    }

    fn look(&self) {
        hold(untouched(&self.before) && untouched(&self.after), "a byte was written that was not lent");
    }
}

/// Counts of answers by word, and of wakes; of jobs in chains, and of refused chains; and a checksum of all
/// bytes and numbers, by which two runs are compared.
struct Counts {
    told: [u64; 5],
    chained: u64,
    refused: u64,
    sum: u64,
}

impl Counts {
    fn none() -> Counts {
        Counts { told: [0; 5], chained: 0, refused: 0, sum: FIRST_SUM }
    }

    fn answer(&mut self, said: Answer, wakes: usize) {
        self.told[said.word() as usize] += 1;
        self.told[4] += wakes as u64;
        self.sum = (self.sum ^ u64::from(said.number())).wrapping_mul(PRIME);
    }

    fn bytes(&mut self, bytes: &[u8]) {
        self.sum = bytes.iter().fold(self.sum, |sum, &byte| (sum ^ u64::from(byte)).wrapping_mul(PRIME));
    }

    fn chain(&mut self, desk: &Locks, asked: Line) {
        let length = if asked.cell % 3 != 0 { 32 + asked.cell % 33 } else { asked.cell % 64 } as usize;
        let (told, _) = chain_of(desk, asked.job, length);
        self.chained += told.unwrap_or(0) as u64;
        self.refused += u64::from(told.is_err());
    }

    fn line(&self, name: &str) -> String {
        let [go, wait, back, no, wakes] = self.told;
        let chains = format!("chains {} {} sum {:016x}", self.chained, self.refused, self.sum);
        format!("{} {} {} {} {} {} {} ", name, go, wait, back, no, wakes, chains)
    }
}

fn rubbish_locks(by: &mut Drawer) -> Counts {
    let mut counts = Counts::none();
    let mut desk = Guarded::of(Locks::start(1).expect("only 0 is refused"));
    let mut wakes = Guarded::of(Wakes::new());
    for _ in 0..DESKS {
        by.fill(desk.object.bytes_mut());
        for i in 0..STEPS {
            let asked = by.request(desk.object.bytes());
            let said = locks_step(&mut desk.object, asked.kind, asked.job, asked.cell, &mut wakes.object);
            counts.answer(said, wakes.object.len());
            if i % 4 == 0 {
                let asked = by.request(desk.object.bytes());
                counts.chain(&desk.object, asked);
            }
            desk.look();
            wakes.look();
        }
        counts.bytes(desk.object.bytes());
    }
    counts
}

fn rubbish_stamps(by: &mut Drawer) -> Counts {
    let mut counts = Counts::none();
    let mut desk = Guarded::of(Stamps::start(1).expect("only 0 is refused"));
    for _ in 0..DESKS {
        by.fill(desk.object.bytes_mut());
        for _ in 0..STEPS {
            let asked = by.request(desk.object.bytes());
            counts.answer(desk.object.step(asked.kind, asked.job, asked.cell), 0);
            desk.look();
        }
        counts.bytes(desk.object.bytes());
    }
    counts
}

/// A record: the line of a letter, or an answer record; None for a word that the face does not have.
enum Record {
    Line(u8, u64, u64),
    Answer(u64, Option<Word>, u64, Option<Field>),
}

impl Record {
    fn draw(by: &mut Drawer) -> Record {
        let (letter, any) = (by.draw(), by.draw());
        let (line, number) = (by.wide(), by.wide());
        if letter % 2 == 0 {
            let words = [Word::Go, Word::Wait, Word::Back, Word::No, Word::Wake];
            let fields = [None, Some(Field::Letter), Some(Field::Job), Some(Field::Cell), Some(Field::Rest)];
            return Record::Answer(
                line,
                words.get(any as usize % 6).copied(),
                number,
                fields[(any >> 8) as usize % 5],
            );
        }
        let known = b"bcatrwiuk"[letter as usize / 2 % 9];
        let kind = if letter % 3 != 0 { known } else { (letter >> 24 | 1) as u8 };
        Record::Line(kind, number, by.wide())
    }

    /// What it must be, by the standard library; None for an unknown word or letter.
    fn text(&self) -> Option<String> {
        match *self {
            Record::Line(BEGIN, _, _) => Some("b\n".to_string()),
            Record::Line(kind @ (b'c' | b'a' | b'k' | b't'), job, _) => {
                Some(format!("{}\t{}\n", kind as char, job))
            }
            Record::Line(kind @ (b'r' | b'w' | b'i' | b'u'), job, cell) => {
                Some(format!("{}\t{}\t{}\n", kind as char, job, cell))
            }
            Record::Line(..) => None,
            Record::Answer(line, word, number, field) => {
                let at_fault = field.map_or(String::new(), |field| format!("\t{}", field.number()));
                Some(format!("{}\t{}\t{}{}\n", line, spelt(word?), number, at_fault))
            }
        }
    }

    /// Writes it from a place on: it is there, or is refused as it should be. Returns whether it was written.
    fn is_written(&self, length: usize, at: usize) -> bool {
        let mut buffer = [FILL; 128];
        let told = match *self {
            Record::Line(kind, job, cell) => write_line(&mut buffer[..length], at, kind, job, cell),
            Record::Answer(_, None, _, _) => return false,
            Record::Answer(line, Some(word), number, field) => {
                write_answer(&mut buffer[..length], at, line, word, number, field)
            }
        };
        let wanted = match self.text() {
            None => Err(Refusal::UnknownKind),
            Some(text) if at <= length && text.len() <= length - at => Ok(text),
            Some(_) => Err(Refusal::NoRoom),
        };
        let mut after = [FILL; 128];
        if let Ok(text) = &wanted {
            after[at..][..text.len()].copy_from_slice(text.as_bytes());
        }
        hold(told == wanted.map(|text| at + text.len()), "a record is not told as it should be");
        hold(buffer == after, "a record is not what it should be, or has changed a byte beside it");
        told.is_ok()
    }
}

fn rubbish_records(by: &mut Drawer) -> u64 {
    let mut written = 0;
    for _ in 0..RECORDS {
        let record = Record::draw(by);
        let (length, near) = (by.draw() as usize % 129, by.draw() as usize % 64);
        let far = by.wide();
        written += u64::from(record.is_written(length, if far % 8 != 0 { near } else { far as usize }));
    }
    written
}

fn rubbish() -> Vec<u8> {
    let by = &mut Drawer(88_172_645_463_325_252);
    let (locks, stamps) = (rubbish_locks(by), rubbish_stamps(by));
    let records = rubbish_records(by);
    format!("{}{}records {}\n", locks.line("locks"), stamps.line("stamps"), records).into_bytes()
}

// ---- empty: every call that takes a slice, with an empty one

fn refused<T>(told: Result<T, Refusal>) -> u32 {
    told.err().map_or(0, Refusal::number)
}

fn empty() -> Vec<u8> {
    let mut out = Vec::new();
    for (text, places) in [(&b""[..], ORDER), (b"c\t1\n", 0), (b"", 0)] {
        put_judged(&mut out, text, places, true);
    }
    let mut told = Vec::new();
    for line in [read_request(&[]), read_history(&[])] {
        told.push(line.err().map_or(0, |field| u32::from(field.number())));
    }
    let (mut desk, mut wakes) = (Locks::start(1).expect("a start at 1"), Wakes::new());
    for job in 1..=2 {
        // both ask for one cell, and the younger is sent back
        let _ = locks_step(&mut desk, BEGIN, 0, 0, &mut wakes);
        let _ = locks_step(&mut desk, WRITE, job, 5, &mut wakes);
    }
    for job in 1..=3 {
        told.push(refused(desk.chain(job, &mut [])));
    }
    for at in [0, 1, usize::MAX] {
        told.push(refused(write_answer(&mut [], at, 1, Word::Go, 1, None)));
        told.push(refused(write_line(&mut [], at, BEGIN, 0, 0)));
        told.push(refused(write_line(&mut [], at, b'x', 0, 0)));
    }
    for number in told {
        put_text(&mut out, &format!("{}\n", number));
    }
    out
}

fn main() {
    let words: Vec<String> = std::env::args().skip(1).collect();
    let steps = words.get(1).map_or(1_000_000, |steps| steps.parse().expect("a number of steps"));
    let out = match words.first().map_or("", |word| word) {
        "answers" => serve(false).0,
        "stamp_answers" => serve(true).0,
        "chain" => chain(),
        "verdict" => verdict(),
        "judge" => judge_all(),
        "lines" => lines(),
        "steps" => self::steps(),
        "cases" => cases(),
        "mix" => mix(false, steps),
        "stamp_mix" => mix(true, steps),
        "rubbish" => rubbish(),
        "empty" => empty(),
        _ => {
            eprintln!("usage: try answers|stamp_answers|chain|verdict|judge|lines|steps|cases|mix|stamp_mix|rubbish|empty [STEPS]");
            std::process::exit(2);
        }
    };
    hold(io::stdout().lock().write_all(&out).is_ok(), "cannot write");
}
