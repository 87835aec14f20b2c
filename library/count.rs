//! Threads that count in cells under one lock desk, in Rust: what a program with threads does with the data
//! (docs/LIBRARY.md has the rules).
//!
//!     rustc -O --edition 2021 -L target/staticlib -o target/count library/count.rs
//!     target/count
//!
//! Each job counts in two of four cells: it reads each of the two, and writes it one larger. It also counts
//! once in a fifth cell, by an increment. A job that is sent back takes back what it did, and tries again.
//! Every fifth job gives up at its end. At the end the four cells hold 2 for each job that committed, and the
//! fifth holds 1; otherwise the program panics.
mod tuyenlomac;

use std::sync::atomic::{AtomicU64, Ordering::Relaxed};
use std::sync::{Condvar, Mutex};
use std::thread;
use tuyenlomac::{Answer, Locks, Wakes, BEGIN, COMMIT, GIVE_UP, INCREMENT, READ, RETRY, WRITE};

const THREADS: u32 = 8;
const JOBS: u32 = 2000;
const COUNTED: u32 = 4;
const TALLY: u32 = COUNTED;

/// The desk, and what the cells hold. The four cells are only loaded and stored, never added to in one
/// operation: the desk's locks let only one job at a time write. An increment lock is shared, so the fifth
/// is incremented by one atomic operation. The mutex orders what the threads see, so that
/// `Relaxed` is enough.
struct Shared {
    desk: Mutex<Locks>,
    woken: Condvar,
    held: [AtomicU64; COUNTED as usize],
    tally: AtomicU64,
    committed: AtomicU64,
    undone: AtomicU64,
}

/// A job, and what it would have to take back: the cells that it wrote, with their old values, and whether
/// it incremented the fifth.
struct Job<'a> {
    shared: &'a Shared,
    number: u32,
    writes: Vec<(u32, u64)>,
    tallied: bool,
}

/// The job was sent back, and what it did is taken back.
struct Back;

impl Job<'_> {
    /// Takes back what the job did, the last first; the increment by the opposite one.
    fn take_back(&mut self) {
        let acts = self.writes.len() as u64 + u64::from(self.tallied);
        self.shared.undone.fetch_add(acts, Relaxed);
        if std::mem::take(&mut self.tallied) {
            self.shared.tally.fetch_sub(1, Relaxed);
        }
        while let Some((cell, before)) = self.writes.pop() {
            self.shared.held[cell as usize].store(before, Relaxed);
        }
    }

    /// One request of the job. If it has to wait, it waits here.
    fn ask(&mut self, kind: u8, cell: u32) -> Result<(), Back> {
        let mut wakes = Wakes::new();
        let mut desk = self.shared.desk.lock().unwrap();
        let said = desk.step(kind, self.number, cell, &mut wakes);
        if let Answer::Back(_) = said {
            self.take_back(); // first, since its locks are free already;
        }
        if !wakes.is_empty() {
            self.shared.woken.notify_all(); // then the woken jobs are told, and look at the desk;
        }
        if let Answer::Wait(job) = said {
            let waits = |desk: &mut Locks| desk.waiting().any(|other| other == job);
            desk = self.shared.woken.wait_while(desk, waits).unwrap();
        }
        drop(desk); // and then the mutex is freed.
        match said {
            Answer::Go(job) | Answer::Wait(job) => self.number = job, // for a begin the new one
            Answer::Back(_) => return Err(Back),
            Answer::No(refusal) => panic!("{}", refusal),
        }
        Ok(())
    }

    /// Reads a cell and writes it one larger. Neither needs the mutex: the job has been granted the cell.
    fn count(&mut self, cell: u32) -> Result<(), Back> {
        let held = &self.shared.held[cell as usize];
        self.ask(READ, cell)?;
        let found = held.load(Relaxed);
        thread::yield_now(); // so that the threads collide here
        self.ask(WRITE, cell)?;
        self.writes.push((cell, found));
        held.store(found + 1, Relaxed);
        Ok(())
    }

    /// All that a job does before its end.
    fn work(&mut self, first: u32, second: u32) -> Result<(), Back> {
        self.ask(INCREMENT, TALLY)?;
        self.tallied = true;
        self.shared.tally.fetch_add(1, Relaxed);
        self.count(first)?;
        self.count(second)
    }

    /// A whole job; it tries again as often as it is sent back.
    fn run(&mut self, first: u32, second: u32, gives_up: bool) -> Result<(), Back> {
        self.ask(BEGIN, 0)?;
        while let Err(Back) = self.work(first, second) {
            thread::yield_now();
            self.ask(RETRY, 0)?; // under its own number: so it becomes the oldest in the end
        }
        if gives_up {
            self.take_back(); // before the give-up, while it still has its locks
            return self.ask(GIVE_UP, 0);
        }
        self.ask(COMMIT, 0)?;
        self.shared.committed.fetch_add(1, Relaxed);
        Ok(())
    }
}

fn jobs(shared: &Shared, thread: u32) {
    for n in 0..JOBS {
        let mut job = Job { shared, number: 0, writes: Vec::new(), tallied: false };
        let done = job.run(n % COUNTED, (n + thread) % COUNTED, n % 5 == 4);
        assert!(done.is_ok(), "begin, retry, give-up and commit are never sent back");
    }
}

fn main() {
    let shared = Shared {
        desk: Mutex::new(Locks::start(1).expect("only 0 is refused")),
        woken: Condvar::new(),
        held: Default::default(),
        tally: AtomicU64::new(0),
        committed: AtomicU64::new(0),
        undone: AtomicU64::new(0),
    };
    thread::scope(|scope| {
        for thread in 0..THREADS {
            let shared = &shared;
            scope.spawn(move || jobs(shared, thread));
        }
    });
    let sum: u64 = shared.held.iter().map(|held| held.load(Relaxed)).sum();
    let (committed, undone) = (shared.committed.load(Relaxed), shared.undone.load(Relaxed));
    let tally = shared.tally.load(Relaxed);
    println!("{committed} jobs committed, {undone} acts were taken back: the cells hold {sum}, and by increments {tally}");
    assert!(sum == 2 * committed && tally == committed, "the cells do not hold what was counted");
}
