//! What a read of the proved cells costs, beside a `Mutex`, an `RwLock` and a sequence lock by hand of the same words.
//!
//! The cells are the library itself, which `./cell` proves and builds; the sequence lock by hand is in this file. Run it with
//! nothing else on the machine:
//!
//! ```sh
//! ./cell && rustc -O --edition 2021 -L out/cell/lib -o out/cell/bench bench/cell.rs && out/cell/bench 20 7
//! ```
//!
//! The numbers are how many milliseconds each cell of the table is measured, and how often; the medians are shown. Measured is
//! the time that a reader takes for each read that succeeded, with what it waits for a lock. It is shown for the mutex in
//! nanoseconds, and for the others as a part of that. With the word `busy` behind the numbers it is a reader's processor time,
//! in which what it sleeps in a lock is not; on a machine that does other work this says more.

use std::hint::black_box;
use std::sync::atomic::{fence, AtomicBool, AtomicI32, AtomicU64, Ordering::*};
use std::sync::{Arc, Barrier, Mutex, RwLock};
use std::thread::{scope, sleep};
use std::time::Duration;

const MOST: usize = 64;

/// What one thread reads and writes by.
trait Hand: Send {
    /// Whether it succeeded.
    fn read(&mut self, out: &mut [u64]) -> bool;
    fn write(&mut self, values: &[u64]) -> bool;
    fn another(&mut self) -> Self;
    fn open(size: usize) -> Self;
}

/// What opens a proved cell of either kind.
type Open = unsafe extern "C" fn(*const u64, usize, u64, *mut Seat) -> u32;

/// A seat at a proved cell, as the header has it.
#[repr(C)]
struct Seat {
    at: *mut u8,
}

#[link(name = "cell_c", kind = "static")]
#[link(name = "libc_c", kind = "static")]
unsafe extern "C" {
    fn cell_c_open(values: *const u64, len: usize, count: u64, seat: *mut Seat) -> u32;
    fn cell_c_open_latch(values: *const u64, len: usize, count: u64, seat: *mut Seat) -> u32;
    fn cell_c_close(seat: *mut Seat);
    fn cell_c_split(seat: *mut Seat, other: *mut Seat) -> u32;
    fn cell_c_read(seat: *mut Seat, out: *mut u64, len: usize, count: *mut u64) -> u32;
    fn cell_c_read_into(seat: *mut Seat, out: *mut u64, len: usize, count: *mut u64) -> u32;
    fn cell_c_write(seat: *mut Seat, values: *const u64, len: usize, count: *mut u64) -> u32;
}

// SAFETY: a seat may go to another thread.
unsafe impl Send for Seat {}

impl Seat {
    const NONE: Seat = Seat {
        at: std::ptr::null_mut(),
    };

    fn write_by(&mut self, values: &[u64]) -> bool {
        let mut count = 0;
        // SAFETY: the pointers are those of references that are held for the call, here and below.
        unsafe { cell_c_write(self, values.as_ptr(), values.len(), &mut count) == 0 }
    }

    fn split(&mut self) -> Seat {
        let mut other = Seat::NONE;
        assert_eq!(unsafe { cell_c_split(self, &mut other) }, 0);
        other
    }

    fn open_with(open: Open, size: usize) -> Seat {
        let mut seat = Seat::NONE;
        assert_eq!(unsafe { open([0; MOST].as_ptr(), size, 0, &mut seat) }, 0);
        seat
    }
}

impl Drop for Seat {
    fn drop(&mut self) {
        unsafe { cell_c_close(self) }
    }
}

impl Hand for Seat {
    fn read(&mut self, out: &mut [u64]) -> bool {
        let mut count = 0;
        unsafe { cell_c_read(self, out.as_mut_ptr(), out.len(), &mut count) == 0 }
    }
    fn write(&mut self, values: &[u64]) -> bool {
        self.write_by(values)
    }
    fn another(&mut self) -> Seat {
        self.split()
    }
    fn open(size: usize) -> Seat {
        Seat::open_with(cell_c_open, size)
    }
}

/// The same cell, read straight into the caller's words.
struct Into(Seat);

impl Hand for Into {
    fn read(&mut self, out: &mut [u64]) -> bool {
        let mut count = 0;
        unsafe { cell_c_read_into(&mut self.0, out.as_mut_ptr(), out.len(), &mut count) == 0 }
    }
    fn write(&mut self, values: &[u64]) -> bool {
        self.0.write_by(values)
    }
    fn another(&mut self) -> Into {
        Into(self.0.split())
    }
    fn open(size: usize) -> Into {
        Into(Seat::open_with(cell_c_open, size))
    }
}

/// The latch cell, read straight into the caller's words.
struct Latch(Into);

impl Hand for Latch {
    fn read(&mut self, out: &mut [u64]) -> bool {
        self.0.read(out)
    }
    fn write(&mut self, values: &[u64]) -> bool {
        self.0.write(values)
    }
    fn another(&mut self) -> Latch {
        Latch(self.0.another())
    }
    fn open(size: usize) -> Latch {
        Latch(Into(Seat::open_with(cell_c_open_latch, size)))
    }
}

/// A sequence lock by hand, with fences and relaxed accesses; it makes one attempt.
struct ByHand(Arc<Vec<AtomicU64>>);

impl Hand for ByHand {
    fn read(&mut self, out: &mut [u64]) -> bool {
        let words = &self.0;
        let noted = words[0].load(Acquire);
        if noted % 4 != 0 {
            return false;
        }
        for (value, word) in out.iter_mut().zip(&words[1..]) {
            *value = word.load(Relaxed);
        }
        fence(Acquire);
        words[0].load(Relaxed) == noted
    }
    fn write(&mut self, values: &[u64]) -> bool {
        let words = &self.0;
        let noted = words[0].load(Relaxed);
        if noted % 4 != 0
            || words[0]
                .compare_exchange(noted, noted + 2, Acquire, Relaxed)
                .is_err()
        {
            return false;
        }
        fence(Release);
        for (word, value) in words[1..].iter().zip(values) {
            word.store(*value, Relaxed);
        }
        words[0].store(noted + 4, Release);
        true
    }
    fn another(&mut self) -> ByHand {
        ByHand(self.0.clone())
    }
    fn open(size: usize) -> ByHand {
        ByHand(Arc::new((0..=size).map(|_| AtomicU64::new(0)).collect()))
    }
}

impl Hand for Arc<Mutex<Vec<u64>>> {
    fn read(&mut self, out: &mut [u64]) -> bool {
        out.copy_from_slice(&self.lock().unwrap());
        true
    }
    fn write(&mut self, values: &[u64]) -> bool {
        self.lock().unwrap().copy_from_slice(values);
        true
    }
    fn another(&mut self) -> Self {
        self.clone()
    }
    fn open(size: usize) -> Self {
        Arc::new(Mutex::new(vec![0; size]))
    }
}

impl Hand for Arc<RwLock<Vec<u64>>> {
    fn read(&mut self, out: &mut [u64]) -> bool {
        out.copy_from_slice(&RwLock::read(self).unwrap());
        true
    }
    fn write(&mut self, values: &[u64]) -> bool {
        RwLock::write(self).unwrap().copy_from_slice(values);
        true
    }
    fn another(&mut self) -> Self {
        self.clone()
    }
    fn open(size: usize) -> Self {
        Arc::new(RwLock::new(vec![0; size]))
    }
}

#[derive(Clone, Copy, PartialEq)]
enum Writer {
    None,
    Rare,
    Constant,
}

#[repr(C)]
struct Time(i64, i64);

unsafe extern "C" {
    fn clock_gettime(clock: i32, time: *mut Time) -> i32;
}

/// Linux's CLOCK_MONOTONIC, and CLOCK_THREAD_CPUTIME_ID.
const ELAPSED: i32 = 1;
const BUSY: i32 = 3;

/// The clock that is measured by.
static CLOCK: AtomicI32 = AtomicI32::new(ELAPSED);

/// Nanoseconds by that clock.
fn now() -> f64 {
    let mut time = Time(0, 0);
    // SAFETY: Linux's `struct timespec` on 64 bits.
    unsafe { clock_gettime(CLOCK.load(Relaxed), &mut time) };
    time.0 as f64 * 1e9 + time.1 as f64
}

/// Reads that succeeded, tries that failed, and nanoseconds.
fn read_on<H: Hand>(hand: &mut H, size: usize, over: &AtomicBool) -> (u64, u64, f64) {
    let (mut out, mut reads, mut failed) = ([0; MOST], 0, 0);
    let start = now();
    while !over.load(Relaxed) {
        for _ in 0..64 {
            if hand.read(black_box(&mut out[..size])) {
                reads += 1;
                assert!(out[0] == out[size - 1]);
            } else {
                failed += 1;
            }
        }
    }
    (reads, failed, now() - start)
}

fn write_on<H: Hand>(hand: &mut H, size: usize, writer: Writer, over: &AtomicBool) {
    let mut values = [0; MOST];
    while !over.load(Relaxed) {
        let next = values[0] + 1;
        values[..size].fill(next);
        hand.write(black_box(&values[..size]));
        if writer == Writer::Rare {
            sleep(Duration::from_millis(1));
        }
    }
}

/// Nanoseconds of readers for each read that succeeded, and the part of their tries that failed.
fn measured<H: Hand>(size: usize, readers: usize, writer: Writer, time: Duration) -> [f64; 2] {
    let mut first = H::open(size);
    let hands: Vec<H> = (0..readers).map(|_| first.another()).collect();
    let over = &AtomicBool::new(false);
    let ready = &Barrier::new(readers + 1);
    scope(|s| {
        let threads: Vec<_> = hands
            .into_iter()
            .map(|mut hand| {
                s.spawn(move || {
                    ready.wait();
                    read_on(&mut hand, size, over)
                })
            })
            .collect();
        if writer != Writer::None {
            s.spawn(move || write_on(&mut first, size, writer, over));
        }
        ready.wait();
        sleep(time);
        over.store(true, Relaxed);
        let (mut reads, mut failed, mut time) = (0, 0, 0.);
        for thread in threads {
            let (r, f, t) = thread.join().unwrap();
            reads += r;
            failed += f;
            time += t;
        }
        [
            time / (reads as f64).max(1.),
            failed as f64 / (reads + failed).max(1) as f64,
        ]
    })
}

fn median(mut all: Vec<f64>) -> f64 {
    all.sort_by(f64::total_cmp);
    all[all.len() / 2]
}

type Measure = fn(usize, usize, Writer, Duration) -> [f64; 2];

const ALL: [Measure; 6] = [
    measured::<Arc<Mutex<Vec<u64>>>>,
    measured::<Arc<RwLock<Vec<u64>>>>,
    measured::<Seat>,
    measured::<Into>,
    measured::<Latch>,
    measured::<ByHand>,
];

/// One row, every way measured once in each round, so that what else runs meets all of them.
fn row(size: usize, readers: usize, writer: Writer, time: Duration, rounds: usize) -> String {
    let mut got = vec![vec![]; ALL.len()];
    for _ in 0..rounds {
        for (way, measure) in got.iter_mut().zip(ALL) {
            way.push(measure(size, readers, writer, time));
        }
    }
    let pick = |way: usize, i: usize| median(got[way].iter().map(|x| x[i]).collect());
    let mutex = pick(0, 0);
    let parts: Vec<String> = (1..ALL.len())
        .map(|way| format!("{:.2}", pick(way, 0) / mutex))
        .collect();
    let failed = [2, 3, 4, 5].map(|way| format!("{:.0} %", 100. * pick(way, 1)));
    format!("{mutex:.0} | {} | {}", parts.join(" | "), failed.join(", "))
}

fn main() {
    let (words, numbers): (Vec<String>, Vec<String>) =
        std::env::args().skip(1).partition(|word| word == "busy");
    if !words.is_empty() {
        CLOCK.store(BUSY, Relaxed);
    }
    let mut numbers = numbers.iter().map(|number| number.parse::<u64>().unwrap());
    let time = Duration::from_millis(numbers.next().unwrap_or(20));
    let rounds = numbers.next().unwrap_or(7) as usize;
    println!("| Words | Readers | Writer | Mutex, ns | RwLock | Cell | Cell, `read_into` | Latch cell, `read_into` | By hand | Failed tries: cell, `read_into`, latch cell, by hand |");
    println!("|{}", "---|".repeat(10));
    for size in [1, 8, 64] {
        for (name, writer) in [
            ("none", Writer::None),
            ("one a millisecond", Writer::Rare),
            ("all the time", Writer::Constant),
        ] {
            for readers in 1..=4 {
                let numbers = row(size, readers, writer, time, rounds);
                println!("| {size} | {readers} | {name} | {numbers} |");
            }
        }
    }
}
