//! Calls the proved planner from Rust, holds each call to its promise at run time, and times it.
//!
//!     driver time DIR REPS        each project of DIR in each effort; with ORACLE set, beside the published Rust in the same run
//!     driver batch                records (length in four bytes, bytes) in, the text of each answer as a record out
//!     driver check                records in: each answer held to its promise, counted
//!     driver damage SEED COUNT    records in, damaged COUNT times: each answer held to its promise, counted, the slowest named
mod planner;
mod text;

use planner::{optimize, plan_len, Answer, PLAN, WORKSPACE};
use std::io::{Read, Write};
use std::process::Command;
use std::time::Instant;

// The effort's place in a well-formed project file.
const EFFORT: usize = 29;
const EFFORTS: [&str; 3] = ["fast", "balanced", "thorough"];
// Words lent beyond the least, to see that they are not written.
const SPARE: usize = 64;

// The thread's own time, which other work on the machine does not lengthen.
mod clock {
    #[repr(C)]
    struct Timespec {
        seconds: i64,
        nanoseconds: i64,
    }
    extern "C" {
        fn clock_gettime(clock: i32, time: *mut Timespec) -> i32;
    }
    const THREAD_CPU: i32 = 3;

    pub fn nanoseconds() -> i64 {
        let mut t = Timespec { seconds: 0, nanoseconds: 0 };
        // SAFETY: the address is of a live struct of the C library's layout on Linux.
        unsafe { clock_gettime(THREAD_CPU, &mut t) };
        t.seconds * 1_000_000_000 + t.nanoseconds
    }
}

fn mark(at: usize, salt: u32) -> u32 {
    (at as u32).wrapping_mul(2_654_435_761) ^ salt
}

/// Lent memory full of marks.
struct Memory {
    workspace: Vec<u32>,
    plan: Vec<u32>,
    salt: u32,
}

impl Memory {
    fn new() -> Memory {
        Memory { workspace: vec![0; WORKSPACE + SPARE], plan: vec![0; PLAN + SPARE], salt: 0 }
    }

    fn fill(&mut self) {
        self.salt = self.salt.wrapping_add(0x9E37_79B9);
        for (at, w) in self.workspace.iter_mut().enumerate() {
            *w = mark(at, self.salt);
        }
        for (at, w) in self.plan.iter_mut().enumerate() {
            *w = mark(at, !self.salt);
        }
    }

    fn workspace_as_found(&self, from: usize) -> bool {
        (from..self.workspace.len()).all(|at| self.workspace[at] == mark(at, self.salt))
    }

    fn plan_as_found(&self, from: usize) -> bool {
        (from..self.plan.len()).all(|at| self.plan[at] == mark(at, !self.salt))
    }

    fn cleared(&self) -> bool {
        self.workspace[..WORKSPACE].iter().all(|w| *w == 0) && self.workspace_as_found(WORKSPACE)
    }
}

/// Plans in marked memory and holds every lent word to the promise.
fn held(file: &[u8], memory: &mut Memory) -> Answer {
    memory.fill();
    let answer = optimize(file, &mut memory.workspace, &mut memory.plan);
    match answer {
        Answer::Plan => {
            let end = plan_len(&memory.plan);
            assert!(end <= 4_420 && memory.plan_as_found(end), "a word past the plan's end");
            if memory.plan[0] == 0 {
                assert!(memory.workspace_as_found(0), "an empty plan needs no workspace");
            } else {
                assert!(memory.cleared(), "the workspace is not cleared");
            }
        }
        Answer::Refused(n) => {
            assert!((2..=17).contains(&n), "no such refusal: {n}");
            assert!(memory.plan_as_found(0), "a refusal wrote into the plan memory");
            assert!(if n < 15 { memory.workspace_as_found(0) } else { memory.cleared() }, "the workspace after {n}");
        }
    }
    answer
}

/// Refusal 1, one word short of each memory, leaves all as found.
fn too_small(file: &[u8], memory: &mut Memory) {
    for (w, p) in [(WORKSPACE - 1, PLAN), (WORKSPACE, PLAN - 1), (0, 0)] {
        memory.fill();
        let answer = optimize(file, &mut memory.workspace[..w], &mut memory.plan[..p]);
        assert_eq!(answer, Answer::Refused(1));
        assert!(memory.workspace_as_found(0) && memory.plan_as_found(0));
    }
    memory.fill();
    let exact = optimize(file, &mut memory.workspace[..WORKSPACE], &mut memory.plan[..PLAN]);
    assert_ne!(exact, Answer::Refused(1));
}

fn answer_text(answer: Answer, memory: &Memory) -> String {
    match answer {
        Answer::Plan => text::plan_text(&memory.plan),
        Answer::Refused(n) => format!("refused {n}\n"),
    }
}

fn records(input: &[u8]) -> Vec<&[u8]> {
    let (mut all, mut rest) = (Vec::new(), input);
    while let Some((size, more)) = rest.split_first_chunk::<4>() {
        let (one, next) = more.split_at(u32::from_le_bytes(*size) as usize);
        all.push(one);
        rest = next;
    }
    all
}

fn input() -> Vec<u8> {
    let mut bytes = Vec::new();
    std::io::stdin().read_to_end(&mut bytes).unwrap();
    bytes
}

// ---- batch, check, damage

fn batch() {
    let bytes = input();
    let mut memory = Memory::new();
    let mut out = std::io::BufWriter::new(std::io::stdout().lock());
    for file in records(&bytes) {
        let answer = held(file, &mut memory);
        let text = answer_text(answer, &memory);
        out.write_all(&(text.len() as u32).to_le_bytes()).unwrap();
        out.write_all(text.as_bytes()).unwrap();
    }
    out.flush().unwrap();
}

/// How often each answer came, and the slowest call.
struct Counts {
    answers: [u64; 18],
    slowest: i64,
    slowest_file: Vec<u8>,
}

impl Counts {
    fn new() -> Counts {
        Counts { answers: [0; 18], slowest: 0, slowest_file: Vec::new() }
    }

    fn count(&mut self, file: &[u8], memory: &mut Memory) {
        let start = clock::nanoseconds();
        let answer = held(file, memory);
        let mut took = clock::nanoseconds() - start;
        if took > self.slowest {
            // a call that the machine has interrupted is timed again
            took = took.min(timed(file, 5).0 as i64);
        }
        let number = match answer {
            Answer::Plan => 0,
            Answer::Refused(n) => n as usize,
        };
        self.answers[number] += 1;
        if took > self.slowest {
            self.slowest = took;
            self.slowest_file = file.to_vec();
        }
    }

    fn tell(&self) {
        println!("{} files, an answer each time", self.answers.iter().sum::<u64>());
        println!("plans {}", self.answers[0]);
        for n in 1..18 {
            println!("refused {n}: {}", self.answers[n]);
        }
        let (again, _) = timed(&self.slowest_file, 21);
        let (size, effort) = (self.slowest_file.len(), self.slowest_file.get(EFFORT));
        println!("slowest call {} us, again {} us at best of 21: {size} bytes, effort {effort:?}", self.slowest / 1000, again / 1000);
    }
}

fn check() {
    let bytes = input();
    let (mut memory, mut counts) = (Memory::new(), Counts::new());
    for file in records(&bytes) {
        counts.count(file, &mut memory);
        too_small(file, &mut memory);
    }
    counts.tell();
}

/// Xorshift, to damage files by.
struct Dice(u64);

impl Dice {
    fn below(&mut self, n: usize) -> usize {
        self.0 ^= self.0 << 13;
        self.0 ^= self.0 >> 7;
        self.0 ^= self.0 << 17;
        (self.0 >> 11) as usize % n
    }
}

fn damaged(files: &[&[u8]], dice: &mut Dice) -> Vec<u8> {
    if dice.below(10) == 0 {
        let size = dice.below(4_000);
        return (0..size).map(|_| dice.below(256) as u8).collect();
    }
    let mut file = files[dice.below(files.len())].to_vec();
    match dice.below(8) {
        0 => file.truncate(dice.below(file.len() + 1)),
        1 => file.push(dice.below(256) as u8),
        _ => {}
    }
    if !file.is_empty() {
        for _ in 0..1 + dice.below(3) {
            let at = dice.below(file.len());
            file[at] = match dice.below(4) {
                0 => file[at] ^ 1 << dice.below(8),
                1 => 0,
                2 => file[at].wrapping_add(1),
                _ => dice.below(256) as u8,
            };
        }
    }
    file
}

fn damage(seed: u64, count: u64) {
    let bytes = input();
    let files = records(&bytes);
    assert!(!files.is_empty(), "no project on standard input");
    let (mut memory, mut counts, mut dice) = (Memory::new(), Counts::new(), Dice(seed | 1));
    for _ in 0..count {
        let file = damaged(&files, &mut dice);
        counts.count(&file, &mut memory);
    }
    counts.tell();
}

// ---- time

/// Best and median of some calls, in ns, after one call that is held to the promise.
fn timed(file: &[u8], reps: usize) -> (u128, u128) {
    let mut memory = Memory::new();
    held(file, &mut memory);
    let mut all: Vec<u128> = (0..reps)
        .map(|_| {
            let start = Instant::now();
            std::hint::black_box(optimize(std::hint::black_box(file), &mut memory.workspace, &mut memory.plan));
            start.elapsed().as_nanos()
        })
        .collect();
    all.sort_unstable();
    (all[0], all[reps / 2])
}

/// The published Rust's best and median, where the oracle is at hand.
fn oracle(path: &str, effort: usize, reps: usize) -> Option<(f64, f64)> {
    let program = std::env::var("ORACLE").ok()?;
    let out = Command::new(program).args(["bench", path, &effort.to_string(), &reps.to_string()]).output().ok()?;
    let line = String::from_utf8(out.stdout).ok()?;
    let numbers: Vec<f64> = line.split_whitespace().filter_map(|w| w.parse().ok()).collect();
    match numbers[..] {
        [best, median, ..] => Some((best, median)),
        _ => None,
    }
}

fn time(dir: &str, reps: usize) {
    let mut paths: Vec<_> = std::fs::read_dir(dir).unwrap().map(|e| e.unwrap().path()).collect();
    paths.sort();
    println!("project effort best_us median_us | rust_best_us rust_median_us | ratio_best ratio_median");
    for path in paths {
        let path = path.to_str().unwrap();
        let name = path.rsplit('/').next().unwrap();
        let mut file = std::fs::read(path).unwrap();
        too_small(&file, &mut Memory::new());
        for effort in 0..3 {
            file[EFFORT] = effort as u8;
            let (best, median) = timed(&file, reps);
            let (best, median) = (best as f64, median as f64);
            print!("{name} {} {:.1} {:.1}", EFFORTS[effort], best / 1e3, median / 1e3);
            match oracle(path, effort, reps) {
                Some((b, m)) => println!(" | {:.1} {:.1} | {:.2} {:.2}", b / 1e3, m / 1e3, best / b, median / m),
                None => println!(),
            }
        }
    }
}

fn main() {
    let args: Vec<String> = std::env::args().skip(1).collect();
    let args: Vec<&str> = args.iter().map(String::as_str).collect();
    match args[..] {
        ["time", dir, reps] => time(dir, reps.parse().unwrap()),
        ["batch"] => batch(),
        ["check"] => check(),
        ["damage", seed, count] => damage(seed.parse().unwrap(), count.parse().unwrap()),
        _ => eprintln!("driver time DIR REPS | batch | check | damage SEED COUNT"),
    }
}
