// Times the walk over a drawing: ours by calls, ours in one call, and the Rust's by calls, side by side in one run, on the same bytes and cuts. Prints the time of a
// walk and the ratio to the Rust's. The Rust has no walk in one call: its walk with no cuts stands beside ours.
use std::hint::black_box;
use std::time::Instant;

#[allow(dead_code)]
#[path = "../target/oracle/src/answers.rs"]
mod answers;
#[allow(dead_code)]
#[path = "../target/oracle/src/crc.rs"]
mod crc;
#[allow(dead_code)]
#[path = "../target/oracle/src/drive.rs"]
mod drive;
#[allow(dead_code)]
#[path = "../target/oracle/src/form.rs"]
mod form;
#[allow(dead_code, unused_imports)]
#[path = "../target/oracle/src/streaming/mod.rs"]
mod streaming;

use drive::Case;
use streaming::door::{FlatWalker, Step, begin};

unsafe extern "C" {
    #[allow(clippy::too_many_arguments)]
    fn walk_once(
        source: *const u8,
        len: usize,
        vars: u32,
        vars_size: u32,
        classes: u32,
        classes_size: u32,
        map: u32,
        map_size: u32,
        cut: u64,
        turns: u32,
    ) -> u64;
    fn survey_once(source: *const u8, len: usize, vars: u32, vars_size: u32, classes: u32, classes_size: u32, map: u32, map_size: u32) -> u64;
    fn fill_once(source: *const u8, len: usize, vars: u32, vars_size: u32, classes: u32, classes_size: u32, map: u32, map_size: u32) -> u64;
}

// What both sides are given: the drawing, the Rust's walk begun over it, the cut, and the turns that a walk with this cut takes.
struct Job {
    case: Case,
    begun: FlatWalker,
    cut: usize,
    turns: u32,
}

// What a walk comes to: the number of the objects that it commits, the sum of their sizes, the size of the last, and its turns.
#[derive(Default)]
struct Walked {
    objects: u64,
    sum: u64,
    last: u64,
    turns: u32,
}

fn walk(mut walker: FlatWalker, source: &[u8], cut: usize) -> Walked {
    let mut walked = Walked::default();
    while let Ok(Some(demand)) = walker.request() {
        let from = demand.offset as usize;
        let n = demand.len.min(cut).min(source.len() - from);
        walked.turns += 1;
        match walker.feed(demand.offset, &source[from..from + n]) {
            Ok(Step::Object(o)) => {
                walked.objects += 1;
                walked.sum += o.size as u64;
                walked.last = o.size as u64;
            }
            Ok(_) => (),
            Err(_) => break,
        }
    }
    walked
}

fn rust(job: &Job) -> u64 {
    walk(job.begun.clone(), &job.case.source, job.cut).sum
}

fn ours(job: &Job) -> u64 {
    let [vars, classes, map] = [0, 1, 2].map(|i| &job.case.locators[i]);
    let source = &job.case.source;
    unsafe {
        walk_once(
            source.as_ptr(),
            source.len(),
            vars.offset,
            vars.size,
            classes.offset,
            classes.size,
            map.offset,
            map.size,
            job.cut as u64,
            job.turns,
        )
    }
}

fn surveyed(job: &Job) -> u64 {
    let [vars, classes, map] = [0, 1, 2].map(|i| &job.case.locators[i]);
    let source = &job.case.source;
    unsafe { survey_once(source.as_ptr(), source.len(), vars.offset, vars.size, classes.offset, classes.size, map.offset, map.size) }
}

fn filled(job: &Job) -> u64 {
    let [vars, classes, map] = [0, 1, 2].map(|i| &job.case.locators[i]);
    let source = &job.case.source;
    unsafe { fill_once(source.as_ptr(), source.len(), vars.offset, vars.size, classes.offset, classes.size, map.offset, map.size) }
}

// The least of nine rounds, in microseconds for one walk.
fn time(run: fn(&Job) -> u64, job: &Job, times: u32) -> f64 {
    (0..9)
        .map(|_| {
            let begun = Instant::now();
            for _ in 0..times {
                black_box(run(black_box(job)));
            }
            begun.elapsed().as_nanos() as f64 / times as f64 / 1000.0
        })
        .fold(f64::INFINITY, f64::min)
}

fn job(input: &[u8], cut: usize) -> Job {
    let case = Case::parse(input).expect("the drawing is in the driver's form");
    let Ok(begun) = begin(&case.header()) else { panic!("the drawing is refused") };
    let turns = walk(begun.clone(), &case.source, cut).turns;
    Job { case, begun, cut, turns }
}

fn by_calls(input: &[u8]) {
    println!("{:>10} {:>8} {:>10} {:>10} {:>7}", "cuts", "calls", "Rust us", "ours us", "ratio");
    for (name, cut, times) in [("none", usize::MAX, 200), ("100 bytes", 100, 200), ("1 byte", 1, 20)] {
        let job = job(input, cut);
        assert_eq!(ours(&job), rust(&job), "an answer differs");
        let judge = time(rust, &job, times);
        let own = time(ours, &job, times);
        println!("{name:>10} {:>8} {judge:>10.1} {own:>10.1} {:>7.2}", job.turns, own / judge);
    }
}

fn in_one_call(input: &[u8]) {
    let job = job(input, usize::MAX);
    let walked = walk(job.begun.clone(), &job.case.source, job.cut);
    assert_eq!(surveyed(&job), walked.objects, "a count differs");
    assert_eq!(filled(&job), walked.last, "a record differs");
    let judge = time(rust, &job, 200);
    println!("{:>10} {:>8} {:>10} {:>10} {:>7}", "one call", "objects", "Rust us", "ours us", "ratio");
    for (name, run) in [("counted", surveyed as fn(&Job) -> u64), ("listed", filled)] {
        let own = time(run, &job, 200);
        println!("{name:>10} {:>8} {judge:>10.1} {own:>10.1} {:>7.2}", walked.objects, own / judge);
    }
}

fn main() {
    let path = std::env::args().nth(1).expect("usage: walk FILE");
    let input = std::fs::read(path).expect("the drawing can be read");
    by_calls(&input);
    in_one_call(&input);
}
