// Times the checksum: ours and the Rust's, side by side in one run, on the same bytes. Prints nanoseconds for a call and their ratio.
use std::hint::black_box;
use std::time::Instant;

#[allow(dead_code)]
#[path = "../target/oracle/src/crc.rs"]
mod judge;

unsafe extern "C" {
    fn crc8(seed: u16, data: *const u8, len: usize) -> u16;
    fn crc8_plain(seed: u16, data: *const u8, len: usize) -> u16;
    fn crc8_lent(seed: u16, data: *const u8, len: usize, times: u64) -> u16;
}

type Repeat = fn(&[u8], u64) -> u16;

// Each call starts from the result of the last, so that none can be left out.
fn rust(data: &[u8], times: u64) -> u16 {
    (0..times).fold(0xC0C1, |crc, _| judge::crc8(crc, black_box(data)))
}

fn ours(data: &[u8], times: u64) -> u16 {
    (0..times).fold(0xC0C1, |crc, _| unsafe { crc8(crc, data.as_ptr(), data.len()) })
}

fn plain(data: &[u8], times: u64) -> u16 {
    (0..times).fold(0xC0C1, |crc, _| unsafe { crc8_plain(crc, data.as_ptr(), data.len()) })
}

fn lent(data: &[u8], times: u64) -> u16 {
    unsafe { crc8_lent(0xC0C1, data.as_ptr(), data.len(), times) }
}

// The least of nine rounds, in nanoseconds for one call.
fn time(run: Repeat, data: &[u8], times: u64) -> f64 {
    (0..9)
        .map(|_| {
            let begun = Instant::now();
            black_box(run(black_box(data), times));
            begun.elapsed().as_nanos() as f64 / times as f64
        })
        .fold(f64::INFINITY, f64::min)
}

fn main() {
    let bytes: Vec<u8> = (0..1u32 << 20).map(|i| (i.wrapping_mul(2654435761) >> 24) as u8).collect();
    println!("{:>9} {:>11} {:>22} {:>22} {:>22}", "bytes", "Rust ns", "crc8 ns (ratio)", "lent ns (ratio)", "plain ns (ratio)");
    for len in [7, 8, 9, 64, 2032, 1 << 20] {
        let data = &bytes[..len];
        let times = (20_000_000 / len as u64).clamp(20, 400_000);
        let judge = time(rust, data, times);
        print!("{len:>9} {judge:>11.1}");
        for run in [ours as Repeat, lent, plain] {
            assert_eq!(run(data, 5), rust(data, 5), "an answer differs");
            let ns = time(run, data, times);
            print!(" {ns:>13.1} ({:>6.2})", ns / judge);
        }
        println!();
    }
}
