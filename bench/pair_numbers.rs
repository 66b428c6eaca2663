// Times the numbers of all pairs of 400 stars: the proved code, linked as a static library, beside plain Rust with u128.
use std::hint::black_box;
use std::time::{Duration, Instant};

const STARS: usize = 400;
const ROUNDS: usize = 51;
const ORIGIN: i64 = 65_536;

unsafe extern "C" {
    /// The sum of the numbers of all pairs, modulo 2^64; `stars` is `len` numbers, three for each star.
    fn sum_of_pair_numbers(stars: *const u32, len: usize) -> u64;
}

fn proved(stars: &[u32]) -> u64 {
    // SAFETY: the pointer and the length are those of a slice, which the function only reads.
    unsafe { sum_of_pair_numbers(stars.as_ptr(), stars.len()) }
}

fn direction(stars: &[u32], s: usize) -> [i64; 3] {
    [0, 1, 2].map(|i| i64::from(stars[3 * s + i]) - ORIGIN)
}

fn length_squared(d: [i64; 3]) -> u64 {
    d.iter().map(|&c| (c * c) as u64).sum()
}

fn pair_number(d: [i64; 3], e: [i64; 3]) -> u32 {
    let cross = [
        d[1] * e[2] - d[2] * e[1],
        d[2] * e[0] - d[0] * e[2],
        d[0] * e[1] - d[1] * e[0],
    ];
    let square = |c: i64| u128::from(c.unsigned_abs()) * u128::from(c.unsigned_abs());
    let squares: u128 = cross.iter().map(|&c| square(c)).sum();
    let whole = u128::from(length_squared(d)) * u128::from(length_squared(e));
    ((squares << 24) / whole) as u32
}

fn plain(stars: &[u32]) -> u64 {
    let count = stars.len() / 3;
    let mut sum: u64 = 0;
    for s in 0..count {
        let d = direction(stars, s);
        for t in 0..s {
            sum = sum.wrapping_add(u64::from(pair_number(d, direction(stars, t))));
        }
    }
    sum
}

/// Stars all over the sky, with coordinates from -`largest` to `largest`, by a generator of its own (xorshift).
fn random_stars(mut seed: u64, largest: i64) -> Vec<u32> {
    let mut next = move || {
        seed ^= seed << 13;
        seed ^= seed >> 7;
        seed ^= seed << 17;
        (seed >> 11) as i64 % (2 * largest + 1) - largest
    };
    (0..3 * STARS).map(|_| (next() + ORIGIN) as u32).collect()
}

fn median(mut times: Vec<Duration>) -> Duration {
    times.sort();
    times[times.len() / 2]
}

fn time(work: fn(&[u32]) -> u64, stars: &[u32]) -> Duration {
    let start = Instant::now();
    black_box(work(black_box(stars)));
    start.elapsed()
}

fn main() {
    let pairs = STARS * (STARS - 1) / 2;
    println!("The numbers of all {pairs} pairs of {STARS} stars: median of {ROUNDS} rounds, and that for one pair.");
    println!("{:<18} {:>20} {:>20} {:>7}", "coordinates up to", "proved", "plain u128", "ratio");
    for largest in [65_535, 1_000, 30] {
        let stars = random_stars(0x9e37_79b9_7f4a_7c15, largest);
        assert_eq!(proved(&stars), plain(&stars), "the two sums differ");
        let (mut ours, mut theirs) = (Vec::new(), Vec::new());
        for _ in 0..ROUNDS {
            ours.push(time(proved, &stars));
            theirs.push(time(plain, &stars));
        }
        let (ours, theirs) = (median(ours), median(theirs));
        let shown = |d: Duration| {
            format!("{} us, {:.1} ns", d.as_micros(), d.as_nanos() as f64 / pairs as f64)
        };
        let ratio = ours.as_secs_f64() / theirs.as_secs_f64();
        println!("{largest:<18} {:>20} {:>20} {ratio:>7.2}", shown(ours), shown(theirs));
    }
}
