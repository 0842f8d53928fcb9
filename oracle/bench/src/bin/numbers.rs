//! The root beside the hardware's on 10,000,000 patterns (or the number given), and the start hash beside Rust's.
//!
//! Compares `numbers_root` with the hardware's square root and `numbers_splitmix_unit` with the Rust
//! function that it was ported from, bit for bit (a NaN equals any NaN); then prints nanoseconds a call.
//! Leaves with 1 if anything differs. The first argument is the number of random patterns (10,000,000).
use bench::same;
use std::hint::black_box;
use std::process::ExitCode;
use std::time::Instant;

#[link(name = "numbers", kind = "static")]
unsafe extern "C" {
    fn numbers_root(x: f64) -> f64;
    fn numbers_splitmix_unit(index: u64) -> f64;
}

fn root(x: f64) -> f64 {
    // SAFETY: the proved function takes every f64 and touches no memory.
    unsafe { numbers_root(x) }
}

fn splitmix_unit(index: u64) -> f64 {
    // SAFETY: the proved function takes every u64 and touches no memory.
    unsafe { numbers_splitmix_unit(index) }
}

fn mixed(index: u64) -> u64 {
    let mut z = index.wrapping_add(0x9E37_79B9_7F4A_7C15);
    z = (z ^ (z >> 30)).wrapping_mul(0xBF58_476D_1CE4_E5B9);
    z = (z ^ (z >> 27)).wrapping_mul(0x94D0_49BB_1331_11EB);
    z ^ (z >> 31)
}

struct Random(u64);

impl Random {
    fn bits(&mut self) -> u64 {
        self.0 = self.0.wrapping_add(0x9E37_79B9_7F4A_7C15);
        mixed(self.0)
    }

    fn below(&mut self, n: u64) -> u64 {
        self.bits() % n
    }
}

const INFINITY: u64 = 0x7ff0_0000_0000_0000;
const MINUS: u64 = 1 << 63;
const KINDS: [&str; 8] = [
    "any pattern",
    "normals",
    "subnormals",
    "squares, near",
    "half-way, near",
    "powers of two, near",
    "largest, near",
    "zeros, below 0, NaN",
];

/// A pattern and up to three places from it, to either side.
fn near(random: &mut Random, bits: u64) -> u64 {
    bits.wrapping_add(random.below(7)).wrapping_sub(3)
}

/// x * 4^k for a k that keeps it a normal value.
fn times_four(random: &mut Random, x: f64) -> f64 {
    let exponent = 1023 + 2 * random.below(400) - 400;
    x * f64::from_bits(exponent << 52)
}

fn pattern(random: &mut Random, kind: usize) -> u64 {
    match kind {
        0 => random.bits(),
        1 => (1 + random.below(2046)) << 52 | random.bits() >> 12,
        2 => random.bits() >> (12 + random.below(52)),
        3 => {
            let q = (random.bits() >> (38 + random.below(26))) as f64;
            let square = times_four(random, q * q);
            near(random, square.to_bits())
        }
        4 => {
            // The square of a point half-way between two roots of 53 digits, rounded to 53 digits.
            let q = u128::from(random.bits() >> 12 | 1 << 52);
            let square = times_four(random, ((2 * q + 1) * (2 * q + 1)) as f64);
            near(random, square.to_bits())
        }
        5 => {
            let power = if random.below(8) == 0 { 1 << random.below(52) } else { random.below(2047) << 52 };
            near(random, power)
        }
        6 => {
            let few = 1 << random.below(52);
            let below = 4 + random.below(few);
            near(random, INFINITY - below)
        }
        _ => match random.below(4) {
            0 => random.below(2) << 63,
            1 => MINUS | random.bits(),
            2 => random.below(2) << 63 | INFINITY,
            _ => random.below(2) << 63 | INFINITY | random.bits() >> 12,
        },
    }
}

/// The first few differences are shown.
struct Differences(u64);

impl Differences {
    fn test(&mut self, of: &str, input: u64, ours: f64, want: f64) {
        if !same(ours, want) {
            self.0 += 1;
            if self.0 <= 10 {
                println!(
                    "{of} of {input:016x}: {:016x}, and {:016x} is right",
                    ours.to_bits(),
                    want.to_bits()
                );
            }
        }
    }
}

/// Document 01's numbers: input and root, as bits.
const FIXED: [(u64, u64); 6] = [
    (0x3cb0_0000_0000_0000, 0x3e50_0000_0000_0000),
    (1, 0x1e60_0000_0000_0000),
    (0x7fef_ffff_ffff_ffff, 0x5fef_ffff_ffff_ffff),
    (MINUS, MINUS),
    (INFINITY, INFINITY),
    (0xbff0_0000_0000_0000, 0x7ff8_0000_0000_0000),
];

fn compare(count: u64) -> u64 {
    let mut differences = Differences(0);
    for (input, want) in FIXED {
        differences.test("root", input, root(f64::from_bits(input)), f64::from_bits(want));
    }
    differences.test("splitmix_unit", 0x61C8_8646_80B5_83EB, splitmix_unit(0x61C8_8646_80B5_83EB), -0.5);

    let mut random = Random(1);
    let each = count.div_ceil(KINDS.len() as u64);
    for (kind, name) in KINDS.iter().enumerate() {
        let before = differences.0;
        for _ in 0..each {
            let input = pattern(&mut random, kind);
            let x = f64::from_bits(input);
            differences.test("root", input, root(x), x.sqrt());
        }
        println!("root, {name:<20} {each:>9} tried, {} differ", differences.0 - before);
    }
    let before = differences.0;
    for i in 0..count {
        let index = if i % 2 == 0 { i } else { random.bits() };
        differences.test("splitmix_unit", index, splitmix_unit(index), bench::splitmix_unit(index));
    }
    println!("splitmix_unit {:>26} tried, {} differ", count, differences.0 - before);
    println!("differences: {}", differences.0);
    differences.0
}

/// Nanoseconds a call: the least of many batches, since other work on the machine only adds.
fn least_time<X: Copy>(inputs: &[X], call: impl Fn(X) -> f64) -> f64 {
    let mut least = f64::INFINITY;
    for _ in 0..400 {
        let start = Instant::now();
        let mut sum = 0.0;
        for &x in inputs {
            sum += call(black_box(x));
        }
        black_box(sum);
        least = least.min(start.elapsed().as_nanos() as f64 / inputs.len() as f64);
    }
    least
}

fn time() {
    let mut random = Random(2);
    for (kind, name) in KINDS.iter().enumerate().skip(1).take(2) {
        let inputs: Vec<f64> = (0..4096).map(|_| f64::from_bits(pattern(&mut random, kind))).collect();
        let (ours, hardware) = (least_time(&inputs, root), least_time(&inputs, f64::sqrt));
        println!("root, {name}: {ours:.1} ns a call, hardware {hardware:.1} ns");
    }
    let inputs: Vec<u64> = (0..4096).collect();
    let (ours, rust) = (least_time(&inputs, splitmix_unit), least_time(&inputs, bench::splitmix_unit));
    println!("splitmix_unit: {ours:.1} ns a call, Rust's {rust:.1} ns");
}

fn main() -> ExitCode {
    let count = match std::env::args().nth(1) {
        None => 10_000_000,
        Some(word) => word.parse().expect("a number of patterns"),
    };
    let differences = compare(count);
    time();
    if differences == 0 { ExitCode::SUCCESS } else { ExitCode::FAILURE }
}
