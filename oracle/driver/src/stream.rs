//! Graphs and document 000's answers as a stream of bytes, for a program of another language to compare with.
//!
//! The README states the rule of the numbers and the bytes.

use std::io::{BufWriter, Write};

use judge::Request;

use crate::{
    make,
    rng::{Rng, splitmix},
    solve::{self, Answer},
    wide,
};

const BEGIN: &[u8; 8] = b"TCSTREAM";
const GRAPH: &[u8; 8] = b"TCGRAPH2";
const END: &[u8; 8] = b"TCENDING";

/// So many numbers in a row meet every family at every D once; the graphs of such a block are of one size.
const BLOCK: u64 = 16 * judge::MAX_D as u64;

/// So many blocks in a row meet every size.
const CYCLE: u64 = 25;

const MANY_ROWS: usize = 200_000;

/// Drawn apart from the graph, so that a graph of a size of `make` is `make`'s.
const PARAMETER_SALT: u64 = 0x7468_7265_7368;

#[derive(Clone, Copy, Debug, PartialEq, Eq)]
enum Size {
    /// As `make` has them: 1 to 64 rows.
    Made,
    /// 65 to 1,000 rows.
    Hundreds,
    /// 1,001 to 4,096 rows, one chunk still.
    Chunk,
    /// 4,096 to 20,000 rows: up to five chunks.
    Chunks,
    /// 200,000 rows, 49 chunks.
    Many,
}

fn size(number: u64) -> Size {
    let (block, cycle) = (number / BLOCK, number / BLOCK / CYCLE);
    // Its place in the block moves on from cycle to cycle, so that families and widths change.
    let is_many = number % BLOCK == (37 * cycle + 1) % BLOCK;
    match block % CYCLE {
        3 | 10 | 17 => Size::Hundreds,
        7 => Size::Chunk,
        13 if is_many => Size::Many,
        13 => Size::Chunks,
        _ => Size::Made,
    }
}

/// The request of a number.
pub fn request(number: u64) -> Request {
    let size = size(number);
    let mut parameters = Rng::new(splitmix(number ^ PARAMETER_SALT));
    if size == Size::Made {
        return with_limits(&mut parameters, make::make(number));
    }
    let mut rng = Rng::new(number);
    let n = row_count(&mut rng, size);
    let rows = wide::rows((number % 16) as usize, &mut rng, n);
    let d = 1 + (number / 16 % judge::MAX_D as u64) as usize;
    let seed_std = make::seed_std(&mut parameters);
    let (rounds, degree) = match size {
        Size::Many => (parameters.between(1, 2), parameters.between(1, 3)),
        Size::Hundreds => (parameters.pick(&[1, 1, 2, 3, 5]), parameters.pick(&[1, 2, 3, 5, 8, 20])),
        _ => (parameters.pick(&[1, 1, 1, 2, 3]), parameters.pick(&[1, 1, 2, 3, 5, 8])),
    };
    let made = make::request(d, rounds, degree, seed_std, &rows);
    match has_defaults(&mut parameters, size, number) {
        true => with_defaults(made),
        false => made,
    }
}

fn row_count(rng: &mut Rng, size: Size) -> usize {
    match size {
        Size::Made | Size::Hundreds => rng.between(65, 1_000),
        Size::Chunk => rng.between(1_001, 4_096),
        // A sixth stands at the edge of a chunk.
        Size::Chunks if rng.once_in(6) => rng.pick(&[4_096, 4_097, 8_192, 8_193, 12_288, 16_385]),
        Size::Chunks => rng.between(4_097, 20_000),
        Size::Many => MANY_ROWS,
    }
}

fn with_defaults(request: Request) -> Request {
    Request { rounds: 5, degree: 20, seed_std: 1e-4, ..request }
}

/// The defaults' hundred passes are dear on many rows, so fewer of those have them.
fn has_defaults(rng: &mut Rng, size: Size, number: u64) -> bool {
    match size {
        Size::Made | Size::Hundreds => rng.once_in(8),
        Size::Chunk | Size::Chunks => rng.once_in(28),
        Size::Many => number / BLOCK / CYCLE % 12 == 5,
    }
}

/// One in eight has the defaults; a few small ones have the most rounds or the highest degree.
fn with_limits(rng: &mut Rng, made: Request) -> Request {
    if rng.once_in(8) {
        return with_defaults(made);
    }
    let is_small = made.n() <= 12;
    match rng.below(1_000) {
        0 if is_small => Request { rounds: 1_000, degree: 1, ..made },
        1..=3 if is_small => Request { degree: 1_000, rounds: 1, ..made },
        _ => made,
    }
}

/// Writes the graphs of `count` numbers from `from` on, each with its answer.
pub fn write(from: u64, count: u64, out: impl Write) -> Result<(), String> {
    let mut out = BufWriter::with_capacity(1 << 20, out);
    let told = |fault: std::io::Error| format!("the stream cannot be written: {fault}");
    out.write_all(BEGIN).map_err(told)?;
    whole(&mut out, &[from, count]).map_err(told)?;
    for number in from..from.saturating_add(count) {
        let request = request(number);
        let answer = solve::solve(&request).map_err(|fault| format!("graph {number}: {fault}"))?;
        write_graph(&mut out, number, &request, &answer).map_err(told)?;
    }
    out.write_all(END).map_err(told)?;
    whole(&mut out, &[count]).map_err(told)?;
    out.flush().map_err(told)
}

fn write_graph(out: &mut impl Write, number: u64, request: &Request, answer: &Answer) -> std::io::Result<()> {
    let (conditions, counts) = (answer.conditions, answer.counts);
    out.write_all(GRAPH)?;
    whole(out, &[number, number % 16, request.d as u64, request.n() as u64, request.columns.len() as u64])?;
    whole(out, &[request.rounds as u64, request.degree as u64, request.seed_std.to_bits()])?;
    whole(out, &[conditions.twice, conditions.nan, conditions.falls, conditions.empty].map(u64::from))?;
    whole(out, &[counts.passes, counts.refreshed, counts.zeroed, counts.isolated])?;
    all(out, request.starts.iter().map(|&start| (start as u64).to_le_bytes()))?;
    all(out, request.columns.iter().map(|column| column.to_le_bytes()))?;
    all(out, request.values.iter().map(|value| value.to_bits().to_le_bytes()))?;
    all(out, answer.seed.iter().map(|value| value.to_bits().to_le_bytes()))?;
    all(out, answer.record().map(|value| value.to_bits().to_le_bytes()))
}

fn whole(out: &mut impl Write, numbers: &[u64]) -> std::io::Result<()> {
    all(out, numbers.iter().map(|number| number.to_le_bytes()))
}

fn all<const N: usize>(out: &mut impl Write, items: impl Iterator<Item = [u8; N]>) -> std::io::Result<()> {
    let bytes: Vec<u8> = items.flatten().collect();
    out.write_all(&bytes)
}

#[cfg(test)]
mod tests {
    use super::*;

    #[test]
    fn every_size_is_met_in_a_cycle_and_has_its_rows() {
        let sizes: Vec<Size> = (0..BLOCK * CYCLE).map(size).collect();
        let of = |wanted: Size| sizes.iter().filter(|&&s| s == wanted).count() as u64;
        assert_eq!(of(Size::Made), 20 * BLOCK);
        assert_eq!(of(Size::Hundreds), 3 * BLOCK);
        assert_eq!(of(Size::Chunk), BLOCK);
        assert_eq!(of(Size::Chunks), BLOCK - 1);
        assert_eq!(of(Size::Many), 1);
        for number in [3 * BLOCK, 7 * BLOCK + 1, 13 * BLOCK + 2, 13 * BLOCK + 11] {
            let made = request(number);
            let rows = match size(number) {
                Size::Hundreds => 65..=1_000,
                Size::Chunk => 1_001..=4_096,
                _ => 4_096..=20_000,
            };
            assert!(made.fault().is_none() && rows.contains(&made.n()), "{number}: {} rows", made.n());
        }
    }

    #[test]
    fn a_small_graph_is_makes() {
        for number in [0, 17, 335] {
            let (ours, made) = (request(number), make::make(number));
            assert_eq!((ours.starts, ours.columns), (made.starts, made.columns));
        }
    }

    #[test]
    fn the_stream_is_as_long_as_its_graphs() {
        let mut bytes = Vec::new();
        write(5, 3, &mut bytes).unwrap();
        let lists = |x: u64| {
            let r = request(x);
            let record = r.rounds * (r.d + judge::OVERSAMPLE + 1);
            8 * (17 + r.n() + 1 + r.n() * r.d + record) + 12 * r.columns.len()
        };
        assert_eq!(bytes.len(), 24 + (5..8).map(lists).sum::<usize>() + 16);
        assert!(bytes.starts_with(BEGIN) && bytes[bytes.len() - 16..].starts_with(END));
    }

    #[test]
    fn a_reader_that_stops_is_told() {
        struct Full;
        impl Write for Full {
            fn write(&mut self, _: &[u8]) -> std::io::Result<usize> {
                Err(std::io::ErrorKind::BrokenPipe.into())
            }
            fn flush(&mut self) -> std::io::Result<()> {
                Ok(())
            }
        }
        assert!(write(0, 1, Full).is_err());
    }
}
