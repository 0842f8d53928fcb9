//! How the spectrum settled: what the library has written of each round.

/// The Ritz record of a run: for each round the bound that its filter used, and all k = D + 8 Ritz values, falling, NaN last.
///
/// The bound of round 0 is 0.75. A later one is the Ritz value at place D + 1, counted from 0, of the round before, raised to 0.1 and lowered to
/// 0.9995. Values that hardly move from one round to the next have settled.
///
/// ```
/// use threshcinch::{spectral_embedding, Graph, Params};
/// let graph = Graph::new(&[0, 1, 3, 4], &[1, 0, 2, 1], &[1.0, 1.0, 1.0, 1.0]);
/// let record = spectral_embedding(&graph, 2, Params::new())?.ritz_record;
/// for (round, (bound, values)) in record.iter().enumerate() {
///     println!("round {round}: bound {bound}, leading values {:?}", &values[..3]);
/// }
/// assert_eq!((record.rounds(), record.width()), (5, 10));
/// assert_eq!(record.bound(0), Some(0.75));
/// # Ok::<(), threshcinch::Refusal>(())
/// ```
#[derive(Clone, Debug, Default)]
pub struct RitzRecord {
    width: usize,
    numbers: Vec<f64>,
}

impl RitzRecord {
    /// The record in a list that the caller has lent ([`Memory::ritz_record`](crate::Memory::ritz_record)): so many rounds, from the first one
    /// on. Nothing where the list is shorter than rounds x (D + 9).
    pub fn new(dims: usize, rounds: usize, mut numbers: Vec<f64>) -> Option<RitzRecord> {
        let width = dims.checked_add(8)?;
        let length = width.checked_add(1)?.checked_mul(rounds)?;
        if numbers.len() < length {
            return None;
        }
        numbers.truncate(length);
        Some(RitzRecord { width, numbers })
    }

    /// How many rounds it has.
    pub fn rounds(&self) -> usize {
        self.numbers.len() / (self.width + 1)
    }

    /// k, how many Ritz values each round has.
    pub fn width(&self) -> usize {
        self.width
    }

    /// The bound that the filter of this round, from 0, used; nothing where there is no such round.
    pub fn bound(&self, round: usize) -> Option<f64> {
        self.iter().nth(round).map(|(bound, _)| bound)
    }

    /// The Ritz values of this round, from 0; nothing where there is no such round.
    pub fn values(&self, round: usize) -> Option<&[f64]> {
        self.iter().nth(round).map(|(_, values)| values)
    }

    /// Each round's bound and Ritz values.
    pub fn iter(&self) -> impl Iterator<Item = (f64, &[f64])> {
        self.numbers.chunks_exact(self.width + 1).filter_map(|round| round.split_first()).map(|(&bound, values)| (bound, values))
    }

    /// All its numbers as the library has them: for each round the bound, and the Ritz values behind it.
    pub fn numbers(&self) -> &[f64] {
        &self.numbers
    }

    /// Every number of the two is the same, bit for bit.
    pub fn same_bits(&self, other: &RitzRecord) -> bool {
        let bits = |record: &RitzRecord| record.numbers.iter().map(|number| number.to_bits()).collect::<Vec<u64>>();
        self.width == other.width && bits(self) == bits(other)
    }
}
