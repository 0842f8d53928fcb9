//! What the library answers to input that it does not take.

use crate::ffi::Verdict;

/// Why a call was refused: document 01's numbers as names, to match on. [`Refusal::reason`] answers it.
///
/// Later versions may have more of them, so that a `match` needs an arm for the rest.
///
/// ```
/// use threshcinch::{spectral_embedding, Graph, Params, Reason};
///
/// // A graph of one row, whose entry names column 7.
/// let refusal = spectral_embedding(&Graph::new(&[0, 1], &[7], &[1.0]), 2, Params::new()).unwrap_err();
/// match refusal.reason() {
///     Some(Reason::Column) => println!("entry {} names no row of the graph", refusal.place),
///     Some(Reason::Value) => println!("entry {} is not finite", refusal.place),
///     _ => println!("{refusal}"),
/// }
/// assert_eq!(refusal.reason(), Some(Reason::Column));
/// assert_eq!((refusal.number, refusal.place), (6, 0));
/// ```
#[derive(Clone, Copy, Debug, PartialEq, Eq, Hash)]
#[non_exhaustive]
#[repr(u64)]
pub enum Reason {
    /// D is not 1 to 7.
    Dims = 1,
    /// Fewer than two row starts.
    NoRows = 2,
    /// More rows or columns than allowed.
    Limits = 3,
    /// Columns and values differ in length.
    Lengths = 4,
    /// The first start is not 0, a start is below the one before, or the last is not the column count. Place: its index.
    Starts = 5,
    /// A column is not below the number of rows. Place: the first such entry.
    Column = 6,
    /// A value is NaN or infinite. Place: the first such entry.
    Value = 7,
    /// Rounds are not 1 to 1,000.
    Rounds = 8,
    /// Degree is not 1 to 1,000.
    Degree = 9,
    /// The seed's standard deviation is not positive and finite.
    SeedStd = 10,
    /// Lent memory is too short, or the machine has not so much. Place: the first such list, 0 to 10; of a graph that is read 0 to 2.
    Memory = 11,
    /// The chunk number is not below the number of chunks. Place: the number offered.
    NoChunk = 12,
    /// That chunk is already done in this stage. Place: its number.
    ChunkDone = 13,
    /// Closing with a chunk not done. Place: the lowest such.
    ChunksLeft = 14,
    /// No run is open.
    NoRun = 15,
    /// The state, or a list or mark for it, is damaged. No run from its opening meets it; a forged save may.
    Damaged = 16,
    /// The bytes are no run file, or the numbers more than one holds, or an answer's rows over 64. Place: the line, from 1, or 0.
    Text = 17,
    /// The text has too little room for what is to be written.
    Room = 18,
    /// The bytes are no Matrix Market file (coordinate, pattern, symmetric). Place: the first line at fault, from 1.
    MatrixMarket = 19,
}

impl Reason {
    const ALL: [Reason; 19] = [
        Reason::Dims,
        Reason::NoRows,
        Reason::Limits,
        Reason::Lengths,
        Reason::Starts,
        Reason::Column,
        Reason::Value,
        Reason::Rounds,
        Reason::Degree,
        Reason::SeedStd,
        Reason::Memory,
        Reason::NoChunk,
        Reason::ChunkDone,
        Reason::ChunksLeft,
        Reason::NoRun,
        Reason::Damaged,
        Reason::Text,
        Reason::Room,
        Reason::MatrixMarket,
    ];

    /// Document 01's number.
    pub const fn number(self) -> u64 {
        self as u64
    }

    /// The reason with this number, where there is one.
    pub fn of_number(number: u64) -> Option<Reason> {
        Reason::ALL.into_iter().find(|reason| reason.number() == number)
    }

    /// The reason in words, those of include/threshcinch.h.
    pub const fn words(self) -> &'static str {
        match self {
            Reason::Dims => "dimensions are not 1 to 7",
            Reason::NoRows => "fewer than two row starts",
            Reason::Limits => "more rows than 1,048,576 or more entries than 67,108,864",
            Reason::Lengths => "columns and values differ in length",
            Reason::Starts => "the row starts do not begin at 0, fall, or do not end at the number of columns",
            Reason::Column => "a column is not below the number of rows",
            Reason::Value => "a value is NaN or infinite",
            Reason::Rounds => "rounds are not 1 to 1,000",
            Reason::Degree => "degree is not 1 to 1,000",
            Reason::SeedStd => "seed_std is not positive and finite",
            Reason::Memory => "lent memory is too short",
            Reason::NoChunk => "there is no such chunk",
            Reason::ChunkDone => "that chunk is already done in this stage",
            Reason::ChunksLeft => "a chunk of this stage is not done yet",
            Reason::NoRun => "no run is open",
            Reason::Damaged => "the state, or a list for it, is damaged",
            Reason::Text => "the text is not a run file, or more than one holds",
            Reason::Room => "the text has too little room",
            Reason::MatrixMarket => "the text is not a Matrix Market file of the kind coordinate pattern symmetric",
        }
    }

    /// What the place counts, for the reasons that have one.
    const fn place_is(self) -> Option<&'static str> {
        match self {
            Reason::Starts => Some("start"),
            Reason::Column | Reason::Value => Some("entry"),
            Reason::Memory => Some("list"),
            Reason::NoChunk | Reason::ChunkDone | Reason::ChunksLeft => Some("chunk"),
            Reason::Text | Reason::MatrixMarket => Some("line"),
            _ => None,
        }
    }

    /// The refusal for this reason at a place.
    pub(crate) fn at(self, place: u64) -> Refusal {
        Refusal { number: self.number(), place }
    }
}

/// A refusal: document 01's number, and the place that it speaks of. A refused call has changed nothing.
#[derive(Clone, Copy, Debug, PartialEq, Eq)]
pub struct Refusal {
    /// 1 to 19, as [`Reason`] names them.
    pub number: u64,
    /// An index, an entry, a list, a chunk or a line, as the number has it; 0 where there is none.
    pub place: u64,
}

impl Refusal {
    /// Nothing if the library accepted.
    pub(crate) fn check(verdict: Verdict) -> Result<(), Refusal> {
        match verdict.number {
            0 => Ok(()),
            number => Err(Refusal { number, place: verdict.place }),
        }
    }

    /// The number as a name; nothing for a number that this crate does not know.
    pub fn reason(&self) -> Option<Reason> {
        Reason::of_number(self.number)
    }

    /// The refusal in words, without its place.
    pub fn words(&self) -> &'static str {
        self.reason().map_or("no refusal has this number", Reason::words)
    }
}

impl std::fmt::Display for Refusal {
    fn fmt(&self, to: &mut std::fmt::Formatter<'_>) -> std::fmt::Result {
        write!(to, "refusal {}: {}", self.number, self.words())?;
        match self.reason().and_then(Reason::place_is) {
            Some(what) => write!(to, " ({what} {})", self.place),
            None => Ok(()),
        }
    }
}

impl std::error::Error for Refusal {}
