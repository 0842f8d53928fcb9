//! The graph that is read and the memory that is lent, and both as the library takes them.

use crate::arithmetic::in_default;
use crate::ffi::{self, Answer, Embedded, State};
use crate::{Params, Reason, Refusal};

/// A graph of neighbours, as rows of entries. Nothing is tested here: the library tests it whenever a run begins.
#[derive(Clone, Copy, Debug)]
pub struct Graph<'a> {
    /// Row i's entries are those from `starts[i]` up to `starts[i + 1]`; one start more than there are rows.
    pub starts: &'a [u64],
    /// The column of each entry. A column may stand twice in a row, and symmetry is not tested.
    pub columns: &'a [u32],
    /// The value of each entry.
    pub values: &'a [f64],
}

impl<'a> Graph<'a> {
    /// The graph with these lists.
    pub fn new(starts: &'a [u64], columns: &'a [u32], values: &'a [f64]) -> Graph<'a> {
        Graph { starts, columns, values }
    }

    /// How many rows it has: one fewer than starts.
    pub fn rows(&self) -> usize {
        self.starts.len().saturating_sub(1)
    }
}

/// The eleven lists that the library works in: document 01's in its order, and the Ritz record. Longer ones than a run needs are allowed and
/// their rest stays untouched; a shorter one is refusal 11.
#[derive(Clone, Debug, Default)]
pub struct Memory {
    /// List 0: inverse weights, one per row.
    pub inverse: Vec<f64>,
    /// List 1: v0, one per row.
    pub v0: Vec<f64>,
    /// List 2: columns of the sorted entries.
    pub edge_columns: Vec<u32>,
    /// List 3: their weights.
    pub edge_weights: Vec<f64>,
    /// List 4: the first block, D + 8 numbers per row.
    pub block0: Vec<f64>,
    /// List 5: the second block.
    pub block1: Vec<f64>,
    /// List 6: the third block.
    pub block2: Vec<f64>,
    /// List 7: partial sums, (D + 8) x (D + 8) per chunk.
    pub partials: Vec<f64>,
    /// List 8: a mark per chunk.
    pub marks: Vec<u8>,
    /// List 9: the seed, D numbers per row.
    pub output: Vec<f64>,
    /// List 10: the Ritz record, D + 9 numbers per round: the bound that its filter used, then its Ritz values. Places of rounds whose products
    /// are not closed are as they were lent. [`RitzRecord::new`](crate::RitzRecord::new) reads it.
    pub ritz_record: Vec<f64>,
}

impl Memory {
    /// Zeros, as many as this many dimensions, rounds, rows and entries need; refusals 1, 2, 3 and 8, and 11 where the machine has not so much
    /// memory.
    pub fn new(dims: usize, rounds: u64, rows: usize, entries: usize) -> Result<Memory, Refusal> {
        let lengths = Memory::lengths_for(dims, rounds, rows, entries)?;
        Ok(Memory {
            inverse: zeros(0, &lengths)?,
            v0: zeros(1, &lengths)?,
            edge_columns: zeros(2, &lengths)?,
            edge_weights: zeros(3, &lengths)?,
            block0: zeros(4, &lengths)?,
            block1: zeros(5, &lengths)?,
            block2: zeros(6, &lengths)?,
            partials: zeros(7, &lengths)?,
            marks: zeros(8, &lengths)?,
            output: zeros(9, &lengths)?,
            ritz_record: zeros(10, &lengths)?,
        })
    }

    /// What a run over this graph needs; of the parameters the rounds count.
    pub fn for_graph(graph: &Graph<'_>, dims: usize, params: Params) -> Result<Memory, Refusal> {
        Memory::new(dims, params.get_rounds(), graph.rows(), graph.columns.len())
    }

    /// How long each list is.
    pub fn lengths(&self) -> [usize; 11] {
        [
            self.inverse.len(),
            self.v0.len(),
            self.edge_columns.len(),
            self.edge_weights.len(),
            self.block0.len(),
            self.block1.len(),
            self.block2.len(),
            self.partials.len(),
            self.marks.len(),
            self.output.len(),
            self.ritz_record.len(),
        ]
    }

    /// How long each list must at least be; refusals 1, 2, 3 and 8, in this order.
    pub fn lengths_for(dims: usize, rounds: u64, rows: usize, entries: usize) -> Result<[usize; 11], Refusal> {
        // SAFETY: numbers by value only.
        let sizes = in_default(|| unsafe { ffi::threshcinch_lent_sizes(dims as u64, rounds, rows, entries) });
        Refusal::check(sizes.verdict)?;
        Ok(sizes.lengths)
    }
}

/// List `place` as zeros, or refusal 11 at that place: a machine with too little memory lends too short a list.
fn zeros<T: Clone + Default>(place: usize, lengths: &[usize; 11]) -> Result<Vec<T>, Refusal> {
    let mut list = Vec::new();
    match list.try_reserve_exact(lengths[place]) {
        Ok(()) => list.resize(lengths[place], T::default()),
        Err(_) => return Err(Reason::Memory.at(place as u64)),
    }
    Ok(list)
}

/// Address and length of a list.
#[derive(Clone, Copy)]
struct List<P>(P, usize);

/// The fourteen lists as the library takes them. Pointers, so that several threads may hold them at once; whoever calls answers for that.
#[derive(Clone, Copy)]
pub(crate) struct Lists {
    starts: List<*const u64>,
    columns: List<*const u32>,
    values: List<*const f64>,
    inverse: List<*mut f64>,
    v0: List<*mut f64>,
    edge_columns: List<*mut u32>,
    edge_weights: List<*mut f64>,
    block0: List<*mut f64>,
    block1: List<*mut f64>,
    block2: List<*mut f64>,
    partials: List<*mut f64>,
    marks: List<*mut u8>,
    output: List<*mut f64>,
    ritz_record: List<*mut f64>,
}

// SAFETY: addresses and lengths alone; nothing is read or written but in the unsafe calls below, which say when they may be made.
unsafe impl Send for Lists {}

/// A call of the library on all lists, after its own arguments.
macro_rules! on_lists {
    ($name:ident($($argument:expr),*), $lists:expr) => {
        ffi::$name(
            $($argument,)*
            $lists.starts.0, $lists.starts.1,
            $lists.columns.0, $lists.columns.1,
            $lists.values.0, $lists.values.1,
            $lists.inverse.0, $lists.inverse.1,
            $lists.v0.0, $lists.v0.1,
            $lists.edge_columns.0, $lists.edge_columns.1,
            $lists.edge_weights.0, $lists.edge_weights.1,
            $lists.block0.0, $lists.block0.1,
            $lists.block1.0, $lists.block1.1,
            $lists.block2.0, $lists.block2.1,
            $lists.partials.0, $lists.partials.1,
            $lists.marks.0, $lists.marks.1,
            $lists.output.0, $lists.output.1,
            $lists.ritz_record.0, $lists.ritz_record.1,
        )
    };
}

impl Lists {
    /// The lists of a graph and of memory: there, aligned, and each apart from the others, as each is a list of its own.
    pub(crate) fn of(graph: &Graph<'_>, memory: &mut Memory) -> Lists {
        fn read<T>(list: &[T]) -> List<*const T> {
            List(list.as_ptr(), list.len())
        }
        fn lent<T>(list: &mut Vec<T>) -> List<*mut T> {
            List(list.as_mut_ptr(), list.len())
        }
        Lists {
            starts: read(graph.starts),
            columns: read(graph.columns),
            values: read(graph.values),
            inverse: lent(&mut memory.inverse),
            v0: lent(&mut memory.v0),
            edge_columns: lent(&mut memory.edge_columns),
            edge_weights: lent(&mut memory.edge_weights),
            block0: lent(&mut memory.block0),
            block1: lent(&mut memory.block1),
            block2: lent(&mut memory.block2),
            partials: lent(&mut memory.partials),
            marks: lent(&mut memory.marks),
            output: lent(&mut memory.output),
            ritz_record: lent(&mut memory.ritz_record),
        }
    }

    /// SAFETY: the graph and the memory that the lists are of are still there and untouched, and nobody else uses the memory meanwhile.
    pub(crate) unsafe fn embed(&self, dims: usize, params: Params) -> Embedded {
        in_default(|| unsafe { on_lists!(threshcinch_spectral_embedding(dims as u64, params.raw), self) })
    }

    /// SAFETY: as for `embed`.
    pub(crate) unsafe fn open(&self, dims: usize, params: Params) -> Answer {
        in_default(|| unsafe { on_lists!(threshcinch_open(dims as u64, params.raw), self) })
    }

    /// SAFETY: as for `embed`, except that other threads may be in `chunk` too, with the same state and each with another number.
    pub(crate) unsafe fn chunk(&self, state: &State, number: usize) -> Answer {
        in_default(|| unsafe { on_lists!(threshcinch_chunk(*state, number), self) })
    }

    /// SAFETY: as for `embed`: every chunk call has returned.
    pub(crate) unsafe fn close(&self, state: &State) -> Answer {
        in_default(|| unsafe { on_lists!(threshcinch_close(*state), self) })
    }
}
