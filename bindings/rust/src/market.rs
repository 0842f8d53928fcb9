//! Matrix Market files, each as bytes, read by the library.

use crate::arithmetic::in_default;
use crate::ffi::{self, MarketRead};
use crate::{Graph, Refusal};

/// A graph with lists of its own. [`read_matrix_market`] answers it.
#[derive(Clone, Debug, PartialEq)]
pub struct OwnedGraph {
    /// Row i's entries are those from `starts[i]` up to `starts[i + 1]`; one start more than there are rows.
    pub starts: Vec<u64>,
    /// The column of each entry.
    pub columns: Vec<u32>,
    /// The value of each entry.
    pub values: Vec<f64>,
}

impl OwnedGraph {
    /// The graph, for as long as its lists are there.
    pub fn graph(&self) -> Graph<'_> {
        Graph::new(&self.starts, &self.columns, &self.values)
    }
}

/// Reads the graph of a Matrix Market file of the kind coordinate, pattern, symmetric: each entry becomes value 1.0, off the diagonal it is placed
/// in both rows, and a row's entries rise by column. include/threshcinch.h says which bytes are such a file.
///
/// Refusals, in this order: 19 where the bytes are none, at the first line at fault, from 1; 2 for no rows; 3 for more than 1,048,576 rows or
/// 67,108,864 entries as placed; 11 where the machine has not the memory, at the first list that it has none for.
///
/// A call takes about 394,000 bytes of the thread's stack, whatever the file is. Threads of the standard library have 2 MiB, unless they
/// were asked for with less.
///
/// ```
/// use threshcinch::{read_matrix_market, spectral_embedding, Params, Reason};
///
/// // Three rows in a line: 0 - 1 - 2.
/// let read = read_matrix_market(b"%%MatrixMarket matrix coordinate pattern symmetric\n3 3 2\n2 1\n3 2\n")?;
/// assert_eq!((read.starts.as_slice(), read.columns.as_slice()), (&[0, 1, 3, 4][..], &[1, 0, 2, 1][..]));
/// let seed = spectral_embedding(&read.graph(), 2, Params::new())?;
/// assert_eq!((seed.rows, seed.dims), (3, 2));
///
/// // An entry above the diagonal, in line 4.
/// let refusal = read_matrix_market(b"%%MatrixMarket matrix coordinate pattern symmetric\n3 3 2\n2 1\n2 3\n").unwrap_err();
/// assert_eq!((refusal.reason(), refusal.place), (Some(Reason::MatrixMarket), 4));
/// # Ok::<(), threshcinch::Refusal>(())
/// ```
pub fn read_matrix_market(text: &[u8]) -> Result<OwnedGraph, Refusal> {
    // SAFETY: the text is borrowed until the call has returned.
    let room = in_default(|| unsafe { ffi::threshcinch_matrix_market_sizes(text.as_ptr(), text.len()) });
    // Room that is refused is none, and reading with it says why: a later line may be at fault, and 19 comes first.
    let mut graph = OwnedGraph { starts: room_for(room.starts), columns: room_for(room.entries), values: room_for(room.entries) };
    let read = read_in(text, &mut graph);
    Refusal::check(read.verdict)?;
    // SAFETY: an accepted call has written one start more than rows, and so many columns and values; the lists had room for them.
    unsafe {
        graph.starts.set_len(read.rows + 1);
        graph.columns.set_len(read.entries);
        graph.values.set_len(read.entries);
    }
    graph.columns.shrink_to_fit();
    graph.values.shrink_to_fit();
    Ok(graph)
}

/// An empty list with room for so many numbers, which takes no more of the machine than is written. Where the machine has not so much it has none:
/// the library then refuses by 11 at that list, after all that comes before.
fn room_for<T>(length: usize) -> Vec<T> {
    let mut list = Vec::new();
    // What is refused leaves it as it was.
    let _ = list.try_reserve_exact(length);
    list
}

/// Reads into the room that the lists have; their lengths stay.
fn read_in(text: &[u8], graph: &mut OwnedGraph) -> MarketRead {
    let OwnedGraph { starts, columns, values } = graph;
    // SAFETY: the text is borrowed until the call has returned, and each list for it alone, with all the room that it has. The library is machine
    // code to Rust, and whatever bits lie in that room are numbers to it.
    in_default(|| unsafe {
        ffi::threshcinch_read_matrix_market(
            text.as_ptr(),
            text.len(),
            starts.as_mut_ptr(),
            starts.capacity(),
            columns.as_mut_ptr(),
            columns.capacity(),
            values.as_mut_ptr(),
            values.capacity(),
        )
    })
}
