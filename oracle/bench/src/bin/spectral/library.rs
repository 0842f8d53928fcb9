//! The library's C interface (include/threshcinch.h), as far as the benchmark calls it.

use crate::graph::Graph;
use std::marker::PhantomData;

#[repr(C)]
#[derive(Clone, Copy, Debug)]
pub struct Verdict {
    pub number: u64,
    pub place: u64,
}

#[repr(C)]
#[derive(Clone, Copy)]
pub struct Params {
    pub rounds: u64,
    pub degree: u64,
    pub seed_std: f64,
}

#[repr(C)]
#[derive(Clone, Copy)]
struct Sizes {
    verdict: Verdict,
    lengths: [usize; 11],
}

#[repr(C)]
#[derive(Clone, Copy, Debug, PartialEq)]
pub struct Counts {
    pub passes: usize,
    pub refreshed: usize,
    pub zeroed: usize,
    pub isolated: usize,
}

#[repr(C)]
#[derive(Clone, Copy)]
pub struct Progress {
    pub stage: usize,
    places: [usize; 6],
    numbers: [f64; 4],
}

#[repr(C)]
#[derive(Clone, Copy)]
pub struct State {
    asked: [u64; 6],
    pub progress: Progress,
    pub counts: Counts,
    matrices: [f64; 675],
    order: [usize; 15],
}

#[repr(C)]
#[derive(Clone, Copy)]
pub struct Answer {
    pub verdict: Verdict,
    pub state: State,
}

#[repr(C)]
#[derive(Clone, Copy)]
pub struct Embedded {
    pub verdict: Verdict,
    pub counts: Counts,
}

const _: () = assert!(size_of::<State>() == 5688 && size_of::<Answer>() == 5704);

// Each call ends with the same 14 lists, address and length of each.
macro_rules! calls {
    ($($name:ident($($word:ident: $type:ty),*) -> $answer:ty;)*) => {
        #[link(name = "threshcinch", kind = "static")]
        unsafe extern "C" {
            fn threshcinch_lent_sizes(d: u64, rounds: u64, rows: usize, entries: usize) -> Sizes;
            fn threshcinch_chunk_count(rows: usize) -> usize;
            $(fn $name(
                $($word: $type,)*
                starts: *const u64, starts_length: usize,
                columns: *const u32, columns_length: usize,
                values: *const f64, values_length: usize,
                inverse: *mut f64, inverse_length: usize,
                v0: *mut f64, v0_length: usize,
                edge_columns: *mut u32, edge_columns_length: usize,
                edge_weights: *mut f64, edge_weights_length: usize,
                block0: *mut f64, block0_length: usize,
                block1: *mut f64, block1_length: usize,
                block2: *mut f64, block2_length: usize,
                partials: *mut f64, partials_length: usize,
                marks: *mut u8, marks_length: usize,
                output: *mut f64, output_length: usize,
                ritz_record: *mut f64, ritz_record_length: usize,
            ) -> $answer;)*
        }
    };
}

calls! {
    threshcinch_spectral_embedding(d: u64, params: Params) -> Embedded;
    threshcinch_open(d: u64, params: Params) -> Answer;
    threshcinch_chunk(state: State, number: usize) -> Answer;
    threshcinch_close(state: State) -> Answer;
}

/// Lent memory, lists 0 to 10, of exactly the sizes that the library asks for.
pub struct Memory {
    floats: [Vec<f64>; 9],
    edge_columns: Vec<u32>,
    marks: Vec<u8>,
    lengths: [usize; 11],
}

impl Memory {
    pub fn new(d: usize, graph: &Graph) -> Memory {
        let rounds = graph.request.rounds as u64;
        // SAFETY: takes and answers numbers only.
        let sizes = unsafe { threshcinch_lent_sizes(d as u64, rounds, graph.rows(), graph.entries()) };
        assert_eq!(sizes.verdict.number, 0, "lent sizes refused: {:?}", sizes.verdict);
        let l = sizes.lengths;
        Memory {
            floats: [l[0], l[1], l[3], l[4], l[5], l[6], l[7], l[9], l[10]].map(|length| vec![0.0; length]),
            edge_columns: vec![0; l[2]],
            marks: vec![0; l[8]],
            lengths: l,
        }
    }

    pub fn output(&self) -> &[f64] {
        &self.floats[7]
    }

    /// Round by round the bound that its filter used, and its Ritz values in falling order.
    pub fn ritz_record(&self) -> &[f64] {
        &self.floats[8]
    }

    /// All lent memory together.
    pub fn bytes(&self) -> usize {
        let l = self.lengths;
        let floats: usize = [0, 1, 3, 4, 5, 6, 7, 9, 10].iter().map(|&i| l[i]).sum();
        8 * floats + 4 * l[2] + l[8]
    }
}

/// A graph and lent memory as the calls take them. The memory stays borrowed for as long as one lives.
#[derive(Clone, Copy)]
pub struct Lists<'a> {
    starts: (*const u64, usize),
    columns: (*const u32, usize),
    values: (*const f64, usize),
    floats: [(*mut f64, usize); 9],
    edge_columns: (*mut u32, usize),
    marks: (*mut u8, usize),
    lent: PhantomData<&'a mut Memory>,
}

// SAFETY: the addresses are those of borrowed memory. Only `chunk` is called from several threads at once, and it says what that asks.
unsafe impl Send for Lists<'_> {}
unsafe impl Sync for Lists<'_> {}

// The lists in the order of the interface, after what a call takes besides.
macro_rules! with_lists {
    ($name:ident($($word:expr),*), $lists:expr) => {{
        let l = $lists;
        let [inverse, v0, weights, block0, block1, block2, partials, output, ritz_record] = l.floats;
        $name(
            $($word,)*
            l.starts.0, l.starts.1, l.columns.0, l.columns.1, l.values.0, l.values.1,
            inverse.0, inverse.1, v0.0, v0.1, l.edge_columns.0, l.edge_columns.1, weights.0, weights.1,
            block0.0, block0.1, block1.0, block1.1, block2.0, block2.1, partials.0, partials.1,
            l.marks.0, l.marks.1, output.0, output.1, ritz_record.0, ritz_record.1,
        )
    }};
}

fn accepted(verdict: Verdict, call: &str) {
    assert_eq!(verdict.number, 0, "{call} refused: {verdict:?}");
}

impl<'a> Lists<'a> {
    pub fn new(graph: &'a Graph, memory: &'a mut Memory) -> Lists<'a> {
        Lists {
            starts: (graph.starts.as_ptr(), graph.starts.len()),
            columns: (graph.request.columns.as_ptr(), graph.request.columns.len()),
            values: (graph.request.values.as_ptr(), graph.request.values.len()),
            floats: memory.floats.each_mut().map(|list| (list.as_mut_ptr(), list.len())),
            edge_columns: (memory.edge_columns.as_mut_ptr(), memory.edge_columns.len()),
            marks: (memory.marks.as_mut_ptr(), memory.marks.len()),
            lent: PhantomData,
        }
    }

    pub fn embed(&self, d: usize, params: Params) -> Counts {
        // SAFETY: every list is there, aligned, and overlaps no other; this thread alone has them.
        let embedded = unsafe { with_lists!(threshcinch_spectral_embedding(d as u64, params), self) };
        accepted(embedded.verdict, "the one call");
        embedded.counts
    }

    pub fn open(&self, d: usize, params: Params) -> State {
        // SAFETY: as above.
        let answer = unsafe { with_lists!(threshcinch_open(d as u64, params), self) };
        accepted(answer.verdict, "opening");
        answer.state
    }

    /// # Safety
    /// No other call on these lists runs at the same time, but for chunk calls of the same state with other numbers.
    pub unsafe fn chunk(&self, state: &State, number: usize) {
        let answer = unsafe { with_lists!(threshcinch_chunk(*state, number), self) };
        accepted(answer.verdict, "a chunk");
    }

    /// # Safety
    /// No other call on these lists runs at the same time.
    pub unsafe fn close(&self, state: &State) -> State {
        let answer = unsafe { with_lists!(threshcinch_close(*state), self) };
        accepted(answer.verdict, "closing");
        answer.state
    }
}

pub fn chunk_count(rows: usize) -> usize {
    // SAFETY: takes and answers numbers only.
    unsafe { threshcinch_chunk_count(rows) }
}

impl State {
    pub fn is_open(&self) -> bool {
        (1..=19).contains(&self.progress.stage)
    }
}
