//! The floating-point environment: in each one the bits are the default's, and afterwards the environment is as it was.
//!
//! The graph is a ring of subnormal values. The library's own function, with nothing around it, gives other bits on it in each environment
//! that can change them: a binding that sets nothing would be found out.

mod common;

use std::arch::asm;
use std::ops::ControlFlow;
use std::ptr::from_mut;

use common::{assert_same_memory, bits, quick};
use threshcinch::{
    read_matrix_market, read_run, spectral_embedding, spectral_embedding_in, write_answer, write_run, Driven, Graph, Memory, Params,
    Progress, Run,
};

/// Values of the control register MXCSR, and whether the bare call has other bits there; nothing where it would trap.
const ENVIRONMENTS: [(&str, u32, Option<bool>); 13] = [
    ("nearest", 0x1f80, Some(false)),
    ("nearest, every exception raised before", 0x1fbf, Some(false)),
    ("downward", 0x3f80, Some(true)),
    ("upward", 0x5f80, Some(true)),
    ("toward zero", 0x7f80, Some(true)),
    ("flush-to-zero", 0x9f80, Some(true)),
    ("denormals-are-zero", 0x1fc0, Some(true)),
    ("flush-to-zero, denormals-are-zero", 0x9fc0, Some(true)),
    ("downward and all bits set", 0xbfff, Some(true)),
    ("upward and all bits set", 0xdfff, Some(true)),
    ("toward zero and all bits set", 0xffff, Some(true)),
    ("every exception traps", 0x0000, None),
    ("every exception traps and was raised before", 0x003f, None),
];

/// This thread's control register.
fn register() -> u32 {
    let mut register = 0u32;
    // SAFETY: four bytes are written, to a number of four bytes.
    unsafe { asm!("stmxcsr [{}]", in(reg) from_mut(&mut register), options(nostack, preserves_flags)) };
    register
}

struct Job<W, T> {
    work: Option<W>,
    answer: Option<T>,
}

extern "C" fn run<W: FnOnce() -> T, T>(job: &mut Job<W, T>) {
    job.answer = job.work.take().map(|work| work());
}

/// Does the work with the register so; answers what it answered, and the register after it. The work must not panic and has no arithmetic of
/// its own.
fn in_environment<W: FnOnce() -> T, T>(register: u32, work: W) -> (T, u32) {
    let mut job = Job { work: Some(work), answer: None };
    let mut registers = [register, 0, 0];
    // SAFETY: as in src/arithmetic.rs; the third number takes the register after the work.
    unsafe {
        asm!(
            "stmxcsr [r12 + 4]",
            "ldmxcsr [r12]",
            "call {run}",
            "stmxcsr [r12 + 8]",
            "ldmxcsr [r12 + 4]",
            run = sym run::<W, T>,
            in("r12") registers.as_mut_ptr(),
            in("rdi") from_mut(&mut job),
            clobber_abi("C"),
        );
    }
    (job.answer.expect("the work has answered"), registers[2])
}

/// Does the work in each environment, and looks at the register after it.
fn in_each_environment<T>(work: impl Fn() -> T, check: impl Fn(T, &str)) {
    for (name, register, _) in ENVIRONMENTS {
        let (answer, left) = in_environment(register, &work);
        assert_eq!(left, register, "{name}: {left:04x} is left of {register:04x}");
        check(answer, name);
    }
}

/// The lists of a ring whose values are subnormal: each row knows the rows that lie one and three before and after it.
struct Subnormal {
    starts: Vec<u64>,
    columns: Vec<u32>,
    values: Vec<f64>,
}

impl Subnormal {
    fn new(rows: u32) -> Subnormal {
        let around = |row: u32| [1, rows - 1, 3, rows - 3].map(|step| (row + step) % rows);
        let value = |low: u32, high: u32| {
            let mixed = ((u64::from(low) << 32) | u64::from(high)).wrapping_add(1).wrapping_mul(0x9e37_79b9_7f4a_7c15);
            f64::from_bits((mixed ^ (mixed >> 29)).wrapping_mul(0xbf58_476d_1ce4_e5b9) >> 12)
        };
        Subnormal {
            starts: (0..=u64::from(rows)).map(|row| 4 * row).collect(),
            columns: (0..rows).flat_map(around).collect(),
            values: (0..rows).flat_map(|row| around(row).map(|column| value(row.min(column), row.max(column)))).collect(),
        }
    }

    fn graph(&self) -> Graph<'_> {
        Graph::new(&self.starts, &self.columns, &self.values)
    }
}

#[repr(C)]
struct BareParams {
    rounds: u64,
    degree: u64,
    seed_std: f64,
}

#[repr(C)]
struct BareEmbedded {
    number: u64,
    place: u64,
    counts: [usize; 4],
}

extern "C" {
    /// The header's long form.
    #[rustfmt::skip]
    fn threshcinch_spectral_embedding(
        d: u64,
        params: BareParams,
        starts: *const u64,
        starts_length: usize,
        columns: *const u32,
        columns_length: usize,
        values: *const f64,
        values_length: usize,
        inverse: *mut f64,
        inverse_length: usize,
        v0: *mut f64,
        v0_length: usize,
        edge_columns: *mut u32,
        edge_columns_length: usize,
        edge_weights: *mut f64,
        edge_weights_length: usize,
        block0: *mut f64,
        block0_length: usize,
        block1: *mut f64,
        block1_length: usize,
        block2: *mut f64,
        block2_length: usize,
        partials: *mut f64,
        partials_length: usize,
        marks: *mut u8,
        marks_length: usize,
        output: *mut f64,
        output_length: usize,
        ritz_record: *mut f64,
        ritz_record_length: usize,
    ) -> BareEmbedded;
}

/// The one call of one dimension as the library has it, in whatever arithmetic it finds: its refusal's number.
fn bare_call(graph: &Graph<'_>, params: Params, memory: &mut Memory) -> u64 {
    let params = BareParams { rounds: params.get_rounds(), degree: params.get_degree(), seed_std: params.get_seed_std() };
    let Memory { inverse, v0, edge_columns, edge_weights, block0, block1, block2, partials, marks, output, ritz_record } = memory;
    // SAFETY: each address and length is a list's that is borrowed for this call, the written ones for it alone.
    #[rustfmt::skip]
    let embedded = unsafe {
        threshcinch_spectral_embedding(
            1, params,
            graph.starts.as_ptr(), graph.starts.len(), graph.columns.as_ptr(), graph.columns.len(), graph.values.as_ptr(), graph.values.len(),
            inverse.as_mut_ptr(), inverse.len(), v0.as_mut_ptr(), v0.len(),
            edge_columns.as_mut_ptr(), edge_columns.len(), edge_weights.as_mut_ptr(), edge_weights.len(),
            block0.as_mut_ptr(), block0.len(), block1.as_mut_ptr(), block1.len(), block2.as_mut_ptr(), block2.len(),
            partials.as_mut_ptr(), partials.len(), marks.as_mut_ptr(), marks.len(), output.as_mut_ptr(), output.len(),
            ritz_record.as_mut_ptr(), ritz_record.len(),
        )
    };
    let BareEmbedded { number, place: _, counts: _ } = embedded;
    number
}

#[test]
fn the_bare_call_shows_the_environment() {
    let lists = Subnormal::new(200);
    let graph = lists.graph();
    let params = quick();
    let expected = spectral_embedding(&graph, 1, params).unwrap();
    for (name, register, changes) in ENVIRONMENTS {
        let Some(changes) = changes else { continue };
        let mut memory = Memory::for_graph(&graph, 1, params).unwrap();
        let (number, _) = in_environment(register, || bare_call(&graph, params, &mut memory));
        assert_eq!(number, 0, "{name}");
        assert_eq!(bits(&memory.output) != bits(&expected.values), changes, "{name}");
    }
}

#[test]
fn the_one_call_has_the_defaults_bits() {
    let lists = Subnormal::new(4200);
    let graph = lists.graph();
    let mut expected = Memory::for_graph(&graph, 1, quick()).unwrap();
    let counts = spectral_embedding_in(&graph, 1, quick(), &mut expected).unwrap();
    in_each_environment(
        || {
            Memory::for_graph(&graph, 1, quick())
                .and_then(|mut memory| spectral_embedding_in(&graph, 1, quick(), &mut memory).map(|counts| (memory, counts)))
        },
        |found, name| {
            let (memory, found) = found.unwrap_or_else(|refusal| panic!("{name}: {refusal}"));
            assert_same_memory(&memory, &expected);
            assert_eq!(found, counts, "{name}");
        },
    );
}

/// Chunk after chunk, downward, with what the run tells of itself before each closing; saved and loaded again after its second stage.
fn held<'g>(graph: &Graph<'g>) -> Option<(Run<'g>, Vec<Progress>)> {
    let mut run = Run::open(graph, 1, quick()).ok()?;
    let mut told = Vec::new();
    while run.is_open() {
        (0..run.chunk_count()).rev().try_for_each(|number| run.chunk(number)).ok()?;
        told.push(run.progress());
        run.close().ok()?;
        if told.len() == 2 {
            run = Run::load(graph, &run.save()).ok()?;
        }
    }
    Some((run, told))
}

#[test]
fn a_held_run_has_the_defaults_bits() {
    let lists = Subnormal::new(4200);
    let graph = lists.graph();
    let (expected, expected_told) = held(&graph).unwrap();
    in_each_environment(
        || held(&graph),
        |found, name| {
            let (run, told) = found.unwrap_or_else(|| panic!("{name}: a refusal"));
            assert_same_memory(run.memory(), expected.memory());
            assert!(run.state().same_bits(expected.state()), "{name}");
            assert_eq!(told, expected_told, "{name}");
        },
    );
}

#[test]
fn the_least_number_may_be_set() {
    in_each_environment(
        || Params::new().seed_std(f64::from_bits(1)),
        |set, name| assert_eq!(set.map(|params| params.get_seed_std().to_bits()), Ok(1), "{name}"),
    );
}

/// Writers compare numbers: subnormal ones, and a NaN that signals.
#[test]
fn texts_have_the_defaults_bytes() {
    let lists = Subnormal::new(30);
    let params = Params::new().seed_std(f64::from_bits(1)).unwrap();
    let file = write_run(&lists.graph(), 1, params).unwrap();
    let mut seed = spectral_embedding(&lists.graph(), 1, quick()).unwrap();
    seed.values[0] = f64::from_bits(1);
    seed.values[1] = f64::from_bits(0x7ff0_0000_0000_0001);
    let answer = write_answer(Ok(&seed)).unwrap();
    in_each_environment(
        || (read_run(&file).and_then(|read| write_run(&read.graph(), read.dims, read.params()?)), write_answer(Ok(&seed))),
        |found, name| assert_eq!(found, (Ok(file.clone()), Ok(answer.clone())), "{name}"),
    );
}

#[test]
fn a_matrix_market_file_is_read_as_in_the_default() {
    let text = b"%%MatrixMarket matrix coordinate pattern symmetric\n2 2 2\n2 2\n2 1\n";
    let expected = read_matrix_market(text).unwrap();
    assert_eq!(bits(&expected.values), [1f64.to_bits(); 3]);
    in_each_environment(|| read_matrix_market(text), |found, name| assert_eq!(found.as_ref(), Ok(&expected), "{name}"));
}

#[test]
fn a_new_thread_has_its_makers_environment() {
    for (name, expected, _) in ENVIRONMENTS {
        let (found, _) = in_environment(expected, || std::thread::spawn(register).join());
        assert_eq!(found.ok(), Some(expected), "{name}");
    }
}

/// Drives a run by three threads from here; what `on_progress` found in the register comes too.
fn driven<'g>(graph: &Graph<'g>) -> Option<(Run<'g>, Vec<u32>)> {
    let mut run = Run::open(graph, 1, quick()).ok()?;
    let mut registers = Vec::new();
    let driven = run.drive(3, |_| {
        registers.push(register());
        ControlFlow::Continue(())
    });
    (driven == Ok(Driven::Ended)).then_some((run, registers))
}

#[test]
fn threads_that_are_started_in_an_environment_have_the_defaults_bits() {
    let lists = Subnormal::new(9000);
    let graph = lists.graph();
    let (expected, _) = driven(&graph).unwrap();
    for (name, register, _) in ENVIRONMENTS {
        let (found, left) = in_environment(register, || driven(&graph));
        let (run, registers) = found.unwrap_or_else(|| panic!("{name}: a refusal"));
        assert_same_memory(run.memory(), expected.memory());
        assert!(run.state().same_bits(expected.state()), "{name}");
        assert!(left == register && registers.iter().all(|&found| found == register), "{name}: the caller's own code has its environment");
    }
}
