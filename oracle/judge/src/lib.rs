//! The judge: document 000 as it stands, and a recording copy of it.
//!
//! Answers come from [`seed`], which is the unchanged text. [`seed_recorded`] runs the copy, for what the
//! unchanged text does not show. With the feature `clock` there is a third copy, which tells how long each stage took.

include!(concat!(env!("OUT_DIR"), "/modules.rs"));

pub use recording::probe::{Record, Round, kernels};
#[cfg(feature = "clock")]
pub use timed::clock;

/// Document 000 as compiled here.
pub const DOCUMENT_000: &str = include_str!(env!("DOCUMENT_000"));

/// The recording copy as compiled here.
pub const RECORDING_COPY: &str = include_str!(concat!(env!("OUT_DIR"), "/recording.rs"));

/// The timed copy as compiled here.
#[cfg(feature = "clock")]
pub const TIMED_COPY: &str = include_str!(concat!(env!("OUT_DIR"), "/timed.rs"));

pub const MAX_D: usize = 7;

/// Extra columns beside D; document 000's SPECTRAL_OVERSAMPLE.
pub const OVERSAMPLE: usize = 8;

/// What document 000 is asked, with the graph already known to be well formed.
#[derive(Clone, Debug, PartialEq)]
pub struct Request {
    pub d: usize,
    pub rounds: usize,
    pub degree: usize,
    pub seed_std: f64,
    pub starts: Vec<usize>,
    pub columns: Vec<u32>,
    pub values: Vec<f64>,
}

impl Request {
    pub fn n(&self) -> usize {
        self.starts.len().saturating_sub(1)
    }

    /// The entries of row `i` as a range of places.
    pub fn row(&self, i: usize) -> std::ops::Range<usize> {
        self.starts[i]..self.starts[i + 1]
    }

    /// Says why document 000 would panic or go out of its bounds on this request, if it would.
    pub fn fault(&self) -> Option<String> {
        self.parameter_fault().or_else(|| self.graph_fault())
    }

    fn parameter_fault(&self) -> Option<String> {
        let whole = |name: &str, value: usize, most: usize| {
            (value < 1 || value > most).then(|| format!("{name} is {value}, not 1 to {most}"))
        };
        whole("d", self.d, MAX_D)
            .or_else(|| whole("rounds", self.rounds, 1000))
            .or_else(|| whole("degree", self.degree, 1000))
            .or_else(|| {
                let good = self.seed_std.is_finite() && self.seed_std > 0.0;
                (!good).then(|| "seed_std is not positive and finite".to_owned())
            })
    }

    fn graph_fault(&self) -> Option<String> {
        let n = self.n();
        if n == 0 {
            return Some("starts has fewer than two numbers".to_owned());
        }
        if self.columns.len() != self.values.len() {
            return Some(format!("{} columns but {} values", self.columns.len(), self.values.len()));
        }
        if self.starts[0] != 0 {
            return Some("the first start is not 0".to_owned());
        }
        if let Some(i) = (1..=n).find(|&i| self.starts[i] < self.starts[i - 1]) {
            return Some(format!("start {i} is below the one before"));
        }
        if self.starts[n] != self.columns.len() {
            return Some("the last start is not the number of columns".to_owned());
        }
        if let Some(e) = self.columns.iter().position(|&c| c as usize >= n) {
            return Some(format!("column of entry {e} is not below {n}"));
        }
        if let Some(e) = self.values.iter().position(|v| !v.is_finite()) {
            return Some(format!("value of entry {e} is NaN or infinite"));
        }
        None
    }
}

// Document 000 fixes D in the type; a request names it as a number.
macro_rules! by_dimension {
    ($module:ident, $request:expr) => {{
        use $module::{SpectralParams, spectral_embedding};
        let request: &Request = $request;
        let params =
            SpectralParams::new().rounds(request.rounds).degree(request.degree).seed_std(request.seed_std);
        let (starts, columns, values) = (&request.starts, &request.columns, &request.values);
        match request.d {
            1 => Ok(spectral_embedding::<f64, 1>(starts, columns, values, params)),
            2 => Ok(spectral_embedding::<f64, 2>(starts, columns, values, params)),
            3 => Ok(spectral_embedding::<f64, 3>(starts, columns, values, params)),
            4 => Ok(spectral_embedding::<f64, 4>(starts, columns, values, params)),
            5 => Ok(spectral_embedding::<f64, 5>(starts, columns, values, params)),
            6 => Ok(spectral_embedding::<f64, 6>(starts, columns, values, params)),
            7 => Ok(spectral_embedding::<f64, 7>(starts, columns, values, params)),
            other => Err(format!("d is {other}, not 1 to 7")),
        }
    }};
}

fn sound(request: &Request) -> Result<&Request, String> {
    request.fault().map_or(Ok(request), Err)
}

/// The seed by document 000's unchanged text, row after row.
pub fn seed(request: &Request) -> Result<Vec<f64>, String> {
    by_dimension!(spectral, sound(request)?)
}

/// The same of a request that is known to have no fault, so that a clock around it measures document 000 and nothing else.
#[cfg(feature = "clock")]
pub fn seed_alone(request: &Request) -> Result<Vec<f64>, String> {
    by_dimension!(spectral, request)
}

/// The seed of such a request by the timed copy, and its laps.
#[cfg(feature = "clock")]
pub fn seed_timed(request: &Request) -> Result<(Vec<f64>, clock::Laps), String> {
    let seed = timed_seed(request)?;
    Ok((seed, clock::take()))
}

#[cfg(feature = "clock")]
fn timed_seed(request: &Request) -> Result<Vec<f64>, String> {
    by_dimension!(timed, request)
}

/// The seed by the recording copy, and what it recorded.
pub fn seed_recorded(request: &Request) -> Result<(Vec<f64>, Record), String> {
    recording::probe::take();
    let seed = recorded_seed(request)?;
    Ok((seed, recording::probe::take()))
}

fn recorded_seed(request: &Request) -> Result<Vec<f64>, String> {
    by_dimension!(recording, sound(request)?)
}

/// Runs `work` on a pool of that many threads, so that a test can show that the number does not matter.
pub fn on_threads<R: Send>(threads: usize, work: impl FnOnce() -> R + Send) -> Result<R, String> {
    let pool = rayon::ThreadPoolBuilder::new()
        .num_threads(threads)
        .build()
        .map_err(|fault| format!("no pool of {threads} threads: {fault}"))?;
    Ok(pool.install(work))
}

#[cfg(test)]
mod tests {
    use super::*;

    fn without_inserted_lines_it_is_document_000(copy: &str, inserted: usize) {
        let kept: Vec<&str> = copy.lines().filter(|line| !line.starts_with("/*probe*/ ")).collect();
        assert_eq!(copy.lines().count() - kept.len(), inserted);
        assert_eq!(kept, DOCUMENT_000.lines().collect::<Vec<_>>());
    }

    #[test]
    fn copy_without_its_inserted_lines_is_document_000() {
        without_inserted_lines_it_is_document_000(RECORDING_COPY, 8);
    }

    #[cfg(feature = "clock")]
    #[test]
    fn timed_copy_without_its_inserted_lines_is_document_000() {
        without_inserted_lines_it_is_document_000(TIMED_COPY, 20);
    }

    /// Document 01: library versions begin a float sum with zeros of different sign. The README states this one's.
    #[test]
    fn a_float_sum_begins_at_minus_zero_here() {
        let request = Request {
            d: 1,
            rounds: 1,
            degree: 1,
            seed_std: 1e-4,
            starts: vec![0, 0, 1],
            columns: vec![1],
            values: vec![1.0],
        };
        let (_, record) = seed_recorded(&request).unwrap();
        assert_eq!(record.degrees[0].to_bits(), (-0.0f64).to_bits());
        assert_eq!(record.v0[0].to_bits(), (-0.0f64).to_bits());
    }

    #[test]
    fn faults_are_told_and_never_run() {
        let good = Request {
            d: 1,
            rounds: 1,
            degree: 1,
            seed_std: 1.0,
            starts: vec![0, 1],
            columns: vec![0],
            values: vec![1.0],
        };
        assert!(seed(&good).is_ok());
        let spoil: [fn(&mut Request); 10] = [
            |r| r.d = 8,
            |r| r.rounds = 0,
            |r| r.degree = 1001,
            |r| r.seed_std = f64::INFINITY,
            |r| r.starts = vec![],
            |r| r.starts = vec![1, 1],
            |r| r.starts = vec![0, 2, 1],
            |r| r.starts = vec![0, 0],
            |r| r.columns = vec![1],
            |r| r.values = vec![f64::NAN],
        ];
        for change in spoil {
            let mut bad = good.clone();
            change(&mut bad);
            assert!(seed(&bad).is_err(), "{bad:?}");
        }
    }
}
