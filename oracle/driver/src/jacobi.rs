//! Matrices for document 000's Jacobi solver, and what it makes of them.

use crate::{
    bits,
    rng::{Rng, power_of_two},
};

/// Widths that occur: D + 8 for every D.
const WIDTHS: std::ops::RangeInclusive<usize> = 1 + judge::OVERSAMPLE..=judge::MAX_D + judge::OVERSAMPLE;

type Fill = fn(&mut Rng, usize) -> Matrix;

/// In the stored order; every kind stands at every width.
pub const KINDS: [(&str, Fill); 15] = [
    ("random", |rng, k| Matrix::random(rng, k)),
    ("identity", |_, k| Matrix::by(k, |p, q| f64::from(p == q))),
    ("diagonal", diagonal),
    ("equal", |rng, k| {
        let value = rng.weight();
        Matrix::by(k, |_, _| value)
    }),
    ("equal diagonal", |rng, k| Matrix::random(rng, k).each(|p, q, x| if p == q { 0.5 } else { x })),
    ("tiny off the diagonal", tiny_off),
    ("minus zeros", minus_zeros),
    ("zeros of both signs", |rng, k| Matrix::random(rng, k).each(|_, _, x| if x < 0.0 { -0.0 } else { 0.0 })),
    ("NaN off the diagonal", |rng, k| Matrix::random(rng, k).with(0, k - 1, f64::NAN)),
    ("NaN on the diagonal", |rng, k| Matrix::random(rng, k).with(k / 2, k / 2, f64::NAN)),
    ("infinite off the diagonal", |rng, k| Matrix::random(rng, k).with(1, 2, f64::INFINITY)),
    ("infinite on the diagonal", |rng, k| Matrix::random(rng, k).with(k - 1, k - 1, f64::NEG_INFINITY)),
    ("huge", |rng, k| scaled(rng, k, &[1e150, 1e155, 1e300])),
    ("tiny", |rng, k| scaled(rng, k, &[1e-150, 1e-160, 1e-300, 4e-323])),
    ("columns zeroed", columns_zeroed),
];

pub struct Matrix {
    k: usize,
    cells: Vec<f64>,
}

impl Matrix {
    fn by(k: usize, mut value: impl FnMut(usize, usize) -> f64) -> Self {
        let mut matrix = Self { k, cells: vec![0.0; k * k] };
        for p in 0..k {
            for q in p..k {
                matrix = matrix.with(p, q, value(p, q));
            }
        }
        matrix
    }

    fn random(rng: &mut Rng, k: usize) -> Self {
        Self::by(k, |_, _| rng.signed())
    }

    /// Both mirrored cells; document 000 hands over symmetric matrices only.
    fn with(mut self, p: usize, q: usize, value: f64) -> Self {
        self.cells[p * self.k + q] = value;
        self.cells[q * self.k + p] = value;
        self
    }

    fn each(self, mut change: impl FnMut(usize, usize, f64) -> f64) -> Self {
        let Self { k, cells } = self;
        Self::by(k, |p, q| change(p, q, cells[p * k + q]))
    }
}

fn diagonal(rng: &mut Rng, k: usize) -> Matrix {
    Matrix::by(k, |p, q| if p == q { rng.signed() } else { 0.0 })
}

/// From just above the solver's noise floor to far below it.
fn tiny_off(rng: &mut Rng, k: usize) -> Matrix {
    let scale = rng.power_of_two(-60, -40);
    Matrix::random(rng, k).each(|p, q, x| if p == q { x } else { x * scale })
}

fn minus_zeros(rng: &mut Rng, k: usize) -> Matrix {
    Matrix::random(rng, k).each(|p, q, x| if (p + q) % 3 == 1 { -0.0 } else { x })
}

/// Squares overflow or vanish at the far ones, which ends the solver at once.
fn scaled(rng: &mut Rng, k: usize, scales: &[f64]) -> Matrix {
    let scale = rng.pick(scales);
    Matrix::random(rng, k).each(|_, _, x| x * scale)
}

/// As after an orthonormalization that zeroed columns: their rows and columns are zero, the rest lies in [0, 1].
fn columns_zeroed(rng: &mut Rng, k: usize) -> Matrix {
    let first = rng.between(2, k - 2);
    Matrix::by(k, |p, q| match (p == q, q < first) {
        (_, false) => 0.0,
        (true, _) => rng.weight(),
        (false, _) => rng.signed() * power_of_two(-6),
    })
}

/// Every matrix of the list.
pub fn matrices() -> Vec<Matrix> {
    let one = |k: usize, kind: usize| KINDS[kind].1(&mut Rng::new((k * 100 + kind) as u64), k);
    WIDTHS.flat_map(|k| (0..KINDS.len()).map(move |kind| one(k, kind))).collect()
}

/// One stored line: the matrix, what the solver left in its place, and the vectors.
pub fn line(matrix: &Matrix) -> String {
    let mut out = matrix.cells.clone();
    let vectors = judge::kernels::jacobi_eigen(&mut out, matrix.k);
    format!(
        "k={} in={} out={} vec={}\n",
        matrix.k,
        bits::join(&matrix.cells),
        bits::join(&out),
        bits::join(&vectors)
    )
}

pub fn list() -> String {
    matrices().iter().map(line).collect()
}

/// The matrix of a stored line.
pub fn read(line: &str) -> Option<Matrix> {
    let mut words = line.split(' ');
    let k: usize = words.next()?.strip_prefix("k=")?.parse().ok()?;
    let cells = bits::parse_list(words.next()?.strip_prefix("in=")?)?;
    (WIDTHS.contains(&k) && cells.len() == k * k).then_some(Matrix { k, cells })
}

#[cfg(test)]
mod tests {
    use super::*;

    #[test]
    fn matrices_are_symmetric_and_many() {
        let all = matrices();
        assert!(all.len() >= 60);
        for m in &all {
            for p in 0..m.k {
                for q in 0..p {
                    let bits = |p: usize, q: usize| bits::canonical(m.cells[p * m.k + q]);
                    assert_eq!(bits(p, q), bits(q, p));
                }
            }
        }
    }

    #[test]
    fn lines_read_back() {
        for m in matrices() {
            let text = line(&m);
            assert_eq!(line(&read(&text).unwrap()), text);
        }
        for bad in ["", "k=9", "k=9 in=", "k=8 in=3ff0000000000000", "k=99999999999999999999 in="] {
            assert!(read(bad).is_none(), "{bad:?}");
        }
    }

    /// The vectors must be able to tell a solver that does nothing from one that turns.
    #[test]
    fn most_matrices_are_changed() {
        let changed = matrices()
            .iter()
            .filter(|m| {
                let mut out = m.cells.clone();
                judge::kernels::jacobi_eigen(&mut out, m.k);
                bits::join(&out) != bits::join(&m.cells)
            })
            .count();
        assert!(changed >= 60, "{changed}");
    }
}
