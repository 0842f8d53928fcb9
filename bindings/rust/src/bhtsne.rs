//! bhtsne's own call, for who has its lists at hand.

use crate::{Graph, Params, Refusal};

impl<'a> Graph<'a> {
    /// The graph with the lists as bhtsne has them: row starts of the machine's width, columns, values.
    ///
    /// No number is copied or changed. On x86-64, the one machine that this crate compiles for, `usize` and `u64` have the same size,
    /// alignment and values, so the starts are read where they are. bhtsne's values must be `f64`; `f32` ones are the caller's to widen.
    pub fn from_bhtsne(p_rows: &'a [usize], p_columns: &'a [u32], p_values: &'a [f64]) -> Graph<'a> {
        const _: () = assert!(size_of::<usize>() == size_of::<u64>() && align_of::<usize>() == align_of::<u64>());
        // SAFETY: the address and length are a slice's that lives for 'a, and by the line above its elements may be read as u64.
        let starts = unsafe { std::slice::from_raw_parts(p_rows.as_ptr().cast::<u64>(), p_rows.len()) };
        Graph::new(starts, p_columns, p_values)
    }
}

/// Takes what bhtsne's `spectral_embedding::<f64, D>` takes and answers what it answers, row after row, D numbers each.
///
/// Two things differ. Where bhtsne panics (and where document 01 sets a limit that it has not) this is a [`Refusal`]. And where two of the
/// last round's leading Ritz values are equal, or one is NaN, or a row names a column twice, bhtsne's order is its sort's; here it is
/// document 01's. Elsewhere the bits are bhtsne's. The starts are not copied: see [`Graph::from_bhtsne`].
///
/// ```
/// use threshcinch::{bhtsne, Params};
/// let (p_rows, p_columns, p_values) = (vec![0usize, 1, 2], vec![1u32, 0], vec![1.0f64, 1.0]);
/// let seed: Vec<f64> = bhtsne::spectral_embedding::<2>(&p_rows, &p_columns, &p_values, Params::new())?;
/// assert_eq!(seed.len(), 2 * 2);
/// # Ok::<(), threshcinch::Refusal>(())
/// ```
pub fn spectral_embedding<const D: usize>(
    p_rows: &[usize],
    p_columns: &[u32],
    p_values: &[f64],
    params: Params,
) -> Result<Vec<f64>, Refusal> {
    let seed = crate::spectral_embedding(&Graph::from_bhtsne(p_rows, p_columns, p_values), D, params)?;
    Ok(seed.values)
}
