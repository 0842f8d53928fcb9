//! From a graph to a seed: six grains in a ring, each a neighbour of the next.

use threshcinch::{spectral_embedding, Graph, Params, Refusal};

fn main() -> Result<(), Refusal> {
    let starts = [0, 2, 4, 6, 8, 10, 12];
    let columns = [1, 5, 0, 2, 1, 3, 2, 4, 3, 5, 0, 4];
    let values = [1.0, 0.5, 1.0, 2.0, 2.0, 1.0, 1.0, 3.0, 3.0, 1.5, 0.5, 1.5];

    let seed = spectral_embedding(&Graph::new(&starts, &columns, &values), 2, Params::new().rounds(3)?)?;

    for row in (0..seed.rows).filter_map(|i| seed.row(i)) {
        println!("{:+.6e} {:+.6e}", row[0], row[1]);
    }
    // How the spectrum settled: the bound that each round's filter used, and the leading Ritz values that it found.
    for (round, (bound, values)) in seed.ritz_record.iter().enumerate() {
        println!("round {round}: bound {bound:.6}, Ritz values {:.6} {:.6} {:.6}", values[0], values[1], values[2]);
    }
    Ok(())
}
