//! Seeds to columns, with one call of the library a column; for each block a call of its own would cost it
//! more than the block does. The pads are peer's.

use crate::bits::clear_padding;
use crate::chacha20::keystream;
use crate::shape::Shape;

pub use crate::peers_expand::pad;

/// The columns of a set of seeds.
pub fn expand(seeds: &[u8], session: &[u8], shape: Shape) -> Vec<u8> {
    let mut columns = vec![0; shape.columns()];
    for (seed, column) in seeds.chunks_exact(32).zip(columns.chunks_exact_mut(shape.c())) {
        keystream(seed, 0, session, column);
        clear_padding(column, shape.m());
    }
    columns
}
