//! Refusal 8 (document 01, section 7), which prepare and open share.

use crate::shape::Shape;
use crate::verdict::{refuse_at, Checked};

/// Names the first row whose selection is n or more.
pub fn demand_selections(selections: &[u8], shape: Shape) -> Checked {
    refuse_at(selections.iter().position(|r| usize::from(*r) >= shape.n()), 8)
}
