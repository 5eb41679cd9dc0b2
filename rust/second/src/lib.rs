//! The second decoder: a reference implementation of document 01, of document 02's requests and of the list of candidates, by brute force and, for spot mode,
//! by linear algebra. It is written from these documents' words and the C header's alone and shares neither code nor method with the proved
//! library, so that a difference between the two points at a mistake in one of them.

pub mod block;
pub mod candidates;
pub mod cases;
pub mod chosen_lists;
#[cfg(test)]
mod codewords;
pub mod fill;
pub mod generator;
pub mod gf;
pub mod linear;
pub mod lister;
pub mod mode;
pub mod plot;
pub mod random;
pub mod refusal;
pub mod sheet;
pub mod spots;
pub mod stand;

pub use block::{Profile, Run};
pub use mode::Mode;
pub use refusal::Refusal;
pub use spots::Changes;
