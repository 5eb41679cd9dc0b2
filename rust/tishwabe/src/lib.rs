//! Film sheets for plot tallies: blocks and sheets written, checked and corrected, the plot records inside, and one stand table over many of them.
//!
//! Every function is total: it answers each input of its types, and never panics. The work is done by a library whose functions
//! are proved to meet document 01, "Film sheets for plot tallies, and their mending", and document 02, "Later changes to the base"; this crate
//! gives them Rust's types. A refusal is an [`Error`] with the documents' number and place, and for a bad tally the line and the value at fault; it
//! leaves every lent buffer as it was but the sheet reader's scratch.
//!
//! ```
//! use tishwabe::{add, ask, Error, Profile};
//! let profile = Profile::new(20, 8, 1, 4, 3)?;
//!
//! // A payload with one plot: species 3, class 32, two trees.
//! let mut payload = vec![0; profile.payload_length()];
//! add(&mut payload, 7, &[3, 32, 2])?;
//! let mut sheet = vec![0; profile.sheet_length()];
//! profile.write_sheet(&payload, &mut sheet)?;
//!
//! // A scratch of D × h cells.
//! sheet[10..22].fill(255);
//! let mut scratch = vec![0; profile.scratch_length()];
//! let mut found = vec![0; profile.payload_length()];
//! assert_eq!(profile.read_sheet(&sheet, &mut scratch, &mut found), Ok(3));
//! assert_eq!(ask(&found, 7), Ok(&[0x50, 0x4C, 7, 0, 1, 3, 32, 2][..]));
//! # Ok::<(), Error>(())
//! ```
//!
//! A block may be looked at before anything is written, [`Profile::look_block`], and filled within a run that is named, [`Profile::fill_block`].
//! [`Profile::candidates`] lists every codeword that a run of up to L cells reaches: none of a torn block, several of a tied one; of a mended one the codeword
//! that it goes to, of a thin one the codeword that it is refused for, and behind either those within longer runs of up to L cells.
//!
//! Damp film gets spots and no scratches: [`Profile::read_sheet_in`] with [`Mode::Spots`] corrects any h cells of each block, wherever they lie.
//!
//! The payloads of a whole tract go into one [`StandTable`], trees by species and diameter class.
#![deny(unsafe_code)]
#![deny(missing_docs)]

mod error;
#[allow(unsafe_code)]
#[doc(hidden)]
pub mod ffi;
mod plot;
mod profile;
mod stand;

pub use error::{Error, Figure, LineFault};
pub use plot::{add, ask, check_payload, list, list_input, list_refusal, locate};
pub use profile::{Changes, Mode, Profile, Run};
pub use stand::{Counts, RowLabel, StandTable, TreesPerPlot};
