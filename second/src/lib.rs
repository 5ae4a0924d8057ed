//! The second program as a library: a literal, slow reading of document 01, and of
//! W1, W2, W4, W7 and W8 in document 02, and of the band from its header, to compare the drawer
//! with. `main.rs` has its commands.

pub mod abi;
pub mod band;
pub mod band_boundary;
pub mod band_calls;
pub mod band_kinds;
pub mod boundary;
pub mod calls;
pub mod engine;
pub mod engine_kinds;
pub mod engine_stream;
pub mod extent;
pub mod fast;
pub mod gerber;
pub mod gerber_cases;
pub mod gerber_compare;
pub mod kinds;
pub mod large;
pub mod lending;
pub mod overlay;
pub mod overlay_pairs;
pub mod paper;
pub mod paper_rows;
pub mod pbm;
pub mod pen;
pub mod pens;
pub mod requests;
pub mod row;
pub mod row_times;
pub mod segment;
pub mod segments;
pub mod setting;
#[cfg(test)]
mod side_faults;
pub mod stream;
pub mod sweep;
pub mod table;
pub mod table_calls;
pub mod table_stream;
pub mod tally;
pub mod tries;
pub mod uncut;
pub mod uncut_kinds;
pub mod uncut_stream;
