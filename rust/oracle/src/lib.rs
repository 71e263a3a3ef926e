//! An independent implementation of document 01, both ends of DDC/CI, and of
//! the requests of document 02 that have landed.
//!
//! It is written from the papers alone, to be compared with another
//! implementation, and to stand as the baseline of its benchmarks. Names are
//! the field's terms (VESA DDC/CI 1.1, MCCS); where a paper's own term differs,
//! the definition says which one it is.

#![forbid(unsafe_code)]
#![warn(missing_docs)]

pub mod answer;
pub mod call_list;
pub mod call_list_by_definition;
pub mod capabilities;
pub mod capabilities_by_definition;
pub mod conforming;
pub mod display;
pub mod line;
pub mod message;
pub mod profile;
pub mod profile_comparison;
pub mod profile_comparison_by_definition;
pub mod set_all_by_definition;
pub mod settings;
pub mod transfer;

/// The two texts that are read fragment by fragment.
#[derive(Clone, Copy, Debug, PartialEq, Eq)]
pub enum Text {
    /// The capabilities string ("capability text"): requests F3, replies E3.
    Capabilities,
    /// The table of VCP code F4 ("call list"): requests E2, replies E4.
    Table,
}

/// The VCP code of the table; no setting has it.
pub const TABLE_CODE: u8 = 0xF4;

/// "The capability text is at most 4,096 bytes"; also the most that a transfer takes.
pub const TEXT_LIMIT: usize = 4096;

/// "The call list at most 1,024": the table buffer's exact length.
pub const TABLE_LIMIT: usize = 1024;

/// "The tent sends up to 64 settings to each board at dawn."
pub const SETTING_LIMIT: usize = 64;
