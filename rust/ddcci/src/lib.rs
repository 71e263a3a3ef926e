//! Safe bindings of Paneknoll, a verified implementation of both ends of VESA DDC/CI 1.1.
//!
//! Every call below goes to a function that is proved, for all inputs, to be safe, to end and to answer as the papers
//! say: document 01, and document 02 for call lists, for many settings in one call, for zero bytes behind a
//! capabilities string and for the comparison of two profiles. None of them panics on any bytes, and none allocates.
//!
//! The crate is `no_std` without its feature `std`, which is on by default and adds only the change of a refusal into
//! a [`std::io::Error`]. The archives that it links are built for x86-64 Linux.
#![cfg_attr(not(feature = "std"), no_std)]
#![deny(missing_docs, missing_debug_implementations, unsafe_op_in_unsafe_fn)]
#![deny(clippy::undocumented_unsafe_blocks)]
mod call_list;
mod capabilities;
mod display;
mod message;
mod profiles;
mod raw;
mod refusal;
mod transfer;

pub use call_list::{CallList, Entry, LONGEST_CALL_LIST, MOST_ENTRIES};
pub use capabilities::{read_capabilities_into, Capabilities, Node, Nodes, MOST_NODES};
pub use display::{Asked, Declaration, Display, Step, Timing, LONGEST_PROFILE, MOST_SETTINGS, TABLE_ROOM};
pub use message::{checksum, Message, Reply, Request, MOST_FRAGMENT, MOST_WRITTEN, OUTPUT_ROOM};
pub use profiles::{
    compare_profiles, Difference, DifferenceRoom, Differences, DifferencesIter, RefusedProfile, MOST_DIFFERENCES,
    PROFILE_ROOM,
};
pub use refusal::{Answer, Refusal, RefusedAt};
pub use transfer::{State, TextKind, Transfer, Unfinished};
