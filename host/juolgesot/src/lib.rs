//! Juolgesot for Rust: the script builder of a GPU gate simulator and a run of its scripts, as safe functions over the archive
//! that Rattle proves and builds (`libcapi.a`, for x86-64). With the feature `model` host/model, plain Rust, stands in for it: the
//! same answers on any machine, but nothing of them is proved.
//!
//! A netlist's [`Plan`] says where its pins stand. [`build`] makes the [`Script`] of a plan's record, [`run`] runs a major stage
//! of a script on a state, and a [`Machine`] does it cycle by cycle:
//!
#![doc = "```"]
#![doc = include_str!("../examples/machine.rs")]
#![doc = "```"]
//!
//! Each function comes twice: one that owns its memory (`read_rounds`, `build` ..) and one over lent slices (`read_rounds_into`,
//! `build_into` ..) that allocates nothing. What is refused comes back as a [`Refusal`], which has a number and a place, and
//! says both in words.
//!
//! There are two [`Edition`]s: the full one of 256 lanes, and the small one of 128 for the lab cards. A plan says its own in its
//! record, a script in its file; other functions are told it.
//!
#![doc = "```"]
#![doc = include_str!("../examples/small_edition.rs")]
#![doc = "```"]
//!
//! In `ffi` is the C ABI itself; juolgesot.h says the same for C.

#![deny(missing_docs)]
#![deny(unsafe_op_in_unsafe_fn)]

mod aiger;
pub mod ffi;
mod joins;
mod listing;
mod machine;
mod plan_room;
mod plans;
mod refusal;
mod repair;
mod rounds;
mod run;
pub mod stack;
mod value;

pub use aiger::{
    read_aiger, read_aiger_into, write_aiger, write_aiger_into, Aiger, AigerHeader, AIGER_GATE, AIGER_HEADER,
};
pub use joins::{join, join_into, join_words, JoinRefusal, JoinSet, MOST_PAIRS};
pub use listing::{list, list_into, LIST_ROOM, LIST_TEXT};
pub use machine::{Machine, Trouble};
pub use plan::{
    part_heads, script_file, Edition, Endpoint, FellBack, Gate, LocalPosition, Part, PartHead, Pin, PinIv,
    Plan, Position, Script, Stage, StatePosition, Tables, EMPTY,
};
pub use plan_room::{gate_words, plan_room};
pub use plans::{build, build_into, plan_sizes, plan_sizes_into, Sizes};
pub use refusal::Refusal;
pub use repair::{
    levels, place_bit, place_bit_into, purge_bit, purge_bit_into, repair_room, stage_counts, Netlist, Place,
    RepairSlices,
};
pub use rounds::{
    local_position, local_position_into, read_rounds, read_rounds_into, Placed, Rounds, MOST_ROUNDS,
    NO_POSITION, SET_ROOM,
};
pub use run::{finishing_turns, run, run_into, BLOCK_ROOM};
pub use value::{value, value_into, Values};
