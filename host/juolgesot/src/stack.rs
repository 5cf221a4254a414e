//! Bytes of stack: a thread of so much in all can call the function, whatever the arguments. Frames have a fixed size, and the
//! only recursion, over the levels of a stage, is 13 deep.
//!
//! They are those of the archive as it is built now: `measure_stack` (host/compare) measures it and holds it to them. With the
//! feature `model` they say nothing.

macro_rules! stacks {
    ($($(#[$doc:meta])* $name:ident = $function:literal, $kib:literal;)*) => {
        $($(#[$doc])* pub const $name: usize = $kib * 1024;)*

        /// All of them, by the functions' names.
        pub const ALL: &[(&str, usize)] = &[$(($function, $name)),*];
    };
}

stacks! {
    /// `read_rounds_into`.
    READ_ROUNDS = "read_rounds", 144;
    /// `local_position_into`.
    LOCAL_POSITION = "local_position", 144;
    /// `list_into`.
    LIST = "list", 240;
    /// `plan_sizes_into`.
    PLAN_SIZES = "plan_sizes", 232;
    /// `build_into`.
    BUILD = "build", 232;
    /// `run_into`.
    RUN = "run", 32;
    /// `value_into`.
    VALUE = "value", 32;
    /// `read_aiger_into`.
    READ_AIGER = "read_aiger", 32;
    /// `write_aiger_into`.
    WRITE_AIGER = "write_aiger", 32;
    /// `place_bit_into`.
    PLACE_BIT = "place_bit", 208;
    /// `purge_bit_into`.
    PURGE_BIT = "purge_bit", 144;
    /// `join_into`.
    JOIN = "join", 32;
}
