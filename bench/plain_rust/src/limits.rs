//! The limits of a trace: those of gcaudit, and larger ones with `--large`.
pub const LONGEST_LINE: usize = 65_536;
pub const LONGEST_TRACE: u64 = 1 << 40;
pub const LONGEST_NAME: usize = 256;
pub const MOST_THREADS: u32 = 1_024;
pub const MOST_REGIONS: usize = 64;
/// The number of a type has 16 bits.
pub const MOST_KINDS: usize = 65_536;

#[derive(Clone, Copy)]
pub struct Limits {
    pub objects: u32,
    pub slots: u32,
    pub roots: usize,
}

pub const USUAL: Limits = Limits { objects: 1_048_576, slots: 16_777_216, roots: 65_536 };
pub const LARGE: Limits = Limits { objects: 134_217_728, slots: 1_073_741_824, roots: 1_048_576 };
