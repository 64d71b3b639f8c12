//! The limits that a text's first line decides (`docs/FORMATS.md`, "Limits").

/// The largest numbers and counts of a text.
pub struct Limits {
    /// Of a layout and of a mirror.
    pub side: u32,
    pub steps: u32,
    pub modules: usize,
    pub gates: usize,
    pub wires: usize,
    pub text_bytes: usize,
}

const FIRST: Limits =
    Limits { side: 512, steps: 65_536, modules: 1024, gates: 1024, wires: 4096, text_bytes: 16_777_216 };

const SECOND: Limits = Limits {
    side: 4096,
    steps: 1_048_576,
    modules: 65_536,
    gates: 16_384,
    wires: 65_000,
    text_bytes: 268_435_456,
};

/// The line that chooses the second limits, if a text begins with it.
pub const FRONT_LINE: &[u8] = b"limits 2\n";

impl Limits {
    /// Returns the limits of a text. Its first bytes, as many as `FRONT_LINE` has, are enough.
    pub fn of(text: &[u8]) -> &'static Limits {
        if text.starts_with(FRONT_LINE) { &SECOND } else { &FIRST }
    }
}
