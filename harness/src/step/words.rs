//! Where a step's words come from.

/// The script, or something that makes one up as it is read.
pub trait Words {
    /// The next word, which should lie within the bounds; none at the script's end.
    fn next(&mut self, bounds: impl FnOnce() -> (i32, i32)) -> Option<i32>;
}

/// Little-endian bytes; a part word at the end isn't counted.
pub struct Script<'a>(&'a [[u8; 4]]);

impl<'a> Script<'a> {
    pub fn new(bytes: &'a [u8]) -> Script<'a> {
        Script(bytes.as_chunks().0)
    }
}

impl Words for Script<'_> {
    fn next(&mut self, _bounds: impl FnOnce() -> (i32, i32)) -> Option<i32> {
        let (first, rest) = self.0.split_first()?;
        self.0 = rest;
        Some(i32::from_le_bytes(*first))
    }
}
