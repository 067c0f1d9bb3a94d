//! The kernel's own buffer, which some calls are lent beside the store.

/// A buffer as it was, and as each side leaves it; empty for a call that has none.
#[derive(Default)]
pub struct Buffer {
    before: Vec<u8>,
    pub model: Vec<u8>,
    pub ours: Vec<u8>,
    pub rust: Vec<u8>,
}

impl Buffer {
    /// Takes a buffer for each side.
    pub fn take(&mut self, bytes: &[u8]) {
        for copy in [&mut self.before, &mut self.model, &mut self.ours, &mut self.rust] {
            copy.clear();
            copy.extend_from_slice(bytes);
        }
    }

    /// Whether ours is as the model has it, and after a refusal as it was.
    pub fn is_right(&self, answered: bool) -> bool {
        self.ours == self.model && (answered || self.model == self.before)
    }

    /// Whether the Rust has left the bytes that ours has.
    pub fn is_rusts(&self) -> bool {
        self.rust == self.ours
    }
}
