use super::Cursor;

impl Cursor<'_> {
    /// Trees passed, bytes from the present tree to the end, open subtrees.
    pub fn state(&self) -> (usize, usize, usize) {
        (self.advances_count, self.buffer_before_current.bytes_left(), self.subtrees_stack.len())
    }
}
