//! A stored buffer put in order, a second time, without regard to speed.
use crate::plain_buffer::Buffer;
use crate::plain_list::{self, Refusal};
use crate::plain_replace::held;

/// The list that a buffer holds, and the writer's bytes of it over the buffer's own tables.
pub struct Tidied {
    pub list: Vec<u32>,
    pub bytes: Vec<u8>,
}

/// All but row 6, which is a matter of the lent runs.
pub fn tidy(b: &Buffer) -> Result<Tidied, Refusal> {
    let list = held(b)?;
    let bytes = plain_list::write(&list, b.part_words, b.symbols).expect("a list over the tables that it was read by").bytes;
    Ok(Tidied { list, bytes })
}
