//! What a writer answers.

/// The number of a refusal; as wide as a length, so that `Written` is returned in two registers.
pub type Refusal = usize;

/// The refusal of a buffer shorter than what is to be written.
pub const BUFFER_TOO_SHORT: Refusal = 13;

#[derive(Clone, Copy, Debug, PartialEq, Eq)]
pub enum Written {
    /// So many bytes were written to the front of the buffer; those past them are as they were.
    Length(usize),
    /// Every byte of the buffer is as it was.
    Refused(Refusal),
}

/// Writes the bytes to the front of the buffer, or refuses and leaves it as it was.
#[inline]
pub(crate) fn write_to_front(bytes: &[u8], buffer: &mut [u8]) -> Written {
    match buffer.get_mut(..bytes.len()) {
        Some(front) => {
            front.copy_from_slice(bytes);
            Written::Length(bytes.len())
        }
        None => Written::Refused(BUFFER_TOO_SHORT),
    }
}
