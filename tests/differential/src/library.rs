//! The proved library as Rust calls it. Nothing checks these declarations against its source.

unsafe extern "C" {
    fn lizkorpe_format(text: *const u8, text_len: usize, buf: *mut u8, buf_len: usize) -> u64;
    fn lizkorpe_checksum(sum: u32, text: *const u8, len: usize) -> u32;
    fn lizkorpe_desk(input: *const u8, input_len: usize, buf: *mut u8, buf_len: usize) -> u64;
}

/// A buffer of this length is never too short for a formatted text.
pub const FORMAT_ROOM: usize = 3_584;

/// A buffer of this length is never too short for what the desk prints.
pub const DESK_ROOM: usize = 659_860;

/// The refusal of a buffer that is too short.
pub const TOO_SHORT: u8 = 14;

/// The answer to a buffer that is too short: refusals stand above every length.
pub const ANSWER_TOO_SHORT: u64 = 1 << 32 | TOO_SHORT as u64;

/// Writes the normal form of the text, or the line of its refusal, to the front of the buffer, and
/// answers its length; or `ANSWER_TOO_SHORT`, and then writes nothing.
pub fn format(text: &[u8], buffer: &mut [u8]) -> u64 {
    // SAFETY: the pointers and lengths are those of two slices that live through the call.
    unsafe { lizkorpe_format(text.as_ptr(), text.len(), buffer.as_mut_ptr(), buffer.len()) }
}

/// Writes what the desk prints for the input to the front of the buffer, and answers as `format` does.
pub fn desk(input: &[u8], buffer: &mut [u8]) -> u64 {
    // SAFETY: the pointers and lengths are those of two slices that live through the call.
    unsafe { lizkorpe_desk(input.as_ptr(), input.len(), buffer.as_mut_ptr(), buffer.len()) }
}

/// The stamp that `sum` becomes over the text.
pub fn checksum(sum: u32, text: &[u8]) -> u32 {
    // SAFETY: the pointer and the length are those of a slice that lives through the call.
    unsafe { lizkorpe_checksum(sum, text.as_ptr(), text.len()) }
}
