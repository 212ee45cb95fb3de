use crate::calls;
use crate::ffi;

/// The comparing program on bytes: of its input, what it prints. A refusal is an answer too, the
/// line `refused N L`.
///
/// Takes up to 49152 bytes of stack: a thread that calls it needs that room. The figure is measured
/// and not proved: on x86-64, for the archive as the kit compiles it.
///
/// ```
/// let answer = zamgulekt::compare_text(b"config 7\nmask 1 1\n0500\n05000000\n");
/// assert!(answer.starts_with(b"config 7\nones 1 2\n"));
/// assert_eq!(zamgulekt::compare_text(b"config 13\n"), b"refused 1 1\n");
/// ```
pub fn compare_text(input: &[u8]) -> Vec<u8> {
    let mut text = vec![0; ffi::TEXT];
    let length = calls::compare_text(input, &mut text).expect("there is room for every answer");
    text.truncate(length as usize);
    text
}
