// Packets inside packets by document 02's rules, from an input's bytes alone.

use crate::{body_of, Form};

/// "Up to four inner packets are read".
pub const MOST_INNER: usize = 4;
/// "19 for a fifth, found before its header is read".
pub const FIFTH: u32 = 19;

/// How many packets an input has inside it, one in the other, and the text of the innermost.
pub struct Inside<'a> {
    pub number: usize,
    pub text: &'a [u8],
}

/// "A body starting `}` holds a complete textual header and body": what stands behind that byte.
pub fn inner_text(input: &[u8], form: Form) -> Option<&[u8]> {
    body_of(input, form)?.strip_prefix(b"}")
}

/// None of an input without a packet inside it.
pub fn inside(input: &[u8], form: Form) -> Option<Inside<'_>> {
    let texts = std::iter::successors(inner_text(input, form), |text| inner_text(text, Form::Text));
    texts.enumerate().last().map(|(place, text)| Inside { number: place + 1, text })
}
