//! Messages end to end in one slice, as the listing program reads them
//! (document 01, "Calls and layers") and as a set has them (request C-14).

/// The messages of a slice in order, each as long as its Total Size says. What
/// cannot be one is the last: "A size below 8 or past the end, or a lone
/// octet" leaves no place where the next message would begin.
pub struct EndToEnd<'a> {
    rest: &'a [u8],
}

pub fn end_to_end(octets: &[u8]) -> EndToEnd<'_> {
    EndToEnd { rest: octets }
}

/// The octets from where no message can be told to the end.
#[derive(Clone, Copy, Debug, PartialEq, Eq)]
pub struct Cut<'a>(pub &'a [u8]);

impl<'a> Iterator for EndToEnd<'a> {
    type Item = Result<&'a [u8], Cut<'a>>;

    fn next(&mut self) -> Option<Self::Item> {
        if self.rest.is_empty() {
            return None;
        }
        let Some(size) = size(self.rest) else {
            return Some(Err(Cut(std::mem::take(&mut self.rest))));
        };
        let (message, after) = self.rest.split_at(size);
        self.rest = after;
        Some(Ok(message))
    }
}

/// The size of the next message; none for "A size below 8 or past the end, or
/// a lone octet".
fn size(rest: &[u8]) -> Option<usize> {
    let [high, low, ..] = rest else {
        return None;
    };
    let size = usize::from(u16::from_be_bytes([*high, *low]));
    (size >= 8 && size <= rest.len()).then_some(size)
}
