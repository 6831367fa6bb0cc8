//! A part of a text, by its offset, and the cutting of a part: lines of a text and fields of a line at each
//! separator, the field ALT at its first comma alone.

pub const LF: u8 = b'\n';
pub const TAB: u8 = b'\t';
pub const COMMA: u8 = b',';
pub const COLON: u8 = b':';

/// Some bytes of a text that follow one another; it may be empty.
#[derive(Clone, Copy, Debug, PartialEq, Eq)]
pub struct Part {
    pub start: usize,
    pub length: usize,
}

impl Part {
    pub fn end(self) -> usize {
        self.start + self.length
    }

    /// The bytes of `text` that this part names.
    pub fn of(self, text: &[u8]) -> &[u8] {
        &text[self.start..self.end()]
    }

    /// The parts between the separators, always one more than there are separators.
    pub fn split(self, text: &[u8], separator: u8) -> Vec<Part> {
        let mut start = self.start;
        let between = |bytes: &[u8]| {
            let length = bytes.len();
            let part = Part { start, length };
            start = part.end() + 1;
            part
        };
        self.of(text).split(|&byte| byte == separator).map(between).collect()
    }

    /// The part up to the first separator and, where there is one, all that stands behind it.
    pub fn split_once(self, text: &[u8], separator: u8) -> (Part, Option<Part>) {
        match self.of(text).iter().position(|&byte| byte == separator) {
            None => (self, None),
            Some(length) => {
                let before = Part { start: self.start, length };
                let start = before.end() + 1;
                (before, Some(Part { start, length: self.end() - start }))
            }
        }
    }
}
