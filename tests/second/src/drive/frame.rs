//! The frames of tests/driver/driver.c, all numbers little-endian.

use super::case::{Answer, Call, Case, Told};
use std::io::Read;

/// The count that says that a buffer is the one that was lent last in its place, as it was left.
const AS_LEFT: u32 = u32::MAX;

/// What stands in the driver's buffers, by their place in a call, if all calls so far went as expected.
#[derive(Default)]
pub struct Frames {
    left: Vec<Option<Vec<u8>>>,
}

impl Frames {
    /// The call's number, each lent buffer behind its count, then the numbers given. A buffer that the
    /// driver already has is not sent again: so the marks of a row of calls are all made in one.
    pub fn frame(&mut self, case: &Case) -> Vec<u8> {
        let mut frame = call_number(&case.call).to_le_bytes().to_vec();
        let lent = case.lent();
        self.left.resize(self.left.len().max(lent.len()), None);
        let first_written = lent.len() - case.writes();
        for (place, (_, bytes)) in lent.into_iter().enumerate() {
            if self.left[place].as_ref() == Some(&bytes) {
                frame.extend(AS_LEFT.to_le_bytes());
            } else {
                frame.extend((bytes.len() as u32).to_le_bytes());
                frame.extend(&bytes);
                self.left[place] = Some(bytes);
            }
        }
        for (place, left) in (first_written..).zip(&case.expected.left) {
            self.left[place] = Some(left.clone());
        }
        for number in case.numbers() {
            frame.extend((number as u64).to_le_bytes());
        }
        frame
    }
}

fn call_number(call: &Call) -> u32 {
    match call {
        Call::Allele { .. } => 1,
        Call::Normal { .. } => 2,
        Call::Plan { .. } => 3,
        Call::Mark { .. } => 4,
        Call::Count { .. } => 5,
        Call::MarkAll { .. } => 6,
        Call::Entries { .. } => 7,
        Call::Version => 8,
    }
}

/// What the driver tells of a call that answers as many values and leaves as many bytes as are expected;
/// None where it ended without.
pub fn read_told(output: &mut impl Read, expected: &Told) -> Option<Told> {
    let mut number = || {
        let mut bytes = [0; 4];
        output.read_exact(&mut bytes).ok().map(|()| u32::from_le_bytes(bytes))
    };
    let [row, list, line, place] = [number()?, number()?, number()?, number()?];
    let values = expected.answer.values.iter().map(|_| number()).collect::<Option<Vec<u32>>>()?;
    let answer = Answer { number: row, list, line, place, values };
    let mut bytes = |count| {
        let mut bytes = vec![0; count];
        output.read_exact(&mut bytes).ok().map(|()| bytes)
    };
    let changed = bytes(1)?;
    let left = expected.left.iter().map(|left| bytes(left.len())).collect::<Option<Vec<_>>>()?;
    Some(Told { answer, changed: changed != [0], left })
}
