//! Bases: A, C, G, T and N, each in either case. Two are equal if they are the same letter, so n equals N and only N.
//!
//! What is lent keeps its bytes. What is read of it is folded once, to upper case, and all rules on bases go over the folded ones.

pub fn is_base(byte: u8) -> bool {
    matches!(fold(byte), b'A' | b'C' | b'G' | b'T' | b'N')
}

/// The same bases in upper case.
pub fn folded(bases: &[u8]) -> Vec<u8> {
    bases.iter().map(|&byte| fold(byte)).collect()
}

/// Whether both are the same bases.
pub fn same(one: &[u8], other: &[u8]) -> bool {
    folded(one) == folded(other)
}

fn fold(byte: u8) -> u8 {
    byte.to_ascii_uppercase()
}
