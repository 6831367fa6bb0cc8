//! An entry is its POS, REF, ALTs and the ordered pair of copy alleles. All its bases are folded.

#[derive(Clone, Debug, PartialEq, Eq)]
pub struct Entry {
    /// Counted from 1, as VCF writes it.
    pub pos: usize,
    pub reference: Vec<u8>,
    /// One or two.
    pub alts: Vec<Vec<u8>>,
    /// The allele numbers that the two digits of the genotype name, in their order.
    pub copies: [usize; 2],
}

impl Entry {
    /// Where the REF span starts, as a place in the reference, counted from 0.
    pub fn start(&self) -> usize {
        self.pos - 1
    }

    /// Up to where the REF span runs, not including it.
    pub fn end(&self) -> usize {
        self.start() + self.reference.len()
    }

    /// Allele 0 is REF, 1 and 2 are the ALTs.
    pub fn allele(&self, number: usize) -> &[u8] {
        match number {
            0 => &self.reference,
            _ => &self.alts[number - 1],
        }
    }

    /// The two copy alleles, as written.
    pub fn copy_alleles(&self) -> [&[u8]; 2] {
        self.copies.map(|number| self.allele(number))
    }

    /// All alleles, unused ALTs included, REF first.
    pub fn alleles(&self) -> impl Iterator<Item = &[u8]> {
        (0..=self.alts.len()).map(|number| self.allele(number))
    }
}
