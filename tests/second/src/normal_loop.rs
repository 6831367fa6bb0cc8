//! The normal form by the loop of Tan and others (2015): shift left while all end alike, then trim.

use crate::entry::Entry;
use std::collections::VecDeque;

/// The normal form of `entry`; its copy alleles stay.
pub fn normal_loop(reference: &[u8], entry: &Entry) -> Entry {
    let mut form = Form {
        pos: entry.pos,
        alleles: entry.alleles().map(|allele| allele.iter().copied().collect()).collect(),
    };
    // Each turn cuts the last base of all, so the end of the span falls; at POS 1 no base is before.
    while form.end_alike() && (form.pos > 1 || form.shortest() > 1) {
        if form.shortest() == 1 {
            form.lengthen_left(reference);
        }
        form.cut_right();
    }
    while form.begin_alike() && form.shortest() > 1 {
        form.cut_left();
    }
    let mut alleles = form.alleles.into_iter().map(Vec::from);
    Entry {
        pos: form.pos,
        reference: alleles.next().expect("REF is the first allele"),
        alts: alleles.collect(),
        copies: entry.copies,
    }
}

/// The form as it moves; no allele is empty between two turns.
struct Form {
    pos: usize,
    alleles: Vec<VecDeque<u8>>,
}

impl Form {
    fn shortest(&self) -> usize {
        self.alleles.iter().map(VecDeque::len).min().unwrap_or(0)
    }

    fn end_alike(&self) -> bool {
        self.alleles.iter().all(|allele| allele.back() == self.alleles[0].back())
    }

    fn begin_alike(&self) -> bool {
        self.alleles.iter().all(|allele| allele.front() == self.alleles[0].front())
    }

    /// Brings the base before POS into every allele, an N as any other.
    fn lengthen_left(&mut self, reference: &[u8]) {
        self.pos -= 1;
        for allele in &mut self.alleles {
            allele.push_front(reference[self.pos - 1]);
        }
    }

    fn cut_right(&mut self) {
        for allele in &mut self.alleles {
            allele.pop_back();
        }
    }

    fn cut_left(&mut self) {
        self.pos += 1;
        for allele in &mut self.alleles {
            allele.pop_front();
        }
    }
}
