//! The normal form by its definition: every form with the same donors, and the one that is normal.
//!
//! Quadratic in the reference, so for small references; `normal_loop` gives the same form quickly.

use crate::entry::Entry;

/// Document 01's two clauses, for the alleles of a form at `pos`, unused ALTs included.
pub fn is_normal(pos: usize, alleles: &[&[u8]]) -> bool {
    let none_empty = alleles.iter().all(|allele| !allele.is_empty());
    let one_has_length_1 = alleles.iter().any(|allele| allele.len() == 1);
    let same_end = alleles.iter().all(|allele| allele.last() == alleles[0].last());
    let same_begin = alleles.iter().all(|allele| allele.first() == alleles[0].first());
    let all_longer = alleles.iter().all(|allele| allele.len() >= 2);
    none_empty && (!same_end || (pos == 1 && one_has_length_1)) && !(same_begin && all_longer)
}

/// The normal form of `entry`; its copy alleles stay. Exactly one exists, or this panics.
pub fn normal_form(reference: &[u8], entry: &Entry) -> Entry {
    let donors = reference_and_donors(reference, entry);
    let mut found = forms(&donors, entry.copies)
        .into_iter()
        .filter(|form| is_normal(form.pos, &form.alleles().collect::<Vec<_>>()));
    let normal = found.next().expect("a normal form exists");
    assert_eq!(found.next(), None, "only one normal form exists");
    normal
}

/// The reference, then for each ALT alone the donor over the whole reference.
pub fn reference_and_donors(reference: &[u8], entry: &Entry) -> Vec<Vec<u8>> {
    let before = &reference[..entry.start()];
    let after = &reference[entry.end()..];
    let with = |allele: &[u8]| [before, allele, after].concat();
    entry.alleles().map(with).collect()
}

/// Every form with these donors: what all begin with and all end with may be cut away, as far as
/// no allele becomes empty. What is left of the reference is REF, what is left of a donor its ALT.
pub fn forms(donors: &[Vec<u8>], copies: [usize; 2]) -> Vec<Entry> {
    let shortest = donors.iter().map(Vec::len).min().unwrap_or(0);
    let begin = (0..shortest).take_while(|&i| all_equal(donors, |donor| donor[i]));
    let end = (1..=shortest).take_while(|&i| all_equal(donors, |donor| donor[donor.len() - i]));
    let (begin, end) = (begin.count(), end.count());
    let mut forms = Vec::new();
    for left in 0..=begin {
        for right in (0..=end).take_while(|right| left + right < shortest) {
            let mut alleles = donors.iter().map(|donor| donor[left..donor.len() - right].to_vec());
            forms.push(Entry {
                pos: left + 1,
                reference: alleles.next().expect("the reference is the first donor"),
                alts: alleles.collect(),
                copies,
            });
        }
    }
    forms
}

fn all_equal(donors: &[Vec<u8>], base: impl Fn(&[u8]) -> u8) -> bool {
    donors.iter().all(|donor| base(donor) == base(&donors[0]))
}
