//! The normal form: the loop against the definition, and what document 01 says of it.

mod common;

use common::lists::{entry, short};
use common::random::Random;
use common::seen::Seen;
use common::world::World;
use second::normal_form::{is_normal, normal_form, reference_and_donors};
use second::normal_loop::normal_loop;
use second::Entry;

const CASES: u64 = 3_000;

fn lengths(entry: &Entry) -> Vec<usize> {
    entry.alleles().map(<[u8]>::len).collect()
}

/// All that document 01 says of the normal form of one entry, but for its being the only one, which
/// the definition itself asserts.
fn assert_normal(reference: &[u8], entry: &Entry, form: &Entry) {
    assert_eq!(form, &normal_form(reference, entry), "the loop and the definition agree");
    assert!(is_normal(form.pos, &form.alleles().collect::<Vec<_>>()));
    assert_eq!(normal_loop(reference, form), *form, "normal stays as it is");
    assert_eq!(reference_and_donors(reference, form), reference_and_donors(reference, entry));
    assert_eq!((form.alts.len(), form.copies), (entry.alts.len(), entry.copies));
    assert!(lengths(form).iter().zip(lengths(entry)).all(|(new, old)| *new <= old));
    assert!(form.end() <= entry.end(), "the end does not move right");
    assert!(short(form).len() <= short(entry).len(), "the line is not longer");
}

fn note(seen: &mut Seen, reference: &[u8], entry: &Entry, form: &Entry) {
    let ends_alike = form.alts.iter().all(|alt| alt.last() == form.reference.last());
    let pos_alone = |alt: &Vec<u8>| {
        let alone = Entry { alts: vec![alt.clone()], copies: [1, 1], ..entry.clone() };
        normal_form(reference, &alone).pos
    };
    let held_back =
        entry.alts.len() == 2 && entry.alts.iter().any(|alt| pos_alone(alt) != form.pos);
    let has_n = |entry: &Entry| entry.alts.concat().contains(&b'N');
    seen.note("moved left", form.pos < entry.pos);
    seen.note("moved far left", form.pos + 4 < entry.pos);
    seen.note("trimmed on the left", form.pos > entry.pos);
    seen.note("trimmed on the right", form.end() < entry.end() && form.pos == entry.pos);
    seen.note("the same end at POS 1", ends_alike);
    seen.note("normal already", form == entry);
    seen.note("held back by the other ALT", held_back);
    seen.note("brought an N into ALT", has_n(form) && !has_n(entry));
}

#[test]
fn random_entries_have_one_normal_form_and_the_loop_finds_it() {
    let mut seen = Seen::default();
    for seed in 300_000..300_000 + CASES {
        let mut random = Random::new(seed);
        let world = World::new(&mut random, 8);
        for entry in world.lists.iter().flatten() {
            let form = normal_loop(&world.reference, entry);
            assert_normal(&world.reference, entry, &form);
            note(&mut seen, &world.reference, entry, &form);
        }
    }
    seen.assert_each(20);
}

/// Every entry with short alleles on a short reference, one ALT.
#[test]
fn all_small_entries_have_one_normal_form() {
    let words = |length: u32| -> Vec<Vec<u8>> {
        let word = |number: u32| (0..length).map(|at| b"AC"[(number >> at & 1) as usize]).collect();
        (0..1 << length).map(word).collect()
    };
    let alts: Vec<Vec<u8>> = (1..=4).flat_map(words).collect();
    let mut entries = 0;
    for reference in words(5) {
        for (start, end) in (0..5).flat_map(|start| (start + 1..=5).map(move |end| (start, end))) {
            for alt in alts.iter().filter(|alt| **alt != reference[start..end]) {
                let replaced = reference[start..end].to_vec();
                let alts = vec![alt.clone()];
                let entry = Entry { pos: start + 1, reference: replaced, alts, copies: [1, 1] };
                assert_normal(&reference, &entry, &normal_loop(&reference, &entry));
                entries += 1;
            }
        }
    }
    assert!(entries > 10_000);
}

#[test]
fn forms_by_hand() {
    for (reference, read, normal) in [
        ("GCATATG", "4 TAT T 0/1", "2 CAT C 0/1"),
        ("GCATATG", "6 T TAT 1/1", "2 C CAT 1/1"),
        ("AACG", "2 AC C 1/1", "1 AA A 1/1"),
        ("AACG", "1 A AA 1/1", "1 A AA 1/1"),
        ("ACG", "1 AC C 1/1", "1 AC C 1/1"),
        ("ACG", "1 ACG ACT 1/1", "3 G T 1/1"),
        ("ACG", "1 ACG TCG 1/1", "1 A T 1/1"),
        ("CNAAG", "3 AA A 1/1", "2 NA N 1/1"),
        ("CNAAG", "4 A AA 1/1", "2 N NA 1/1"),
        ("GAAAC", "4 A AA,T 1/1", "4 A AA,T 1/1"),
        ("GAAAC", "4 A AA,AAA 0/1", "1 G GA,GAA 0/1"),
        ("GAAAC", "3 AAC AC,C 2/1", "1 GAA GA,G 2/1"),
        ("TTACG", "3 ACG AG,AT 1/2", "4 CG G,T 1/2"),
        ("NNNN", "4 N NN 1/1", "1 N NN 1/1"),
    ] {
        let found = normal_loop(reference.as_bytes(), &entry(read));
        assert_eq!(short(&found), normal);
        assert_eq!(found, normal_form(reference.as_bytes(), &entry(read)));
    }
}
