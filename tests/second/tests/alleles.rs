//! Alleles are shown where they stand: allele 0 in the reference, 1 and 2 in the list's text.

mod common;

use common::lists::{text, text_of, NAME};
use common::random::Random;
use common::world::World;
use second::{Refusal, Shown};

#[test]
fn every_allele_of_random_lists_is_shown() {
    let refusal = Refusal { number: 18, list: 0, line: 0, place: 0 };
    let mut shown = [0; 3];
    for seed in 700_000..702_000 {
        let mut random = Random::new(seed);
        let world = World::new(&mut random, 8);
        let reference = &world.reference;
        let list = &world.lists[0];
        let text = text_of(list);
        let show = |entry, allele| second::allele(reference, NAME, &text, entry, allele);
        for (number, entry) in list.iter().enumerate() {
            for (allele, bytes) in entry.alleles().enumerate() {
                let part = show(number, allele).expect("an allele of the entry");
                assert_eq!(part.bytes(reference, &text), bytes);
                let in_reference =
                    matches!(part, Shown::Reference { start, .. } if start == entry.start());
                assert_eq!(in_reference, allele == 0);
                shown[allele] += 1;
            }
            assert_eq!(show(number, entry.alts.len() + 1), Err(refusal));
        }
        assert_eq!(show(list.len(), 0), Err(refusal));
    }
    assert!(shown.iter().all(|count| *count > 500), "{shown:?}");
}

#[test]
fn an_alt_is_shown_at_its_own_bytes() {
    let list = text(&["2 C T 0/1", "3 A CC,AT 1/2"]);
    let line = b"chr1\t3\tid\tA\tCC,AT\t";
    let line_start = list.windows(line.len()).position(|bytes| bytes == line).expect("line");
    let show = |allele| second::allele(b"GCATATG", NAME, &list, 1, allele);
    let alt = line_start + b"chr1\t3\tid\tA\t".len();
    assert_eq!(show(0), Ok(Shown::Reference { start: 2, length: 1 }));
    assert_eq!(show(1), Ok(Shown::Text { start: alt, length: 2 }));
    assert_eq!(show(2), Ok(Shown::Text { start: alt + 3, length: 2 }));
}

#[test]
fn a_list_read_gives_entries_and_their_parts() {
    let list = text(&["2 CA C,CAA 2|0"]);
    let read = second::read(b"GCATATG", NAME, 1, &list).expect("accepted");
    assert_eq!(read.entries(), [common::lists::entry("2 CA C,CAA 2|0")]);
    let record = &read.records[0];
    let parts = [record.pos, record.reference, record.alts[0], record.alts[1]];
    assert_eq!(parts.map(|part| part.of(&list)), [&b"2"[..], b"CA", b"C", b"CAA"]);
    assert_eq!(read.header.of(&list), text(&[]));
    assert_eq!([record.line.of(&list), b"\n"].concat(), list[read.header.length..]);
}
