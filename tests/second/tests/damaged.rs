//! Damaged texts: the reader ends on each, and answers the first row that holds, or takes the text
//! if none does.

mod common;

use common::damage::damage;
use common::lists::{text_of, NAME};
use common::random::Random;
use common::rows::{row_3_holds, Lines, Row, ON_A_LINE};
use common::world::World;
use second::Refusal;
use std::collections::BTreeMap;

const CASES: u64 = 35_000;

/// In the place of a row where none holds.
const NONE: Row = (0, 0);

/// The row that holds first, and the refusal that the predicates demand.
fn demanded(reference: &[u8], text: &[u8]) -> Option<(Row, Refusal)> {
    if row_3_holds(text) {
        return Some(((3, 0), Refusal { number: 3, list: 1, line: 0, place: 0 }));
    }
    let lines = Lines::new(reference, NAME, text);
    for line in 1..=lines.count() + 1 {
        if let Some(&row) = ON_A_LINE.iter().find(|row| lines.holds(**row, line)) {
            let place = lines.place(row, line);
            return Some((row, Refusal { number: row.0, list: 1, line: line as u32, place }));
        }
    }
    None
}

#[test]
fn damaged_texts_are_answered_by_the_first_row_that_holds() {
    let mut seen: BTreeMap<Row, u32> = ON_A_LINE.map(|row| (row, 0)).into();
    seen.insert((3, 0), 0);
    seen.insert(NONE, 0);
    for seed in 600_000..600_000 + CASES {
        let mut random = Random::new(seed);
        let world = World::new(&mut random, 8);
        let mut text = text_of(&world.lists[0]);
        for _ in 0..random.between(0, 3) {
            damage(&mut random, &mut text);
        }
        let found = second::read(&world.reference, NAME, 1, &text).err();
        let demanded = demanded(&world.reference, &text);
        assert_eq!(found, demanded.map(|(_, refusal)| refusal), "{}", text.escape_ascii());
        *seen.get_mut(&demanded.map_or(NONE, |(row, _)| row)).expect("a row") += 1;
    }
    assert!(seen.values().all(|count| *count >= 50), "each row with its allele: {seen:?}");
}
