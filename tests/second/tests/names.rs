//! The names that the programs are given in drawn folders, and that `whole` does give them: it is held to the binary of this package.

mod common;

use common::seen::Seen;
use second::drawn::list::LINE_MOST;
use second::drive::draw::folders::{named_folder, FILES};
use second::drive::draw::names::{Given, EMPTY, LONG, NONE, OF_RECORDS, OTHER};
use second::programs::NAME;
use second::whole::{hold, Folder};

fn folder(number: u64) -> Folder {
    let (files, given) = named_folder(5, number);
    let [reference, first, second] =
        files.each_ref().map(|file| file.as_deref().unwrap_or_default());
    let expected = second::compare(reference, given.name.as_deref().unwrap_or(NAME), first, second);
    Folder { files: FILES.into_iter().zip(files).collect(), given: Some(given), expected }
}

#[test]
fn each_kind_of_name_is_given_and_is_what_it_says() {
    let mut seen = Seen::default();
    for number in 0..1_500 {
        let Folder { files, given, expected } = folder(number);
        let Given { name, kind } = given.expect("named");
        let is_refused = expected.starts_with(b"refused\t");
        match (kind, &name) {
            (NONE, None) | (OF_RECORDS, Some(_)) => {}
            (EMPTY, Some(name)) => assert!(name.is_empty()),
            (LONG, Some(name)) => assert!(name.len() > LINE_MOST),
            (OTHER, Some(name)) => assert!(!name.is_empty() && name.len() <= LINE_MOST),
            _ => panic!("{kind}: {name:?}"),
        }
        // A record makes the difference: without one any name is as good.
        let has_record =
            |text: &Vec<u8>| text.split_inclusive(|byte| *byte == b'\n').any(is_record);
        let mut lists = files[1..].iter().filter_map(|(_, file)| file.as_ref());
        if lists.any(has_record) {
            assert!(is_refused || [NONE, OF_RECORDS].contains(&kind));
        }
        for of in [NONE, OF_RECORDS] {
            seen.note(of, kind == of && !is_refused);
        }
        for of in [EMPTY, LONG, OTHER] {
            seen.note(of, kind == of && is_refused);
        }
        let is_usual = name.as_deref().is_none_or(|name| name == NAME);
        seen.note("answered with another name than chr1", !is_refused && !is_usual);
        seen.note("a name of any bytes", name.is_some_and(|name| !name.is_ascii()));
    }
    seen.assert_each(50);
}

fn is_record(line: &[u8]) -> bool {
    !line.starts_with(b"#")
}

#[test]
fn a_program_is_given_the_name_of_its_folder() {
    let second = |program: &str| [env!("CARGO_BIN_EXE_second"), program, "."].map(String::from);
    let kind = |_: &str| String::new();
    let held = hold(&second("compare"), (0..120).map(folder), kind);
    assert!(held.is_good(&["an empty name refused", "the records' name answered", "refused 7/1"]));
    assert!(!held.is_good(&["refused 99/0"]));
}
