//! The normal text: what stays of a line, the order of lines, and reading it back.

mod common;

use common::calls::normal;
use common::lists::{all_lines, raw, text, text_of, COLUMN_LINE, NAME, VERSION_LINE};
use common::random::Random;
use common::seen::Seen;
use common::world::World;
use second::normal_form::normal_form;
use second::Entry;

#[test]
fn random_lists_read_back_as_the_normal_forms_in_order() {
    let mut seen = Seen::default();
    for seed in 400_000..403_000 {
        let mut random = Random::new(seed);
        let world = World::new(&mut random, 10);
        for list in &world.lists {
            let read = text_of(list);
            let written = normal(&world.reference, NAME, &read).expect("accepted");
            let back = second::read(&world.reference, NAME, 1, &written).expect("read back");
            let forms: Vec<Entry> =
                list.iter().map(|entry| normal_form(&world.reference, entry)).collect();
            let mut expected = forms.clone();
            expected.sort_by_key(|form| form.pos);
            assert_eq!(back.entries(), expected);
            assert_eq!(written, text_of(&expected));
            assert_eq!(normal(&world.reference, NAME, &written), Ok(written.clone()));
            assert!(written.len() <= read.len());
            let alike = |two: &[Entry]| two[0].pos == two[1].pos && two[0] != two[1];
            seen.note("another order", forms != expected);
            seen.note("equal POS", expected.windows(2).any(alike));
            seen.note("shorter", written.len() < read.len());
            seen.note("the same text", written == read);
        }
    }
    seen.assert_each(300);
}

#[test]
fn equal_pos_stays_in_the_order_read() {
    // The last two records move to POS 2, behind those that were read before them.
    let read = text(&["2 C T 0/1", "2 C G 1/1", "4 TAT T 1/1", "6 T TAT 0/1"]);
    let written = text(&["2 C T 0/1", "2 C G 1/1", "2 CAT C 1/1", "2 C CAT 0/1"]);
    assert_eq!(normal(b"GCATATG", NAME, &read), Ok(written));
    // A record that moves left goes before one that was read before it and stays.
    let read = text(&["3 A T 0/1", "4 TAT T 1/1"]);
    let written = text(&["2 CAT C 1/1", "3 A T 0/1"]);
    assert_eq!(normal(b"GCATATG", NAME, &read), Ok(written));
    // A record that is trimmed goes behind one that was read later.
    let read = text(&["1 GC GT 0/1", "1 G T 1/1"]);
    let written = text(&["1 G T 1/1", "2 C T 0/1"]);
    assert_eq!(normal(b"GCATATG", NAME, &read), Ok(written));
}

#[test]
fn only_pos_ref_and_alt_are_replaced() {
    let record = |pos: &str, reference: &str, alt: &str| {
        let carried = ["\u{e9} #;", "1e-9", "q10;,", "A=\0\r", "GT:X:", "2|1:0/0,:\u{1}"];
        let [id, quality, filter, info, format, sample] = carried;
        let fields = ["chr1", pos, id, reference, alt, quality, filter, info, format, sample];
        fields.join("\t").into_bytes()
    };
    let header = || {
        let column = COLUMN_LINE.replace("sample", " # name\r");
        [VERSION_LINE, "##", "##x\ty", "####", &column].map(|line| line.as_bytes().to_vec())
    };
    let with = |line: Vec<u8>| all_lines(header().into_iter().chain([line]));
    let read = with(record("4", "TAT", "T,TATAT"));
    let written = with(record("2", "CAT", "C,CATAT"));
    assert_eq!(normal(b"GCATATG", NAME, &read), Ok(written));
}

#[test]
fn alleles_are_written_in_upper_case() {
    for (reference, read, written) in [
        // Normal already, in upper case or not.
        ("gcatatg", "2 c t 0/1", "2 C T 0/1"),
        ("GCATATG", "2 cAt c,tT 1/2", "2 CAT C,TT 1/2"),
        ("gcatatg", "2 CAT C 1/1", "2 CAT C 1/1"),
        // Trimmed and shifted.
        ("gcatatg", "1 gC gT 0/1", "2 C T 0/1"),
        ("GCATATG", "4 tAt t 1/1", "2 CAT C 1/1"),
        // The base before comes from the reference.
        ("gcatatg", "4 TAT T 1/1", "2 CAT C 1/1"),
        ("GcaTAtG", "6 t TAT 1/1", "2 C CAT 1/1"),
        ("cnaag", "3 AA A 1/1", "2 NA N 1/1"),
        ("CnaAG", "4 a aA 1/1", "2 N NA 1/1"),
        // Up to POS 1.
        ("aaCG", "2 AC C 1/1", "1 AA A 1/1"),
        ("aAaAaC", "5 A aa 0/1", "1 A AA 0/1"),
    ] {
        let found = normal(reference.as_bytes(), NAME, &text(&[read]));
        assert_eq!(found, Ok(text(&[written])), "{reference} {read}");
    }
}

#[test]
fn what_is_carried_keeps_its_case() {
    let record = |pos: &str, reference: &str, alt: &str| {
        let fields = [
            "chR1", pos, "rs_acgtN", reference, alt, "acgT", "q10;gcat", "aC=n;CAT", "GT:ac",
            "1/1:gt",
        ];
        fields.join("\t").into_bytes()
    };
    let column = COLUMN_LINE.replace("sample", "acgTn");
    let with = |line: Vec<u8>| {
        let header =
            [VERSION_LINE, "##reference=gcatATG", &column].map(|line| line.as_bytes().to_vec());
        all_lines(header.into_iter().chain([line]))
    };
    let found = |read: Vec<u8>| normal(b"gcatatg", b"chR1", &with(read));
    assert_eq!(found(record("4", "tat", "t")), Ok(with(record("2", "CAT", "C"))));
    assert_eq!(found(record("2", "cat", "c")), Ok(with(record("2", "CAT", "C"))));
}

#[test]
fn pos_may_gain_or_lose_a_digit() {
    let line = common::lists::line;
    let reference = format!("{}CG", "A".repeat(10));
    let read = raw([line("9 AACG AACT 1/1"), line("12 G GG 1/1")].map(String::into_bytes));
    let written = raw([line("11 C CG 1/1"), line("12 G T 1/1")].map(String::into_bytes));
    assert_eq!(normal(reference.as_bytes(), NAME, &read), Ok(written));
    let read = text(&["10 A AA 1/1"]);
    assert_eq!(normal(reference.as_bytes(), NAME, &read), Ok(text(&["1 A AA 1/1"])));
}

#[test]
fn normalise_prints_the_normal_text() {
    let read = text(&["4 TAT T 1/1"]);
    assert_eq!(second::normalise(b"GCATATG\n", NAME, &read), text(&["2 CAT C 1/1"]));
}
