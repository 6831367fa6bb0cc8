//! A list written in normal form: its header lines, then the records by new POS.

use crate::entry::Entry;
use crate::list::List;
use crate::normal_loop::normal_loop;
use crate::part::{COMMA, LF};
use crate::record::Record;

/// The normal text of an accepted list. Only POS, REF and ALT of a line are replaced.
pub fn written(reference: &[u8], text: &[u8], list: &List) -> Vec<u8> {
    let normal_of = |record: &Record| normal_loop(reference, &record.entry);
    let forms: Vec<Entry> = list.records.iter().map(normal_of).collect();
    let mut order: Vec<usize> = (0..forms.len()).collect();
    // Equal POS stay in the order read.
    order.sort_by_key(|&number| (forms[number].pos, number));
    let mut out = list.header.of(text).to_vec();
    for number in order {
        write_line(text, &list.records[number], &forms[number], &mut out);
    }
    out
}

/// The line of `record` with the form's POS, REF and ALT; its other bytes stay.
fn write_line(text: &[u8], record: &Record, form: &Entry, out: &mut Vec<u8>) {
    let alt_start = record.alts[0].start;
    let alt_end = record.alts[record.alts.len() - 1].end();
    out.extend(&text[record.line.start..record.pos.start]);
    out.extend(form.pos.to_string().bytes());
    out.extend(&text[record.pos.end()..record.reference.start]);
    out.extend(&form.reference);
    out.extend(&text[record.reference.end()..alt_start]);
    out.extend(form.alts.join(&COMMA));
    out.extend(&text[alt_end..record.line.end()]);
    out.push(LF);
}
