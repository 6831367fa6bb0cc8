//! `drive CALL COUNT SEED COMMAND..` draws COUNT cases of CALL, which is allele, normal, plan, mark, count, mark_all,
//! entries, version or mutated, from SEED, has the driver COMMAND make the calls of the C library, and holds each answer and
//! all memory lent to this package's own. A run of mark is made of rows of calls on one buffer, their
//! plans among them; a run of mutated of all calls, with bytes changed in what they are lent.

use second::drive::draw::{draw, Asked};
use second::drive::pipe::drive;
use second::drive::tally::Tally;
use std::process::ExitCode;

fn main() -> ExitCode {
    let arguments: Vec<String> = std::env::args().skip(1).collect();
    let Some((asked, count, seed, command)) = parsed(&arguments) else {
        eprintln!("usage: drive CALL COUNT SEED COMMAND..");
        eprintln!("CALL: allele, normal, plan, mark, count, mark_all, entries, version or mutated");
        return ExitCode::from(2);
    };
    let mut tally = Tally::default();
    let cases = (0..count).flat_map(|number| draw(asked, seed, number)).take(count as usize);
    let ended = match drive(command, cases, |case, told| tally.note(case, told)) {
        Ok(ended) => ended,
        Err(error) => {
            eprintln!("drive: {}: {error}", command[0]);
            return ExitCode::from(2);
        }
    };
    print!("{tally}");
    if !ended.success() {
        println!("drive: the driver ended with {ended}");
    }
    let (cases, differences, rare) = (tally.cases, tally.differences, tally.rare_kinds(asked));
    if !rare.is_empty() {
        println!("drive: too rarely answered: {}", rare.join(", "));
    }
    println!("drive: {} cases of {}, seed {seed}, {differences} differences", cases, arguments[0]);
    let is_whole = ended.success() && cases == count;
    match is_whole && differences == 0 && rare.is_empty() {
        true => ExitCode::SUCCESS,
        false => ExitCode::FAILURE,
    }
}

fn parsed(arguments: &[String]) -> Option<(Asked, u64, u64, &[String])> {
    let [call, count, seed, command @ ..] = arguments else { return None };
    let asked = Asked::named(call)?;
    let (count, seed) = (count.parse().ok()?, seed.parse().ok()?);
    (!command.is_empty()).then_some((asked, count, seed, command))
}
