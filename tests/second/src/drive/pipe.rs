//! The driver as one process for all cases: one thread draws and sends, the other takes the answers.

use super::case::{Case, Told};
use super::frame::{read_told, Frames};
use std::io::{self, BufReader, BufWriter, Write};
use std::process::{Command, ExitStatus, Stdio};
use std::sync::mpsc;
use std::thread;

/// Sends all cases to `command` and gives each with what is told of it to `each`. Where the driver
/// ends early, the last case is the one that it ended on, and is given with None. Returns how the
/// driver ended.
pub fn drive(
    command: &[String],
    cases: impl Iterator<Item = Case> + Send,
    mut each: impl FnMut(Case, Option<Told>),
) -> io::Result<ExitStatus> {
    let mut driver = Command::new(&command[0])
        .args(&command[1..])
        .stdin(Stdio::piped())
        .stdout(Stdio::piped())
        .spawn()?;
    let input = driver.stdin.take().expect("piped");
    let mut output = BufReader::new(driver.stdout.take().expect("piped"));
    let (sent, sent_cases) = mpsc::channel();
    thread::scope(|scope| {
        scope.spawn(move || send(input, cases, &sent));
        for case in sent_cases {
            let told = read_told(&mut output, &case.expected);
            let ended = told.is_none();
            each(case, told);
            if ended {
                break;
            }
        }
    });
    driver.wait()
}

/// Each case goes to the other thread before it goes to the driver, so that the one is known on which
/// the driver ends. A driver that ended takes no more, and its other cases are left away.
fn send(input: impl Write, cases: impl Iterator<Item = Case>, sent: &mpsc::Sender<Case>) {
    let mut input = BufWriter::new(input);
    let mut frames = Frames::default();
    for case in cases {
        let frame = frames.frame(&case);
        if sent.send(case).is_err() || input.write_all(&frame).is_err() {
            return;
        }
    }
}
