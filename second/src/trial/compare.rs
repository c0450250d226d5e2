//! Two implementations side by side: lines go to another program's standard
//! input, and its answers are compared with ours one by one.  A thread of its
//! own writes the lines, so that neither side waits for the other: a program
//! may answer each line as it comes, or all of them at the end.

use super::generator::{Generator, Vector};
use std::io::{self, BufRead, BufReader, BufWriter, Write};
use std::process::{Child, ChildStdin, Command, Stdio};
use std::sync::mpsc::{channel, Receiver, Sender};
use std::thread;

/// How many differing lines are shown in full.
const SHOWN: u64 = 5;
/// How much of a line or an answer is shown.
const SHOWN_CHARACTERS: usize = 300;

/// What a comparison found.
#[derive(Default)]
pub struct Comparison {
    pub lines: u64,
    pub differing: u64,
    /// Whether the program did not see the lines through to the last, or ended
    /// with a fault of its own.
    pub failed: bool,
}

/// Gives a program `count` lines and compares its answers with ours; the first
/// differences are printed.
pub fn compare(program: &[String], generator: Generator, count: u64) -> io::Result<Comparison> {
    let mut child = Command::new(&program[0])
        .args(&program[1..])
        .stdin(Stdio::piped())
        .stdout(Stdio::piped())
        .spawn()?;
    let (sender, vectors) = channel();
    let input = child.stdin.take().ok_or(io::ErrorKind::BrokenPipe)?;
    let writer = thread::spawn(move || feed(input, generator, count, &sender));
    let comparison = compare_answers(&mut child, vectors);
    let fed = writer.join().map_err(|_| io::ErrorKind::Other)?;
    let status = child.wait()?;
    let mut comparison = comparison?;
    if let (Err(error), false) = (fed, comparison.failed) {
        let last = comparison.lines;
        println!("the program stopped reading before the end of line {last}: {error}");
        comparison.failed = true;
    }
    if !status.success() {
        println!("the program ended with {status}");
        comparison.failed = true;
    }
    Ok(comparison)
}

/// Writes the lines to the program.  Each is handed on with our answer before
/// that, so that a line that cannot be written is known too.
fn feed(
    input: ChildStdin,
    mut generator: Generator,
    count: u64,
    vectors: &Sender<Vector>,
) -> io::Result<()> {
    let mut input = BufWriter::new(input);
    for _ in 0..count {
        let vector = generator.next_vector();
        let line = vector.line.clone();
        if vectors.send(vector).is_err() {
            break;
        }
        input.write_all(&line)?;
        input.write_all(b"\n")?;
    }
    input.flush()
}

/// Reads the program's answers and compares each with ours; the first line
/// without an answer ends it.
fn compare_answers(child: &mut Child, vectors: Receiver<Vector>) -> io::Result<Comparison> {
    let output = child.stdout.take().ok_or(io::ErrorKind::BrokenPipe)?;
    let mut output = BufReader::new(output);
    let mut found = Comparison::default();
    let mut theirs = Vec::new();
    for vector in vectors {
        found.lines += 1;
        let Some(ours) = &vector.answer else {
            continue;
        };
        theirs.clear();
        if output.read_until(b'\n', &mut theirs)? == 0 {
            found.differing += 1;
            found.failed = true;
            show_difference(found.lines, &vector, ours, b"(no answer)");
            return Ok(found);
        }
        if theirs.strip_suffix(b"\n") != Some(ours.as_bytes()) {
            found.differing += 1;
            if found.differing <= SHOWN {
                show_difference(found.lines, &vector, ours, &theirs);
            }
        }
    }
    theirs.clear();
    if output.read_until(b'\n', &mut theirs)? != 0 {
        found.differing += 1;
        println!("an answer too many: {}", shorten(&theirs));
    }
    Ok(found)
}

/// Prints a difference.
fn show_difference(number: u64, vector: &Vector, ours: &str, theirs: &[u8]) {
    println!("line {number}: {}", shorten(&vector.line));
    println!("  ours:   {}", shorten(ours.as_bytes()));
    println!("  theirs: {}", shorten(theirs));
}

/// Characters as they can be shown, the middle left out of many.
fn shorten(characters: &[u8]) -> String {
    let whole = String::from_utf8_lossy(characters).trim_end().to_string();
    let count = whole.chars().count();
    if count <= SHOWN_CHARACTERS {
        return whole.escape_debug().to_string();
    }
    let begin: String = whole.chars().take(SHOWN_CHARACTERS).collect();
    format!("{}.. ({count} characters)", begin.escape_debug())
}
