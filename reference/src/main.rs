//! The second implementation from the command line.

use reference::cases;
use reference::data::{self, Case};
use reference::key::check_key;
use reference::programs::{dealing_program, joining_program, MOST_BYTES};
use std::fs;
use std::io::{self, Read, Write};
use std::path::Path;
use std::process::ExitCode;

const HELP: &str = "\
Nosingginger's second implementation, written from documents 01 and 02 alone.

usage: reference COMMAND

  deal              the dealing program: reads a dealing on standard input, writes p keys
                    or the line `refused n` on standard output
  join              the joining program: reads p keys on standard input, writes the table's
                    lines or the line `refused n` on standard output
  one-byte-changes  reads a key on standard input; for each byte position of it in turn, and
                    each run of values of that byte with the same answer of Check key, writes
                    one line of four decimal numbers with one space between them:
                        position first last answer
                    first and last are the run's least and greatest value; answer is the
                    refusal number, or 0 where the key with that byte is accepted. The runs of
                    a position cover 0 to 255 in order (the key's own byte among them), and
                    neighbouring runs have different answers.
  make-data DIR     writes DIR/cases.bin, the comparison's data in the format of FORMAT.md;
                    the same bytes each time
  make-tally-data DIR
                    writes DIR/tallies.bin, the comparison's data on tallies in the same format;
                    the same bytes each time
  make-program-cases DIR
                    writes the files of the programs' cases into DIR, with their list, DIR/cases:
                    a line for each case, with the program, the file that it reads, how many
                    bytes it reads, which are zeros behind the file's own, and the file that it
                    writes; the same bytes each time
  --help            this text

deal and join read at most 65,537 bytes, which is enough to know that an input is too long.
The exit status is 0 also for a refusal, and 2 when the command is not understood.
";

fn main() -> ExitCode {
    let arguments: Vec<String> = std::env::args().skip(1).collect();
    let words: Vec<&str> = arguments.iter().map(String::as_str).collect();
    let done = match words[..] {
        ["deal"] => program(dealing_program),
        ["join"] => program(joining_program),
        ["one-byte-changes"] => one_byte_changes(),
        ["make-data", folder] => make_data(Path::new(folder), "cases.bin", &cases::all()),
        ["make-tally-data", folder] => {
            make_data(Path::new(folder), "tallies.bin", &cases::of_tallies())
        }
        ["make-program-cases", folder] => make_program_cases(Path::new(folder)),
        ["--help"] => write_out(HELP.as_bytes()),
        _ => {
            eprint!("{HELP}");
            return ExitCode::from(2);
        }
    };
    match done {
        Ok(()) => ExitCode::SUCCESS,
        Err(error) => {
            eprintln!("reference: {error}");
            ExitCode::FAILURE
        }
    }
}

fn write_out(bytes: &[u8]) -> io::Result<()> {
    let mut output = io::stdout().lock();
    output.write_all(bytes)?;
    output.flush()
}

/// One byte above the limit tells that the input is above it.
fn program(work: fn(&[u8]) -> Vec<u8>) -> io::Result<()> {
    let mut input = Vec::new();
    let most = MOST_BYTES as u64 + 1;
    io::stdin().lock().take(most).read_to_end(&mut input)?;
    write_out(&work(&input))
}

fn one_byte_changes() -> io::Result<()> {
    let mut key = Vec::new();
    io::stdin().lock().read_to_end(&mut key)?;
    let mut text = String::new();
    for position in 0..key.len() {
        for (first, last, answer) in runs_at(&mut key, position) {
            text.push_str(&format!("{position} {first} {last} {answer}\n"));
        }
    }
    write_out(text.as_bytes())
}

/// The runs of one byte's values with the same answer of Check key: first, last, answer.
fn runs_at(key: &mut [u8], position: usize) -> Vec<(u8, u8, u32)> {
    let own = key[position];
    let mut runs: Vec<(u8, u8, u32)> = Vec::new();
    for value in 0..=255 {
        key[position] = value;
        let answer = check_key(key).err().unwrap_or(0);
        match runs.last_mut() {
            Some(run) if run.2 == answer => run.1 = value,
            _ => runs.push((value, value, answer)),
        }
    }
    key[position] = own;
    runs
}

fn make_data(folder: &Path, name: &str, cases: &[Case]) -> io::Result<()> {
    let file = data::write_file(cases);
    fs::create_dir_all(folder)?;
    fs::write(folder.join(name), &file)?;
    println!("{} cases, {} bytes", cases.len(), file.len());
    Ok(())
}

fn make_program_cases(folder: &Path) -> io::Result<()> {
    let files = cases::programs::files();
    fs::create_dir_all(folder)?;
    for (name, bytes) in &files {
        fs::write(folder.join(name), bytes)?;
    }
    let bytes: usize = files.values().map(Vec::len).sum();
    println!("{} files, {bytes} bytes", files.len());
    Ok(())
}
