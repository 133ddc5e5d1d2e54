//! Makes the tests' files: the vectors, the pages of the listing and of the gain sheet, pages at random, and pages of one
//! kind; and lists pages, draws up their gain sheet, writes their transfer file and reads it, by this implementation.

use second::answer::{device_in, pages_in, Refusal};
use second::cases::pages::any_page;
use second::command::command;
use second::file::{file_bytes, write_file, FILE_PAGES_MOST};
use second::listing::{listing, PAGES_MOST};
use second::random::Random;
use second::reading::read_file;
use second::samples::{self, Alike};
use second::shape::SMALL;
use second::sheet::sheet;
use second::vectors;
use std::fs;
use std::io::{self, Read, Write};
use std::path::Path;
use std::process::ExitCode;

const USAGE: &str = "usage: generate vectors DIR | listing DIR | sheet DIR | pages SEED COUNT EXTRA | \
                     alike blank|first|filled|second|bad|inspect COUNT | list | gain | file DEVICE | read";

/// Writes the two files of a test.
fn write_test(folder: &str, input: &[u8], text: &str) -> io::Result<()> {
    fs::create_dir_all(folder)?;
    fs::write(Path::new(folder).join("stdin"), input)?;
    fs::write(Path::new(folder).join("stdout"), text)
}

fn write_vectors(folder: &str) -> io::Result<()> {
    let calls = vectors::calls();
    write_test(folder, &vectors::input_of(&calls), &vectors::text_of(&calls))
}

fn write_listing(folder: &str) -> io::Result<()> {
    let pages = samples::listing_pages();
    write_test(folder, &pages, &listing(&pages))
}

fn write_sheet(folder: &str) -> io::Result<()> {
    let pages = samples::sheet_pages();
    write_test(folder, &pages, &sheet(&pages))
}

/// Writes `count` pages of 256 bytes, of any kind, and `extra` further bytes to standard output.
fn write_pages(seed: u64, count: usize, extra: u8) -> io::Result<()> {
    let mut random = Random::new(seed);
    let mut output = io::BufWriter::new(io::stdout().lock());
    for _ in 0..count {
        output.write_all(&any_page(&mut random, SMALL))?;
    }
    output.write_all(&random.bytes(usize::from(extra)))?;
    output.flush()
}

/// Writes `count` pages of this kind to standard output.
fn write_alike(kind: Alike, count: usize) -> io::Result<()> {
    let mut output = io::BufWriter::new(io::stdout().lock());
    for page in samples::alike(kind, count) {
        output.write_all(&page)?;
    }
    output.flush()
}

/// Standard input, up to this many bytes.
fn input(most: usize) -> io::Result<Vec<u8>> {
    let mut input = Vec::new();
    io::stdin().lock().take(most as u64).read_to_end(&mut input)?;
    Ok(input)
}

/// Writes the first bytes of the output, as many as these, to standard output.
fn write_first(output: &[u8], length: usize) -> io::Result<()> {
    io::stdout().write_all(&output[..length])?;
    io::stdout().flush()
}

/// The refusal of an operation as an error.
fn refused(operation: &str, refusal: Refusal) -> io::Error {
    io::Error::other(format!("{operation} refuses {}", refusal.number))
}

/// Prints the listing or the sheet of standard input.
fn print(text: fn(&[u8]) -> String) -> io::Result<()> {
    io::stdout().write_all(text(&input(PAGES_MOST * SMALL.bytes)?).as_bytes())
}

/// Writes the transfer file of standard input to standard output; one byte too many is enough to refuse the pages.
fn file(device: u32) -> io::Result<()> {
    let pages = input(FILE_PAGES_MOST * SMALL.bytes + 1)?;
    let mut output = vec![0; file_bytes(FILE_PAGES_MOST)];
    let length = write_file(device, &pages, &mut output).map_err(|refusal| refused("write file", refusal))?;
    write_first(&output, length as usize)
}

/// Reads standard input as a transfer file: writes its pages to standard output, and "device N pages M" to standard error.
fn read() -> io::Result<()> {
    let mut output = vec![0; FILE_PAGES_MOST * SMALL.bytes];
    let result = read_file(&input(usize::MAX)?, &mut output).map_err(|refusal| refused("read file", refusal))?;
    eprintln!("device {} pages {}", device_in(result), pages_in(result));
    write_first(&output, SMALL.bytes * pages_in(result))
}

/// What the arguments ask for, or nothing when they are not as the usage says.
fn asked(arguments: &[&str]) -> Option<ExitCode> {
    let done = match arguments {
        ["vectors", folder] => write_vectors(folder),
        ["listing", folder] => write_listing(folder),
        ["sheet", folder] => write_sheet(folder),
        ["pages", seed, count, extra] => write_pages(seed.parse().ok()?, count.parse().ok()?, extra.parse().ok()?),
        ["alike", kind, count] => write_alike(Alike::named(kind)?, count.parse().ok()?),
        ["list"] => print(listing),
        ["gain"] => print(sheet),
        ["file", device] => file(device.parse().ok()?),
        ["read"] => read(),
        _ => return None,
    };
    match done {
        Ok(()) => Some(ExitCode::SUCCESS),
        Err(error) => {
            eprintln!("generate: {error}");
            Some(ExitCode::FAILURE)
        }
    }
}

fn main() -> ExitCode {
    command(USAGE, asked)
}
