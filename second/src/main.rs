//! What the second program is asked for by name: the listing, the picture and inputs for both, the sample, scripts of calls, and what they write and meet.

use second::counts::{self, Met};
use second::rule::Edition;
use second::scripts::{self, chance};
use second::{captioned, classes, lines, listing, sample, told};
use std::fs;
use std::io::{self, BufWriter, Read, Write};
use std::process::ExitCode;

const USAGE: &str = "second list | draw | save [EDITION] | classes | lines N | captioned FOLDER | sample [READINGS] | script NAME | script SEED CALLS | obey [COUNTS] | sum COUNTS.. | enough COUNTS..";

fn main() -> ExitCode {
    let arguments: Vec<String> = std::env::args().skip(1).collect();
    let words: Vec<&str> = arguments.iter().map(String::as_str).collect();
    match answer(&words, &mut io::stdout().lock()) {
        Ok(true) => ExitCode::SUCCESS,
        Ok(false) => {
            eprintln!("usage: {USAGE}");
            eprintln!("scripts: {}", scripts::NAMES.join(" "));
            ExitCode::from(2)
        }
        Err(error) => {
            eprintln!("second: {error}");
            ExitCode::FAILURE
        }
    }
}

/// Writes what is asked for; answers whether it is known.
fn answer(words: &[&str], out: &mut impl Write) -> io::Result<bool> {
    match words {
        ["lines", number] => out.write_all(&lines::input(numbered(number)?))?,
        ["classes"] => {
            let mut input = Vec::new();
            io::stdin().lock().read_to_end(&mut input)?;
            for class in classes::classes(&input)? {
                writeln!(out, "{class}")?;
            }
        }
        ["list"] => out.write_all(&listing::list(io::stdin().lock())?)?,
        ["draw"] => out.write_all(&listing::draw(io::stdin().lock())?)?,
        ["save"] => out.write_all(&listing::save(io::stdin().lock())?)?,
        ["save", edition] => match Edition::of_number(number(edition)?) {
            Some(edition) => out.write_all(&listing::save_in(edition, io::stdin().lock())?)?,
            None => return Ok(false),
        },
        ["captioned", folder] => {
            for (number, input) in captioned::inputs().enumerate() {
                fs::write(format!("{folder}/{number}"), &input)?;
                let drawn = listing::draw(&input[..])?;
                fs::write(format!("{folder}/{number}.drawn"), drawn)?;
            }
        }
        ["sample"] => out.write_all(sample::shipped().as_bytes())?,
        ["sample", readings] => out.write_all(sample::readings(number(readings)?).as_bytes())?,
        ["script", name] => match scripts::of_name(name) {
            Some(script) => out.write_all(script.text.as_bytes())?,
            None => return Ok(false),
        },
        ["script", seed, calls] => {
            let script = chance::of_seed(number(seed)?, number(calls)?);
            out.write_all(script.text.as_bytes())?;
        }
        ["obey"] => {
            told::obey(io::stdin().lock(), out)?;
        }
        ["obey", file] => {
            let counts = told::obey(io::stdin().lock(), out)?;
            let mut lines = BufWriter::new(fs::File::create(file)?);
            for (name, times) in counts.met() {
                writeln!(lines, "{times} {name}")?;
            }
            lines.flush()?;
        }
        ["sum", files @ ..] => {
            sum(files, out)?;
        }
        ["enough", files @ ..] => {
            let missing = counts::missing(&sum(files, out)?);
            if !missing.is_empty() {
                return Err(io::Error::other(missing.join("; ")));
            }
        }
        _ => return Ok(false),
    }
    Ok(true)
}

/// Writes what the counted scripts met together.
fn sum(files: &[&str], out: &mut impl Write) -> io::Result<Met> {
    let mut met = Met::new();
    for file in files {
        for line in fs::read_to_string(file)?.lines() {
            let (times, name) = line.split_once(' ').ok_or(io::Error::other("no count"))?;
            *met.entry(name.to_string()).or_default() += number(times)?;
        }
    }
    for (name, times) in &met {
        writeln!(out, "{times:>9} {name}")?;
    }
    Ok(met)
}

fn number(text: &str) -> io::Result<u64> {
    text.parse().map_err(io::Error::other)
}

/// The number of one of the listing's inputs; none past the last.
fn numbered(text: &str) -> io::Result<u64> {
    let number = number(text)?;
    if number < lines::inputs() {
        return Ok(number);
    }
    Err(io::Error::other("no input of that number"))
}
