//! Validates a path of files, from the trust anchor down, with signatures by the library.
//!
//! usage: validate [OPTION].. [-l LIST.crl].. [-t LOCATOR.tal] YYYY-MM-DD LAST MEMBER.cer..
//!        LAST: authority, ee, detached or router
//!
//! Names have to chain, and the RPKI has to use the last key. CRLs are checked if some are given, and so
//! is the anchor's key if a TAL is. The options `--no-names`, `--any-key` and `--lenient` waive names,
//! the last key and the strings of names.
//! Ends with 0 where the path is accepted, with 1 where it is rejected, and with 2 where the words
//! or a file are not as above, or the verdict can't be written.
use gonxebhula::{Anchor, Fault, FaultKind, Holdings, Kind, Moment, Path, Place, Revocation};
use std::env;
use std::ffi::{OsStr, OsString};
use std::fs::File;
use std::io::{self, Read, Write};
use std::process::ExitCode;

/// Octets of a file, at most: 64 MiB.
const MOST: u64 = 64 << 20;
const USAGE: &str =
    "usage: validate [OPTION].. [-l LIST.crl].. [-t LOCATOR.tal] YYYY-MM-DD LAST MEMBER.cer..";
const OPTIONS: [&str; 3] = ["--no-names", "--any-key", "--lenient"];

fn print(held: &Holdings) -> io::Result<()> {
    let mut out = io::stdout().lock();
    writeln!(out, "accepted; held are")?;
    for (min, max) in held.ipv4.iter() {
        writeln!(out, "  {min}-{max}")?;
    }
    for (min, max) in held.ipv6.iter() {
        writeln!(out, "  {min}-{max}")?;
    }
    for numbers in held.as_numbers.iter() {
        writeln!(out, "  AS{}-AS{}", numbers.start(), numbers.end())?;
    }
    out.flush()
}

fn print_fault(fault: &Fault) -> io::Result<()> {
    let place = match fault.place() {
        Some(Place::Member(at)) => format!("member {at}"),
        Some(Place::List(at)) => format!("list {at}"),
        _ => "locator".to_owned(),
    };
    let (number, name, sentence) = (fault.number(), fault.name(), fault.sentence());
    let mut out = io::stdout().lock();
    writeln!(out, "refused: {place}, fault {number}, {name}: {sentence}")?;
    out.flush()
}

/// The beginning of a day that is written YYYY-MM-DD.
fn moment(day: &str) -> Result<Moment, String> {
    let is_in_place = |(at, octet): (usize, u8)| match at {
        4 | 7 => octet == b'-',
        _ => octet.is_ascii_digit(),
    };
    if day.len() != 10 || !day.bytes().enumerate().all(is_in_place) {
        return Err(format!("{day}: the day isn't YYYY-MM-DD"));
    }
    day.parse().map_err(|_| format!("{day}: no such day"))
}

/// The kind of the last member.
fn kind(word: &str) -> Result<Kind, String> {
    match word {
        "authority" => Ok(Kind::Authority),
        "ee" => Ok(Kind::EndEntity),
        "detached" => Ok(Kind::Detached),
        "router" => Ok(Kind::Router),
        _ => Err(format!(
            "{word}: the last member is authority, ee, detached or router"
        )),
    }
}

/// The octets of a file, which has some, and at most `MOST`.
fn contents(file: &OsString) -> Result<Vec<u8>, String> {
    let (mut octets, name) = (Vec::new(), file.to_string_lossy());
    File::open(file)
        .and_then(|file| file.take(MOST + 1).read_to_end(&mut octets))
        .map_err(|error| format!("{name}: {error}"))?;
    match octets.len() as u64 {
        0 => Err(format!("{name}: the file is empty")),
        length if length > MOST => Err(format!("{name}: the file has more than 64 MiB")),
        _ => Ok(octets),
    }
}

/// The path, of which these options waive checks.
fn waive<'a>(path: Path<'a>, waived: &[&str]) -> Path<'a> {
    waived.iter().fold(path, |path, option| match *option {
        "--no-names" => path.without_names(),
        "--any-key" => path.with_any_key(),
        _ => path.lenient(),
    })
}

/// Prints the verdict. Errs with what isn't as it has to be.
fn run(mut words: &[OsString]) -> Result<ExitCode, String> {
    let unwritten = |error: io::Error| format!("output: {error}");
    let mut waived = Vec::new();
    while let [option, rest @ ..] = words {
        match OPTIONS.iter().find(|it| option == OsStr::new(it)) {
            Some(option) => waived.push(*option),
            None => break,
        }
        words = rest;
    }
    let mut lists = Vec::new();
    while let [option, list, rest @ ..] = words {
        if option != OsStr::new("-l") {
            break;
        }
        lists.push(contents(list)?);
        words = rest;
    }
    let mut locator = None;
    if let [option, file, rest @ ..] = words {
        if option == OsStr::new("-t") {
            locator = Some(contents(file)?);
            words = rest;
        }
    }
    let (day, last) = match words {
        [day, last, _, ..] => (day, last),
        _ => return Err(USAGE.to_owned()),
    };
    let files = &words[2..];
    let (last, now) = (
        kind(&last.to_string_lossy())?,
        moment(&day.to_string_lossy())?,
    );
    let members: Vec<Vec<u8>> = files.iter().map(contents).collect::<Result<_, _>>()?;
    let asked = if lists.is_empty() {
        Revocation::NotAsked
    } else {
        Revocation::by_lists(&lists)
    };
    let anchor = locator.as_deref().map_or(Anchor::AsGiven, Anchor::Located);
    let path = waive(Path::new(&members, last, asked, anchor), &waived);
    match path.validate(now) {
        Ok(held) => {
            print(&held).map_err(unwritten)?;
            Ok(ExitCode::SUCCESS)
        }
        Err(fault) => match fault.kind() {
            FaultKind::Memory => Err("there is no more memory".to_owned()),
            FaultKind::BadCall => Err("no such day, or too few members".to_owned()),
            _ => {
                print_fault(&fault).map_err(unwritten)?;
                Ok(ExitCode::from(1))
            }
        },
    }
}

fn main() -> ExitCode {
    let words: Vec<OsString> = env::args_os().skip(1).collect();
    run(&words).unwrap_or_else(|error| {
        let _ = writeln!(io::stderr(), "validate: {error}");
        ExitCode::from(2)
    })
}
