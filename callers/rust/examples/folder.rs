//! Judges certificates and CRLs in any order, below the trust anchor of a TAL.
//!
//! usage: folder TAL FILE..
//!
//! Prints a line for each file. Ends with 0 if all certificates are valid, with 1 if one isn't, or the
//! trust anchor isn't, and with 2 if a file can't be read.
use gonxebhula::{Fault, Folder, Judged, Line, Moment};
use std::fs;
use std::process::ExitCode;

fn text(line: &Line, files: &[String]) -> String {
    let says = match line {
        Line::Anchor => "trust anchor",
        Line::Accepted { .. } => "accepted",
        Line::Rejected { fault, .. } => return format!("rejected: {fault}"),
        Line::NoIssuer => "no issuer here",
        Line::NotIssued { .. } => "not issued by a CA here",
        Line::IssuerNotCa { .. } => "issuer isn't a CA",
        Line::NotLookedAt { .. } => "not looked at",
        Line::BelowRejected { .. } => "below a rejected CA",
        Line::BelowUnseen { .. } => "below an unjudged CA",
        Line::List => "CRL",
        _ => "neither a certificate nor a CRL",
    };
    match line.issuer() {
        Some(issuer) => format!("{says}, issuer {}", files[issuer]),
        None => says.to_owned(),
    }
}

fn judge(tal: &str, files: &[String]) -> std::io::Result<Result<Judged, Fault>> {
    let tal = fs::read(tal)?;
    let contents: Vec<Vec<u8>> = files.iter().map(fs::read).collect::<Result<_, _>>()?;
    Ok(Folder::new(&contents, &tal).judge(Moment::now()))
}

fn main() -> ExitCode {
    let words: Vec<String> = std::env::args().skip(1).collect();
    let (tal, files) = match &words[..] {
        [tal, files @ ..] => (tal, files),
        [] => {
            eprintln!("usage: folder TAL FILE..");
            return ExitCode::from(2);
        }
    };
    let judged = match judge(tal, files) {
        Ok(Ok(judged)) => judged,
        Ok(Err(fault)) => {
            println!("rejected: {fault}");
            return ExitCode::from(1);
        }
        Err(error) => {
            eprintln!("folder: {error}");
            return ExitCode::from(2);
        }
    };
    for (file, line) in files.iter().zip(&judged.lines) {
        println!("{file}: {}", text(line, files));
    }
    for it in &judged.limited {
        let needed = match it.steps_needed {
            Some(steps) => format!("; at least {steps} steps are needed"),
            None => String::new(),
        };
        let ca = &files[it.ca];
        println!("{ca}: a limit was reached, so its children aren't validated{needed}");
    }
    let is_wrong = |line: &Line| matches!(line, Line::Rejected { .. }) || line.is_unjudged();
    ExitCode::from(judged.lines.iter().any(is_wrong) as u8)
}
