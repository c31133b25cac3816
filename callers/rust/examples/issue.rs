//! Prepares and completes a CA's certificate, whose issuer's key lies elsewhere.
//!
//! usage: issue prepare KEY.der TAL MEMBER.cer.. > TBS
//!        issue complete TBS SIGNATURE TAL MEMBER.cer.. > CERTIFICATE
//!
//! KEY.der is the subject's SubjectPublicKeyInfo. The last of the certificates issues, and the first is
//! the trust anchor, whose key the TAL has. Revocation isn't checked here. What `prepare` writes is to be
//! signed by the issuer's key:
//!
//!     openssl dgst -sha256 -sign ca.key -out SIGNATURE TBS
//!
//! Ends with 0 if the bytes are written, with 1 if there is a fault, and with 2 if the words or a file
//! are not as above.
use gonxebhula::{Anchor, Issuer, Kind, Moment, Resources, Revocation, Uri, Wanted};
use std::error::Error;
use std::io::Write;
use std::net::Ipv4Addr;
use std::process::ExitCode;

const URIS: [(Uri, &str); 4] = [
    (Uri::Repository, "rsync://rpki.example.net/repo/ca/"),
    (Uri::Manifest, "rsync://rpki.example.net/repo/ca/ca.mft"),
    (Uri::CaIssuer, "rsync://rpki.example.net/repo/above.cer"),
    (Uri::Crl, "rsync://rpki.example.net/repo/above.crl"),
];
const USAGE: &str = "usage: issue prepare KEY.der TAL MEMBER.cer..\n       \
                     issue complete TBS SIGNATURE TAL MEMBER.cer..";

/// A CA with the number 2, which holds 10.1.0.0/16 for a year.
fn wanted<'a>(key: &'a [u8], now: Moment) -> Wanted<'a> {
    let mut serial_number = [0; 20];
    serial_number[19] = 2;
    let until = Moment::from_timestamp(now.timestamp() as u64 + 365 * 86_400);
    let mut it = Wanted::new(
        Kind::Authority,
        key,
        serial_number,
        now,
        until.unwrap_or(now),
    );
    let range = (Ipv4Addr::new(10, 1, 0, 0), Ipv4Addr::new(10, 1, 255, 255));
    it.ipv4 = Resources::Listed(vec![range]);
    it.uris = &URIS;
    it
}

/// The bytes that the words ask for, or `None` if there are no such words.
fn answer(words: &[String]) -> Result<Option<Vec<u8>>, Box<dyn Error>> {
    let (given, rest) = match words {
        [word, rest @ ..] if word == "prepare" && rest.len() > 2 => rest.split_at(1),
        [word, rest @ ..] if word == "complete" && rest.len() > 3 => rest.split_at(2),
        _ => return Ok(None),
    };
    let read = |names: &[String]| {
        names
            .iter()
            .map(std::fs::read)
            .collect::<Result<Vec<_>, _>>()
    };
    let (given, tal, members) = (read(given)?, std::fs::read(&rest[0])?, read(&rest[1..])?);
    let (asked, now) = (Revocation::NotAsked, Moment::now());
    let issuer = Issuer::new(&members, asked, Anchor::Located(&tal), now);
    Ok(Some(match &given[..] {
        [key] => issuer.prepare(&wanted(key, now))?,
        [prepared, signature, ..] => {
            let certificate = issuer.complete(Kind::Authority, prepared, signature)?;
            certificate.as_bytes().to_vec()
        }
        [] => return Ok(None),
    }))
}

fn main() -> ExitCode {
    let words: Vec<String> = std::env::args().skip(1).collect();
    match answer(&words) {
        Ok(Some(octets)) => match std::io::stdout().write_all(&octets) {
            Ok(()) => ExitCode::SUCCESS,
            Err(_) => ExitCode::from(2),
        },
        Ok(None) => {
            eprintln!("{USAGE}");
            ExitCode::from(2)
        }
        Err(error) => {
            eprintln!("issue: {error}");
            ExitCode::from(1 + u8::from(error.is::<std::io::Error>()))
        }
    }
}
