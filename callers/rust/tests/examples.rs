//! Tests the crate over the files of examples/, whose contents examples/make.sh says.
use gonxebhula::{
    ipv4_prefixes, ipv6_prefixes, Anchor, Certificate, Fault, FaultCode, FaultKind, Folder,
    Holdings, Judged, Kind, LimitedCa, Line, Moment, Path, Place, Resources, Revocation,
    RevocationList, Uri,
};
use std::net::{IpAddr, Ipv4Addr, Ipv6Addr};
use std::sync::Arc;
use std::time::{Duration, SystemTime, UNIX_EPOCH};

const NOON: [u16; 6] = [2026, 6, 1, 12, 0, 0];

fn at(parts: [u16; 6]) -> Moment {
    let [year, month, day, hour, minute, second] = parts;
    let parts = [month, day, hour, minute, second].map(|part| part as u8);
    Moment::new(year, parts[0], parts[1], parts[2], parts[3], parts[4]).unwrap()
}

fn octets(name: &str) -> Vec<u8> {
    let folder = concat!(env!("CARGO_MANIFEST_DIR"), "/../../examples");
    std::fs::read(format!("{folder}/{name}")).unwrap()
}

/// A file of tests/files, of which make.py there and tests/verdicts say.
fn odd(name: &str) -> Vec<u8> {
    let folder = concat!(env!("CARGO_MANIFEST_DIR"), "/../../tests/files");
    std::fs::read(format!("{folder}/{name}")).unwrap()
}

/// The TAL of a trust anchor of tests/files.
fn locator_of(anchor: &[u8]) -> Vec<u8> {
    const DIGITS: &[u8] = b"ABCDEFGHIJKLMNOPQRSTUVWXYZabcdefghijklmnopqrstuvwxyz0123456789+/";
    let mut file = b"rsync://rpki.example.net/repo/ta.cer\n\n".to_vec();
    for three in Certificate::read(anchor)
        .unwrap()
        .public_key()
        .unwrap()
        .chunks(3)
    {
        let bits = (0..3).fold(0, |bits, at| {
            bits << 8 | usize::from(*three.get(at).unwrap_or(&0))
        });
        let digit = |at: usize| match at <= three.len() {
            true => DIGITS[bits >> (18 - 6 * at) & 63],
            false => b'=',
        };
        file.extend((0..4).map(digit));
    }
    file.push(b'\n');
    file
}

fn number(last: u8) -> [u8; 20] {
    let mut octets = [0; 20];
    octets[19] = last;
    octets
}

/// The octets of the path of examples/ and of its lists.
fn example() -> (Vec<Vec<u8>>, Vec<Vec<u8>>) {
    let members = ["anchor.cer", "first.cer", "second.cer", "object.cer"];
    let lists = ["first.crl", "second.crl", "object.crl"];
    (members.map(octets).to_vec(), lists.map(octets).to_vec())
}

#[test]
fn certificates_are_read() {
    let it = Certificate::read(&octets("first.cer")).unwrap();
    let anchor = Certificate::read(&octets("anchor.cer")).unwrap();
    assert_eq!(it.serial_number(), number(2));
    assert_eq!(it.not_before().to_string(), "2026-01-01T00:00:00Z");
    assert_eq!(it.not_after().to_string(), "2036-01-01T00:00:00Z");
    assert!(it.is_authority() && !it.trims_resources());
    let key = anchor.subject_key_identifier();
    assert_eq!(it.authority_key_identifier(), Some(key));
    assert_eq!(it.issuer().unwrap(), anchor.subject().unwrap());
    // openssl x509 -nameopt RFC2253 prints the names so
    let hexadecimal = |id: [u8; 20]| id.map(|octet| format!("{octet:02X}")).concat();
    let (above, own) = (hexadecimal(key), hexadecimal(it.subject_key_identifier()));
    assert_eq!(it.issuer_text().unwrap(), format!("CN={above}"));
    assert_eq!(it.subject_text().unwrap(), format!("CN={own}"));
    let uri = it.uri(Uri::Manifest).unwrap();
    assert_eq!(
        uri.unwrap(),
        "rsync://rpki.example.net/repo/first/first.mft"
    );
    assert_eq!(it.uri(Uri::SignedObject).unwrap(), None);
    assert_eq!(anchor.authority_key_identifier(), None);
    assert!(it.signs_certificates());
    let object = Certificate::read(&octets("object.cer")).unwrap();
    assert!(!object.is_authority() && !object.signs_certificates());
    // a CA by Basic Constraints, whose key usage is an end entity's: 03 02 07 80 for 03 02 01 06
    let mut other = octets("first.cer");
    let usage = other.windows(4).position(|it| it == [3, 2, 1, 6]).unwrap();
    other[usage..usage + 4].copy_from_slice(&[3, 2, 7, 0x80]);
    let other = Certificate::read(&other).unwrap();
    assert!(other.is_authority() && !other.signs_certificates());
    let trims = Certificate::read(&odd("trim.cer")).unwrap();
    assert!(trims.trims_resources());
}

/// Strictness is of names here: one of the file is a UTF8String.
#[test]
fn strings_of_names_are_checked() {
    let members = ["ta.cer", "ca1.cer", "odd_name_utf8.cer"].map(odd);
    let it = Certificate::read(&members[2]).unwrap();
    let fault = it.inspect(Kind::Authority, true).unwrap_err();
    assert_eq!(fault.code(), FaultCode::InspectionSubject);
    assert!(it.inspect(Kind::Authority, false).is_ok());
    let asked = Revocation::NotAsked;
    let path = Path::new(&members, Kind::Authority, asked, Anchor::AsGiven);
    rejected(&path, NOON, "Subject", Some(Place::Member(2)));
    assert!(path.lenient().validate(at(NOON)).is_ok());
    let mut strings = members.to_vec();
    strings.extend(["ta.crl", "ca1.crl"].map(odd));
    let locator = locator_of(&members[0]);
    let folder = Folder::new(&strings, &locator);
    let valid = |it: Folder<'_>| it.judge(at(NOON)).unwrap().lines[2].is_valid();
    assert!(!valid(folder.clone()) && valid(folder.lenient()));
}

#[test]
fn resources_are_listed_inherited_or_missing() {
    let it = Certificate::read(&octets("first.cer")).unwrap();
    let v4 = |a, b, c, d| Ipv4Addr::new(a, b, c, d);
    let listed = vec![
        (v4(10, 0, 0, 0), v4(10, 15, 255, 255)),
        (v4(10, 32, 0, 0), v4(10, 40, 255, 255)),
    ];
    assert_eq!(it.ipv4().unwrap(), Resources::Listed(listed));
    let ends = ["2001:db8::", "2001:db8:ff:ffff:ffff:ffff:ffff:ffff"];
    let ends = ends.map(|end| end.parse::<Ipv6Addr>().unwrap());
    assert_eq!(
        it.ipv6().unwrap(),
        Resources::Listed(vec![(ends[0], ends[1])])
    );
    let systems = vec![64500..=64503, 64510..=64510];
    assert_eq!(it.as_numbers().unwrap(), Resources::Listed(systems));

    let inherits = Certificate::read(&octets("second.cer")).unwrap();
    assert_eq!(inherits.ipv4().unwrap(), Resources::Inherited);
    let misses = Certificate::read(&octets("object.cer")).unwrap();
    assert_eq!(misses.as_numbers().unwrap(), Resources::Missing);
}

#[test]
fn lists_are_read() {
    let it = RevocationList::read(&octets("revoked.crl")).unwrap();
    assert_eq!(it.number(), number(2));
    let entries = it.entries().unwrap();
    assert_eq!(entries.len(), 1);
    assert_eq!(entries[0].serial_number, number(3));
    assert_eq!(entries[0].revoked_at.to_string(), "2026-02-01T00:00:00Z");
    assert!(it.contains(&number(3)).unwrap() && !it.contains(&number(2)).unwrap());
    let asked = [number(2), number(3), [0; 20], number(3)];
    assert_eq!(
        it.contains_each(&asked).unwrap(),
        [false, true, false, true]
    );
    assert!(it.contains_each(&[]).unwrap().is_empty());
    assert_eq!(it.this_update().to_string(), "2026-01-01T00:00:00Z");
    assert_eq!(it.next_update().to_string(), "2036-01-01T00:00:00Z");
}

#[test]
fn other_octets_are_rejected() {
    let fault = Certificate::read(&octets("first.crl")).unwrap_err();
    assert_eq!((fault.kind(), fault.place()), (FaultKind::Decode, None));
    let fault = RevocationList::read(b"").unwrap_err();
    assert_eq!(fault.name(), "Truncated");
    let shown = format!("{fault:?}");
    assert_eq!(
        shown,
        r#"Fault { number: 100, name: "Truncated", place: None }"#
    );
    assert_eq!((fault.octet(), fault.field()), (Some(0), Some(OUTER)));
    let ee = Certificate::read(&octets("object.cer")).unwrap();
    assert!(ee.inspect(Kind::EndEntity, true).is_ok());
    assert!(ee.inspect(Kind::Detached, true).is_ok());
    let fault = ee.inspect(Kind::Authority, true).unwrap_err();
    assert_eq!(fault.kind(), FaultKind::Inspection);
    assert_eq!(fault.name(), "MissingBasicConstraints");
    let nowhere = (fault.octet(), fault.field(), fault.wanted(), fault.found());
    assert_eq!(nowhere, (None, None, None, None));
}

const OUTER: &str = "the outer SEQUENCE";
const SERIAL: &str = "the serial number";

#[test]
fn where_reading_stops_is_told() {
    let stop = |fault: Fault| (fault.octet().unwrap(), fault.field().unwrap().to_owned());
    let cert = octets("first.cer");
    // 30 82 .. 30 82 .. a0 03 02 01 02, and then the serial number: 02 01 02
    assert_eq!(cert[13..16], [2, 1, 2]);
    let mut damaged = cert.clone();
    damaged[15] = 0x80;
    let fault = Certificate::read(&damaged).unwrap_err();
    let wanted = "an INTEGER that isn't negative, of at most 20 bytes (RFC 5280 4.1.2.2)";
    assert_eq!(fault.wanted(), Some(wanted));
    assert_eq!(fault.found(), Some("a negative number"));
    assert_eq!(stop(fault), (13, SERIAL.to_owned()));
    let cut = &cert[..cert.len() - 1];
    let fault = Certificate::read(cut).unwrap_err();
    assert_eq!(stop(fault), (0, OUTER.to_owned()));
    // of a path, and of its lists
    let (members, lists) = example();
    let path = Path::new(
        [&members[0], &damaged],
        Kind::Authority,
        Revocation::NotAsked,
        Anchor::AsGiven,
    );
    let fault = rejected(&path, NOON, "BadValue", Some(Place::Member(1)));
    assert_eq!(stop(fault), (13, SERIAL.to_owned()));
    let asked = Revocation::by_lists([&lists[0], &members[0]]);
    let path = Path::new(&members[..2], Kind::Authority, asked, Anchor::AsGiven);
    let fault = path.validate(at(NOON)).unwrap_err();
    assert_eq!(fault.place(), Some(Place::List(1)));
    assert_eq!(
        fault.to_string(),
        format!("list 1: {} ({})", fault.sentence(), fault.name())
    );
    assert_eq!(stop(fault), (8, "the version".to_owned()));
}

#[test]
fn a_path_is_accepted() {
    let ((members, lists), locator) = (example(), octets("anchor.tal"));
    let asked = Revocation::by_lists(&lists);
    let located = Anchor::Located(&locator);
    let path = Path::new(&members, Kind::EndEntity, asked, located);
    let held = path.validate(at(NOON)).unwrap();
    let (min, max) = (Ipv4Addr::new(10, 1, 2, 0), Ipv4Addr::new(10, 1, 2, 255));
    assert_eq!(*held.ipv4, [(min, max)]);
    assert!(held.ipv6.is_empty() && held.as_numbers.is_empty());
    // certificates and lists that were read, and slices
    let certificates: Vec<_> = members
        .iter()
        .map(|it| Certificate::read(it).unwrap())
        .collect();
    let read: Vec<_> = lists
        .iter()
        .map(|it| RevocationList::read(it).unwrap())
        .collect();
    let asked = Revocation::by_lists(&read);
    let path = Path::new(&certificates, Kind::EndEntity, asked, located);
    assert_eq!(path.validate(at(NOON)).as_ref(), Ok(&held));
    let asked = Revocation::ByLists(lists.iter().map(Vec::as_slice).collect());
    let slices = members.iter().map(Vec::as_slice);
    let path = Path::new(slices, Kind::EndEntity, asked, located);
    assert_eq!(path.validate(at(NOON)), Ok(held));
}

fn rejected(path: &Path<'_>, now: [u16; 6], name: &str, place: Option<Place>) -> Fault {
    let fault = path.validate(at(now)).unwrap_err();
    assert_eq!((fault.name().as_str(), fault.place()), (name, place));
    fault
}

#[test]
fn paths_are_rejected() {
    let (members, lists) = example();
    let (revoked, tampered) = (octets("revoked.crl"), octets("tampered.cer"));
    let under = |asked| Path::new(&members[..3], Kind::Authority, asked, Anchor::AsGiven);
    let path = under(Revocation::NotAsked);
    let late = [2036, 1, 1, 0, 0, 1];
    let anchors = Some(Place::Member(0));
    rejected(&path, late, "Expired", anchors);
    assert!(path.validate(at([2036, 1, 1, 0, 0, 0])).is_ok());
    let fault = rejected(
        &under(Revocation::by_lists([&lists[0], &revoked])),
        NOON,
        "Revoked",
        Some(Place::Member(2)),
    );
    assert_eq!(fault.to_string(), "member 2: certificate revoked (Revoked)");
    rejected(
        &under(Revocation::ByLists(Vec::new())),
        NOON,
        "NoCrl",
        Some(Place::Member(1)),
    );
    let path = under(Revocation::by_lists([&lists[0], &members[0]]));
    let fault = path.validate(at(NOON)).unwrap_err();
    assert_eq!(
        (fault.kind(), fault.place()),
        (FaultKind::Decode, Some(Place::List(1)))
    );
    // two lists one behind the other, and an octet behind one
    for more in [&revoked[..], &[0]] {
        let behind = [&lists[1][..], more].concat();
        let asked = Revocation::by_lists([&lists[0], &behind]);
        let path = Path::new(&members[..3], Kind::Authority, asked, Anchor::AsGiven);
        let fault = rejected(&path, NOON, "Trailing", Some(Place::List(1)));
        assert_eq!((fault.octet(), fault.field()), (None, None));
    }
    let other = [&members[0], &members[1], &tampered];
    let asked = Revocation::NotAsked;
    let path = Path::new(other, Kind::Authority, asked, Anchor::AsGiven);
    let fault = rejected(&path, NOON, "BadSignature", Some(Place::Member(2)));
    assert_eq!(fault.kind(), FaultKind::Verification);
}

#[test]
fn locators_are_asked() {
    let ((members, _), locator) = (example(), octets("anchor.tal"));
    let to = |members, file| {
        let located = Anchor::Located(file);
        Path::new(members, Kind::Authority, Revocation::NotAsked, located)
    };
    let path = to(&members[1..3], &locator);
    let fault = rejected(&path, NOON, "OtherKey", Some(Place::Member(0)));
    assert_eq!(fault.kind(), FaultKind::Locator);
    let path = to(&members[..1], b"\n");
    rejected(&path, NOON, "NoUri", None);
    // a TAL without a byte is one, and not none
    let fault = to(&members[..1], b"").validate(at(NOON)).unwrap_err();
    assert_eq!((fault.kind(), fault.place()), (FaultKind::Locator, None));
    let folder = ["ta.tal", "ta_no_systems.cer"].map(|name| odd(&format!("bare/{name}")));
    let path = to(&folder[1..], &folder[0]);
    let fault = rejected(&path, NOON, "NoResources", Some(Place::Member(0)));
    assert_eq!(fault.kind(), FaultKind::Locator);
}

fn judged(names: &[&str], ask: impl Fn(Folder<'_>) -> Folder<'_>) -> Judged {
    let owned: Vec<_> = names.iter().map(|name| octets(name)).collect();
    let locator = octets("anchor.tal");
    let folder = Folder::new(&owned, &locator);
    ask(folder).judge(at(NOON)).unwrap()
}

#[test]
fn folders_are_judged() {
    let names = [
        "object.crl",
        "second.cer",
        "anchor.cer",
        "first.crl",
        "tampered.cer",
        "object.cer",
        "make.sh",
        "first.cer",
        "second.crl",
    ];
    let it = judged(&names, |folder| folder);
    assert!(it.is_whole && it.anchor == 2);
    let accepted = |line: &Line, at_step, below, as_kind, path: &[&str]| {
        let members: Vec<_> = path.iter().map(|name| octets(name)).collect();
        let path = Path::new(&members, as_kind, Revocation::NotAsked, Anchor::AsGiven);
        let wanted = (at_step, below, as_kind, path.validate(at(NOON)).unwrap());
        match line.clone() {
            Line::Accepted {
                step,
                issuer,
                kind,
                held,
                ..
            } => assert_eq!((step, issuer, kind, held), wanted),
            other => panic!("{other:?}"),
        }
    };
    let ca = Kind::Authority;
    let path = ["anchor.cer", "first.cer", "second.cer", "object.cer"];
    accepted(&it.lines[1], 2, 7, ca, &path[..3]);
    accepted(&it.lines[5], 3, 1, Kind::EndEntity, &path);
    accepted(&it.lines[7], 1, 2, ca, &path[..2]);
    match it.lines[4].clone() {
        Line::Rejected {
            step: 2,
            fault,
            kind: Kind::Authority,
            ..
        } => assert_eq!(
            (fault.name().as_str(), fault.place()),
            ("BadSignature", None)
        ),
        other => panic!("{other:?}"),
    }
    assert_eq!(it.lines[2], Line::Anchor);
    assert_eq!(it.lines[6], Line::Neither);
    for crl in [0, 3, 8] {
        assert_eq!(it.lines[crl], Line::List);
    }
    assert_eq!(it.lines.len(), 9);
    let valid = |it: &Judged| it.lines.iter().filter(|line| line.is_valid()).count();
    let shallow = judged(&names, |folder| folder.depth(2));
    assert!(!shallow.is_whole && valid(&shallow) == 3);
    let limits = |it: &Judged| {
        let limits = |it: &LimitedCa| (it.ca, it.at_depth, it.out_of_steps, it.steps_needed);
        it.limited.iter().map(limits).collect::<Vec<_>>()
    };
    assert_eq!(limits(&shallow), [(1, true, false, None)]);
    let short = judged(&names, |folder| folder.steps(1));
    assert!(!short.is_whole && valid(&short) == 2);
    assert_eq!(limits(&short), [(7, false, true, Some(2))]);
    let without = judged(&["anchor.cer", "first.cer"], |folder| folder.lenient());
    assert!(without.is_whole && !without.lines[1].is_valid());
}

/// Each holds other addresses of both families, and other AS numbers.
#[test]
fn a_line_has_what_its_certificate_holds() {
    let names = [
        "ta.cer", "ta.crl", "ca1.cer", "ca1.crl", "ca2.cer", "ca2.crl",
    ];
    let strings = names.map(odd);
    let locator = locator_of(&strings[0]);
    let it = Folder::new(&strings, &locator).judge(at(NOON)).unwrap();
    let mut members = vec![&strings[0]];
    for place in [2, 4] {
        members.push(&strings[place]);
        let (asked, anchor) = (Revocation::NotAsked, Anchor::AsGiven);
        let path = Path::new(members.iter().copied(), Kind::Authority, asked, anchor);
        let wanted = path.validate(at(NOON)).unwrap();
        assert!(wanted.ipv4.len() > 1 && wanted.ipv6.len() > 1 && wanted.as_numbers.len() > 1);
        match &it.lines[place] {
            Line::Accepted { held, .. } => assert_eq!(*held, wanted),
            other => panic!("{other:?}"),
        }
    }
}

/// The keys of tests/files/keyed, of which make.py there says.
#[test]
fn keys_of_folders_are_checked() {
    let names = [
        "ta.cer",
        "ta.crl",
        "ca_1024.cer",
        "ca_2048.cer",
        "router.cer",
    ];
    let strings = names.map(|name| odd(&format!("keyed/{name}")));
    let locator = odd("keyed/ta.tal");
    let folder = Folder::new(&strings, &locator);
    let judged = |folder: Folder<'_>| folder.judge(at(NOON)).unwrap().lines;
    let valid = |lines: &[Line]| lines.iter().map(Line::is_valid).collect::<Vec<_>>();
    let lines = judged(folder.clone());
    assert_eq!(valid(&lines), [true, false, false, true, true]);
    match &lines[2] {
        Line::Rejected { fault, .. } => assert_eq!(fault.code(), FaultCode::BadKey),
        other => panic!("{other:?}"),
    }
    match &lines[4] {
        Line::Accepted { kind, .. } => assert_eq!(*kind, Kind::Router),
        other => panic!("{other:?}"),
    }
    let lines = judged(folder.with_any_key());
    assert_eq!(valid(&lines), [true, false, true, true, true]);
}

/// The names of tests/files/named, of which make.py there says.
#[test]
fn names_of_folders_are_asked() {
    let folder = concat!(env!("CARGO_MANIFEST_DIR"), "/../../tests/files/named");
    let read = |name: &str| std::fs::read(format!("{folder}/{name}")).unwrap();
    let june = at([2025, 6, 1, 0, 0, 0]);
    let locator = read("ta.tal");
    let mut files = ["ta.cer", "ta.crl", "ca.cer", "ca_other_case.cer"].map(read);
    let valid = |it: Judged| it.lines.iter().map(Line::is_valid).collect::<Vec<_>>();
    let asked = Folder::new(&files, &locator).judge(june).unwrap();
    assert!(matches!(asked.lines[3], Line::NotIssued { issuer: 0, .. }));
    assert_eq!(valid(asked), [true, false, true, false]);
    let waived = Folder::new(&files, &locator).without_names();
    assert_eq!(
        valid(waived.judge(june).unwrap()),
        [true, false, true, true]
    );
    files[0] = read("ta_of_two_names.cer");
    let waived = Folder::new(&files, &locator).without_names();
    assert!(waived.judge(june).unwrap().lines[0].is_valid());
    let fault = Folder::new(&files, &locator).judge(june).unwrap_err();
    assert_eq!(
        (fault.name().as_str(), fault.place()),
        ("OtherName", Some(Place::Member(0)))
    );
}

/// The files of tests/added, of which reference/added.py says: why there is no verdict on the last one of
/// these, and which one is its issuer, in this order and from behind.
#[test]
fn certificates_without_a_verdict_say_why() {
    let folder = concat!(env!("CARGO_MANIFEST_DIR"), "/../../tests/added");
    let read = |name: &str| std::fs::read(format!("{folder}/{name}")).unwrap();
    let locator = read("ta.tal");
    let why = |line: &Line| match line {
        Line::NoIssuer => "no issuer",
        Line::NotIssued { .. } => "not issued",
        Line::IssuerNotCa { .. } => "not a CA",
        Line::NotLookedAt { .. } => "limited",
        Line::BelowRejected { .. } => "rejected",
        Line::BelowUnseen { .. } => "unseen",
        other => panic!("{other:?}"),
    };
    for (names, depth, wanted, issuer) in [
        ("ta.cer ta.crl a.cer a.crl be.cer", 0, "no issuer", None),
        ("ta.cer ta.crl a.cer a.crl re.cer", 0, "not issued", Some(2)),
        (
            "ta.cer ta.crl b.cer b.crl be.cer le.cer",
            0,
            "not a CA",
            Some(4),
        ),
        ("ta.cer ta.crl b.cer b.crl be.cer", 1, "limited", Some(2)),
        ("ta.cer b.cer b.crl be.cer", 0, "rejected", Some(1)),
        ("ta.cer ta.crl b-c.cer c.crl ce.cer", 0, "unseen", Some(2)),
    ] {
        let mut files: Vec<_> = names.split(' ').map(read).collect();
        let last = files.len() - 1;
        for is_backward in [false, true] {
            let place = |at: usize| if is_backward { last - at } else { at };
            let asked = Folder::new(&files, &locator).depth(depth);
            let it = asked.judge(at([2025, 6, 1, 0, 0, 0])).unwrap();
            let line = &it.lines[place(last)];
            assert_eq!((why(line), line.issuer()), (wanted, issuer.map(place)));
            assert!(line.is_unjudged() && !line.is_valid());
            let limited: Vec<_> = it.limited.iter().map(|it| Some(it.ca)).collect();
            assert_eq!(limited.contains(&line.issuer()), depth == 1);
            let anchor = &it.lines[place(0)];
            assert!(!anchor.is_unjudged() && anchor.issuer().is_none());
            files.reverse();
        }
    }
}

#[test]
fn anchors_of_folders_are_asked() {
    let strings = ["first.cer", "anchor.cer"].map(octets);
    let locator = octets("anchor.tal");
    let folder = Folder::new(&strings, &locator);
    let fault = folder.judge(at([2036, 1, 1, 0, 0, 1])).unwrap_err();
    assert_eq!(
        (fault.name().as_str(), fault.place()),
        ("Expired", Some(Place::Member(1)))
    );
    for (strings, locator, name) in [
        (&strings[..1], &locator[..], "OtherKey"),
        (&strings[..0], &locator[..], "OtherKey"),
        (&strings[..], b"\n", "NoUri"),
    ] {
        let fault = Folder::new(strings, locator).judge(at(NOON)).unwrap_err();
        assert_eq!((fault.name().as_str(), fault.place()), (name, None));
        assert_eq!(fault.kind(), FaultKind::Locator);
    }
    // the anchor of tests/files/bare lists no AS numbers and no addresses
    let strings = ["ca.cer", "ta_no_systems.cer"].map(|name| odd(&format!("bare/{name}")));
    let locator = odd("bare/ta.tal");
    let fault = Folder::new(&strings, &locator).judge(at(NOON)).unwrap_err();
    assert_eq!(
        (fault.name().as_str(), fault.place()),
        ("NoResources", Some(Place::Member(1)))
    );
}

#[test]
fn wrong_calls_are_told() {
    let members = ["anchor.cer", "first.cer"].map(octets);
    for (count, last, text) in [
        (0, Kind::Authority, "there are no certificates (BadCall)"),
        (
            1,
            Kind::EndEntity,
            "there are too few certificates: one of this kind has an issuer (BadCall)",
        ),
        (
            1,
            Kind::Detached,
            "there are too few certificates: one of this kind has an issuer (BadCall)",
        ),
        (
            1,
            Kind::Router,
            "there are too few certificates: one of this kind has an issuer (BadCall)",
        ),
        (
            2,
            Kind::TrustAnchor,
            "the last of several certificates is a trust anchor (BadCall)",
        ),
    ] {
        let asked = Revocation::NotAsked;
        let path = Path::new(&members[..count], last, asked, Anchor::AsGiven);
        let fault = path.validate(at(NOON)).unwrap_err();
        assert_eq!(
            (fault.kind(), fault.code()),
            (FaultKind::BadCall, FaultCode::BadCall)
        );
        assert_eq!(fault.to_string(), text);
    }
}

#[test]
fn moments_are_those_of_the_calendar() {
    for (seconds, text) in [
        (0, "1970-01-01T00:00:00Z"),
        (951_782_400, "2000-02-29T00:00:00Z"),
        (1_000_000_000, "2001-09-09T01:46:40Z"),
        (4_107_542_399, "2100-02-28T23:59:59Z"),
        (4_107_542_400, "2100-03-01T00:00:00Z"),
        (253_402_300_799, "9999-12-31T23:59:59Z"),
    ] {
        let moment = Moment::from_timestamp(seconds).unwrap();
        assert_eq!(moment.to_string(), text);
        assert_eq!(moment.timestamp(), seconds as i64);
        assert_eq!(
            SystemTime::from(moment),
            UNIX_EPOCH + Duration::from_secs(seconds)
        );
        assert_eq!(text.parse(), Ok(moment));
        let time = UNIX_EPOCH + Duration::from_secs(seconds);
        assert_eq!(Moment::try_from(time), Ok(moment));
    }
    assert!(Moment::now() > at([2024, 1, 1, 0, 0, 0]));
    assert_eq!("2026-06-01".parse(), Ok(at([2026, 6, 1, 0, 0, 0])));
    // the seconds before 1970 as `date -u -d .. +%s` has them
    for (text, seconds) in [
        ("1969-12-31T23:59:59Z", -1),
        ("1900-03-01T00:00:00Z", -2_203_891_200),
        ("1950-01-01T00:00:00Z", -631_152_000),
        ("0000-01-01T00:00:00Z", -62_167_219_200),
    ] {
        let moment: Moment = text.parse().unwrap();
        assert_eq!(moment.timestamp(), seconds, "{text}");
        let distance = Duration::from_secs(seconds.unsigned_abs());
        assert_eq!(SystemTime::from(moment), UNIX_EPOCH - distance);
    }
    let days = [31, 28, 31, 30, 31, 30, 31, 31, 30, 31, 30, 31];
    for (month, days) in (1..).zip(days) {
        assert!(Moment::new(2026, month, days, 0, 0, 0).is_some());
        assert_eq!(Moment::new(2026, month, days + 1, 0, 0, 0), None);
    }
}

/// Each day from 1970 to 2400 is the one behind the day before, by another way of counting.
#[test]
fn days_follow_each_other() {
    let (mut year, mut month, mut day) = (1970, 1, 1);
    let mut before = None;
    for days in 0..157_000_u64 {
        let seconds = days * 86_400 + days * 7_919 % 86_400;
        let moment = Moment::from_timestamp(seconds).unwrap();
        assert_eq!(moment.date(), (year, month, day));
        assert_eq!(moment.timestamp(), seconds as i64);
        assert!(before < Some(moment));
        before = Some(moment);
        if Moment::new(year, month, day + 1, 0, 0, 0).is_some() {
            day += 1;
        } else {
            (month, day) = (month + 1, 1);
        }
        if month > 12 {
            (year, month) = (year + 1, 1);
        }
    }
}

#[test]
fn there_are_no_other_moments() {
    let noon = 1_780_315_200;
    assert_eq!(Moment::from_timestamp(noon), Some(at(NOON)));
    // noon of the year 67562, whose low 16 bits are those of 2026
    let later = 2_069_896_680_000;
    for seconds in [253_402_300_800, later, noon * 1_000, u64::MAX] {
        assert_eq!(Moment::from_timestamp(seconds), None);
    }
    assert!(Moment::try_from(UNIX_EPOCH - Duration::from_secs(1)).is_err());
    for parts in [
        (2026, 2, 29, 0, 0, 0),
        (2100, 2, 29, 0, 0, 0),
        (2026, 4, 31, 0, 0, 0),
        (2026, 13, 1, 0, 0, 0),
        (2026, 0, 1, 0, 0, 0),
        (2026, 1, 0, 0, 0, 0),
        (2026, 1, 1, 24, 0, 0),
        (2026, 1, 1, 0, 60, 0),
        (2026, 1, 1, 0, 0, 60),
        (10_000, 1, 1, 0, 0, 0),
        (2026, 99, 99, 99, 99, 99),
    ] {
        let (year, month, day, hour, minute, second) = parts;
        let moment = Moment::new(year, month, day, hour, minute, second);
        assert_eq!(moment, None, "{parts:?}");
    }
    assert!(Moment::new(2000, 2, 29, 23, 59, 59).is_some());
    for text in [
        "",
        "2026-02-30",
        "2026-6-1",
        "2026-06-01T12:00:00",
        "2026-06-01 12:00:00Z",
        "2026-06-01T12:00:00z",
        "2026/06/01",
        "٢٠٢٦-٠٦",
    ] {
        assert!(text.parse::<Moment>().is_err(), "{text}");
    }
    let why = "2026-02-30".parse::<Moment>().unwrap_err().to_string();
    assert!(why.starts_with("not a time of UTC"), "{why}");
}

#[test]
fn what_is_held_can_be_asked() {
    let members = ["anchor.cer", "first.cer"].map(octets);
    let asked = Revocation::NotAsked;
    let path = Path::new(&members, Kind::Authority, asked, Anchor::AsGiven);
    let held = path.validate(at(NOON)).unwrap();
    let address = |text: &str| text.parse::<IpAddr>().unwrap();
    for text in ["10.0.0.0", "10.15.255.255", "10.32.0.0", "2001:db8::1"] {
        assert!(held.contains(address(text)), "{text}");
    }
    for text in ["9.255.255.255", "10.16.0.0", "2001:db9::"] {
        assert!(!held.contains(address(text)), "{text}");
    }
    for (text, length, wanted) in [
        ("10.0.0.0", 12, true),
        ("10.15.1.2", 12, true),
        ("10.0.0.0", 11, false),
        ("0.0.0.0", 0, false),
        ("10.0.0.0", 33, false),
        ("2001:db8::", 40, true),
        ("2001:db8::", 39, false),
        ("::", 0, false),
        ("2001:db8::", 129, false),
    ] {
        assert_eq!(
            held.contains_prefix(address(text), length),
            wanted,
            "{text}/{length}"
        );
    }
    assert!(held.contains_as(64500) && held.contains_as(64510));
    assert!(!held.contains_as(64499) && !held.contains_as(64509) && !held.contains_as(u32::MAX));
    // of a prefix the address is any one of it, and a range may begin and end within
    let mut held = Holdings::default();
    let (four, six) = (Ipv4Addr::from(0x0a01_0203), Ipv6Addr::from(0x0203));
    held.ipv4 = Arc::new(vec![
        (Ipv4Addr::from(0), Ipv4Addr::from(0xff)),
        (four, Ipv4Addr::from(0x0a01_ffff)),
    ]);
    held.ipv6 = Arc::new(vec![
        (six, six),
        (Ipv6Addr::from(0x0301), Ipv6Addr::from(0xffff)),
    ]);
    for (text, length, wanted) in [
        ("10.1.2.3", 32, true),
        ("10.1.3.9", 24, true),
        ("10.1.2.9", 24, false),
        ("10.1.2.2", 32, false),
        ("0.0.0.77", 24, true),
        ("::203", 128, true),
        ("::202", 128, false),
        ("::203", 127, false),
        ("::304", 126, true),
        ("::301", 126, false),
    ] {
        let address = address(text);
        assert_eq!(
            held.contains_prefix(address, length),
            wanted,
            "{text}/{length}"
        );
        if length == 32 || length == 128 {
            assert_eq!(held.contains(address), wanted, "{text}");
        }
    }
}

#[test]
fn last_keys_are_checked() {
    let folder = concat!(env!("CARGO_MANIFEST_DIR"), "/../../tests/files/keyed");
    let read = |name| std::fs::read(format!("{folder}/{name}.cer")).unwrap();
    let anchor = read("ta");
    // make.py there says which keys these have
    for (name, kind, is_used) in [
        ("ca_2048", Kind::Authority, true),
        ("ca_1024", Kind::Authority, false),
        ("ee_2048", Kind::EndEntity, true),
        ("ee_1024", Kind::EndEntity, false),
        ("ee_exponent_3", Kind::EndEntity, false),
        ("router", Kind::Router, true),
        ("router_compressed", Kind::Router, false),
    ] {
        let octets = read(name);
        let (asked, given) = (Revocation::NotAsked, Anchor::AsGiven);
        let path = Path::new([&anchor, &octets], kind, asked, given);
        if is_used {
            assert!(path.validate(at(NOON)).is_ok(), "{name}");
        } else {
            let fault = rejected(&path, NOON, "BadKey", Some(Place::Member(1)));
            let (kind, code) = (fault.kind(), fault.code());
            assert_eq!((kind, code), (FaultKind::Key, FaultCode::BadKey));
        }
        assert!(path.with_any_key().validate(at(NOON)).is_ok(), "{name}");
        let it = Certificate::read(&octets).unwrap();
        assert_eq!(it.has_usable_key().unwrap(), is_used);
        // the SubjectPublicKeyInfo is a part of the certificate
        let key = it.public_key().unwrap();
        assert!(key.len() > 50 && octets.windows(key.len()).any(|part| part == key));
    }
}

#[test]
fn names_of_lists_are_checked() {
    let folder = concat!(env!("CARGO_MANIFEST_DIR"), "/../../tests/files/nobody");
    let read = |name: &str| std::fs::read(format!("{folder}/{name}")).unwrap();
    let members = [read("ta.cer"), read("ca.cer")];
    // make.py there says which lists have another name than the anchor, whose key signed all but one
    for (names, wanted, waived) in [
        (vec!["newer"], Some("WrongIssuer"), None),
        (vec!["newer_revoking"], Some("WrongIssuer"), Some("Revoked")),
        (vec!["newer_stale"], Some("WrongIssuer"), Some("Stale")),
        (vec!["newer_forged"], Some("NoCrl"), Some("BadSignature")),
        (vec!["newer", "plain"], None, None),
        (vec!["plain", "newer"], None, None),
        (vec!["newer", "revoking"], Some("Revoked"), None),
        (vec!["newer_revoking", "plain"], None, Some("Revoked")),
        (vec!["plain", "newer_revoking"], None, Some("Revoked")),
    ] {
        let lists: Vec<_> = names
            .iter()
            .map(|name| read(&format!("{name}.crl")))
            .collect();
        let asked = Revocation::by_lists(&lists);
        let path = Path::new(&members, Kind::Authority, asked, Anchor::AsGiven);
        for (path, name) in [(path.clone(), wanted), (path.without_names(), waived)] {
            match name {
                Some(name) => {
                    let fault = rejected(&path, NOON, name, Some(Place::Member(1)));
                    assert_eq!(fault.kind(), FaultKind::Revocation);
                }
                None => assert!(path.validate(at(NOON)).is_ok(), "{names:?}"),
            }
        }
    }
}

#[test]
fn lists_have_tables() {
    let list = RevocationList::read(&octets("revoked.crl")).unwrap();
    let table = list.table().unwrap();
    let asked = [3, 2, 4, 0].map(number);
    assert_eq!(table.contains_each(&asked), [true, false, false, false]);
    assert!(table.contains(&number(3)) && !table.contains(&number(2)));
    let none = RevocationList::read(&octets("first.crl")).unwrap();
    assert!(!none.table().unwrap().contains(&number(3)));
    assert_eq!(table.contains_each(&[]), []);
}

#[test]
fn ranges_are_prefixes() {
    let four = |text: &str| text.parse::<Ipv4Addr>().unwrap();
    let six = |text: &str| text.parse::<Ipv6Addr>().unwrap();
    // as Python's ipaddress.summarize_address_range has them
    for (min, max, wanted) in [
        (
            "10.32.0.0",
            "10.40.255.255",
            &["10.32.0.0/13", "10.40.0.0/16"][..],
        ),
        ("0.0.0.0", "255.255.255.255", &["0.0.0.0/0"]),
        (
            "255.255.255.255",
            "255.255.255.255",
            &["255.255.255.255/32"],
        ),
        (
            "0.0.0.1",
            "0.0.0.4",
            &["0.0.0.1/32", "0.0.0.2/31", "0.0.0.4/32"],
        ),
        ("0.0.0.2", "0.0.0.1", &[]),
    ] {
        let found = ipv4_prefixes(&[(four(min), four(max))]);
        let texts: Vec<_> = found
            .iter()
            .map(|(it, length)| format!("{it}/{length}"))
            .collect();
        assert_eq!(texts, wanted);
    }
    let last = "ffff:ffff:ffff:ffff:ffff:ffff:ffff:ffff";
    for (min, max, wanted) in [
        ("::", last, &["::/0"][..]),
        ("8000::", last, &["8000::/1"]),
        ("2001:db8::", "2001:db8::7", &["2001:db8::/125"]),
        (last, last, &["ffff:ffff:ffff:ffff:ffff:ffff:ffff:ffff/128"]),
        ("::1", "::2", &["::1/128", "::2/128"]),
    ] {
        let found = ipv6_prefixes(&[(six(min), six(max))]);
        let texts: Vec<_> = found
            .iter()
            .map(|(it, length)| format!("{it}/{length}"))
            .collect();
        assert_eq!(texts, wanted);
    }
    let members = ["anchor.cer", "first.cer"].map(octets);
    let (asked, anchor) = (Revocation::NotAsked, Anchor::AsGiven);
    let held = Path::new(&members, Kind::Authority, asked, anchor)
        .validate(at(NOON))
        .unwrap();
    let four = [("10.0.0.0", 12), ("10.32.0.0", 13), ("10.40.0.0", 16)];
    let texts: Vec<_> = held
        .ipv4_prefixes()
        .iter()
        .map(|it| (it.0.to_string(), it.1))
        .collect();
    assert_eq!(texts, four.map(|it| (it.0.to_owned(), it.1)));
    assert_eq!(held.ipv6_prefixes(), [(six("2001:db8::"), 40)]);
}

#[test]
fn values_are_made_and_compared() {
    let octets = octets("first.cer");
    let it = Certificate::try_from(&octets[..]).unwrap();
    assert_eq!(it, Certificate::read(&octets).unwrap());
    let fault = RevocationList::try_from(&octets[..]).unwrap_err();
    assert_eq!(fault.kind(), FaultKind::Decode);
    for number in [120, 132] {
        assert_eq!(FaultCode::of(number).is_some(), number == 120);
    }
    // by all bytes, and not by what is read of them
    let longer = [&octets[..], b"0"].concat();
    assert_ne!(it, Certificate::read(&longer).unwrap());
    let list = self::octets("revoked.crl");
    let read = |octets: &[u8]| RevocationList::read(octets).unwrap();
    assert_eq!(read(&list), read(&list));
    assert_ne!(read(&list), read(&[&list[..], b"0"].concat()));
}

#[test]
fn codes_have_no_part() {
    for (name, number, code) in [
        ("bad_no_ski.cer", 121, FaultCode::DecodeMissing),
        ("bad_no_resources.cer", 131, FaultCode::DecodeMissing),
        (
            "bad_key_usage_not_critical.cer",
            183,
            FaultCode::DecodeNotCritical,
        ),
        ("bad_no_policy.cer", 209, FaultCode::DecodeWrongResources),
        (
            "bad_unknown_critical.cer",
            107,
            FaultCode::DecodeUnexpectedCritical,
        ),
    ] {
        let fault = Certificate::read(&odd(name)).unwrap_err();
        assert_eq!((fault.number(), fault.code()), (number, code), "{name}");
        if code == FaultCode::DecodeMissing {
            assert_eq!(fault.field(), Some("the extensions"));
            assert_eq!(fault.found(), None);
        }
    }
}

#[test]
fn values_go_between_threads() {
    fn is<T: Send + Sync + 'static>() {}
    is::<Certificate>();
    is::<RevocationList>();
    is::<Fault>();
    let (members, lists) = example();
    std::thread::scope(|scope| {
        for _ in 0..4 {
            scope.spawn(|| {
                let asked = Revocation::by_lists(&lists);
                let path = Path::new(&members, Kind::EndEntity, asked, Anchor::AsGiven);
                assert!((0..10).all(|_| path.validate(at(NOON)).is_ok()));
            });
        }
    });
}
