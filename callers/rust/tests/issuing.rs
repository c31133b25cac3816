//! Issues certificates with keys of openssl, where that is there.
use gonxebhula::{
    Anchor, Certificate, Entry, Fault, FaultCode, FaultKind, Folder, Issuer, Kind, Line, Moment,
    Path, Place, Resources, Revocation, RevocationList, Uri, Wanted, WantedList,
};
use std::io::Write;
use std::net::{Ipv4Addr, Ipv6Addr};
use std::ops::RangeInclusive;
use std::path::PathBuf;
use std::process::{Command, Stdio};

const URIS: [(Uri, &str); 4] = [
    (Uri::Repository, "rsync://rpki.example.net/repo/ca/"),
    (Uri::Manifest, "rsync://rpki.example.net/repo/ca/ca.mft"),
    (Uri::CaIssuer, "rsync://rpki.example.net/repo/anchor.cer"),
    (Uri::Crl, "rsync://rpki.example.net/repo/anchor/anchor.crl"),
];

fn openssl(words: &[&str], given: &[u8]) -> Vec<u8> {
    let mut child = Command::new("openssl")
        .args(words)
        .stdin(Stdio::piped())
        .stdout(Stdio::piped())
        .stderr(Stdio::null())
        .spawn()
        .unwrap();
    child.stdin.take().unwrap().write_all(given).unwrap();
    let done = child.wait_with_output().unwrap();
    assert!(done.status.success(), "openssl {words:?}");
    done.stdout
}

fn is_there() -> bool {
    let version = Command::new("openssl").arg("version").output();
    matches!(version, Ok(done) if done.status.success())
}

/// A key of openssl, in a file.
struct Key {
    file: PathBuf,
    public: Vec<u8>,
}

impl Key {
    fn new(name: &str) -> Key {
        let pem = openssl(&["genrsa", "2048"], b"");
        let file = format!("gonxebhula-{name}-{}.key", std::process::id());
        let file = std::env::temp_dir().join(file);
        std::fs::write(&file, &pem).unwrap();
        let public = openssl(&["pkey", "-pubout", "-outform", "DER"], &pem);
        Key { file, public }
    }

    fn locator(&self) -> Vec<u8> {
        let digits = openssl(&["base64"], &self.public);
        [&b"rsync://rpki.example.net/repo/ta.cer\n\n"[..], &digits].concat()
    }

    fn sign(&self, octets: &[u8]) -> Vec<u8> {
        let file = self.file.to_str().unwrap();
        openssl(&["dgst", "-sha256", "-sign", file], octets)
    }
}

impl Drop for Key {
    fn drop(&mut self) {
        let _ = std::fs::remove_file(&self.file);
    }
}

/// The first day of a month.
fn day(year: u16, month: u8) -> Moment {
    Moment::new(year, month, 1, 0, 0, 0).unwrap()
}

fn now() -> Moment {
    day(2026, 6)
}

fn wanted<'a>(kind: Kind, key: &'a Key, uris: &'a [(Uri, &'a str)], block: u8) -> Wanted<'a> {
    let mut serial_number = [0; 20];
    serial_number[19] = 5;
    let range = (
        Ipv4Addr::new(10, block, 0, 0),
        Ipv4Addr::new(10, 7, 255, 255),
    );
    let (from, until) = (day(2026, 1), day(2036, 1));
    let mut it = Wanted::new(kind, &key.public, serial_number, from, until);
    it.ipv4 = Resources::Listed(vec![range]);
    it.as_numbers = Resources::Listed(vec![64500..=64503]);
    it.uris = uris;
    it
}

/// The issuer that a path ends in, of which nothing else is checked.
fn issuer_of<'a, T: AsRef<[u8]> + ?Sized + 'a>(
    path: impl IntoIterator<Item = &'a T>,
    now: Moment,
) -> Issuer<'a> {
    Issuer::new(path, Revocation::NotAsked, Anchor::AsGiven, now)
}

fn anchor(key: &Key) -> Certificate {
    let issuer = Issuer::of_anchor(now());
    let octets = issuer
        .prepare(&wanted(Kind::TrustAnchor, key, &URIS[..2], 0))
        .unwrap();
    issuer
        .complete(Kind::TrustAnchor, &octets, &key.sign(&octets))
        .unwrap()
}

fn is_fault(it: Fault, name: &str, kind: FaultKind, place: Option<Place>) {
    assert_eq!(
        (it.name().as_str(), it.kind(), it.place()),
        (name, kind, place)
    );
}

#[test]
fn certificates_are_issued() {
    if !is_there() {
        return;
    }
    let (above, below) = (Key::new("above"), Key::new("below"));
    let anchor = anchor(&above);
    let issuer = issuer_of([&anchor], now());
    let octets = issuer
        .prepare(&wanted(Kind::Authority, &below, &URIS, 1))
        .unwrap();
    let it = issuer
        .complete(Kind::Authority, &octets, &above.sign(&octets))
        .unwrap();
    let asked = Revocation::NotAsked;
    let path = Path::new([&anchor, &it], Kind::Authority, asked, Anchor::AsGiven);
    let held = path.validate(now()).unwrap();
    let range = (Ipv4Addr::new(10, 1, 0, 0), Ipv4Addr::new(10, 7, 255, 255));
    assert_eq!(*held.ipv4, [range]);
    assert_eq!(*held.as_numbers, [64500..=64503]);
    for (which, uri) in URIS {
        assert_eq!(it.uri(which).unwrap().as_deref(), Some(uri));
    }

    let certificate = Some(Place::Issued);
    let refused = |signature: &[u8]| {
        let fault = issuer
            .complete(Kind::Authority, &octets, signature)
            .unwrap_err();
        is_fault(fault, "BadSignature", FaultKind::Verification, certificate);
    };
    refused(&below.sign(&octets));
    refused(&above.sign(b"other octets"));
    refused(b"");
    let fault = issuer.complete(Kind::Authority, b"", b"").unwrap_err();
    is_fault(fault, "NotToSign", FaultKind::Issuing, certificate);
}

#[test]
fn what_is_wrong_is_refused_before_it_is_signed() {
    if !is_there() {
        return;
    }
    let (above, key) = (Key::new("refusing"), Key::new("refused"));
    let anchor = anchor(&above);
    let issuer = issuer_of([&anchor], now());
    let good = wanted(Kind::Authority, &key, &URIS, 1);
    let refused = |issuer: &Issuer<'_>, wanted: &Wanted<'_>, name, kind, place| {
        is_fault(issuer.prepare(wanted).unwrap_err(), name, kind, place);
    };
    let member = |place| Some(Place::Member(place));
    let mut wrong = good.clone();
    wrong.as_numbers = Resources::Listed(vec![64504..=64504]);
    refused(
        &issuer,
        &wrong,
        "OverclaimAs",
        FaultKind::Verification,
        Some(Place::Issued),
    );
    let mut wrong = good.clone();
    wrong.uris = &URIS[..2];
    refused(
        &issuer,
        &wrong,
        "MissingCrlUri",
        FaultKind::Inspection,
        Some(Place::Issued),
    );
    for (which, text) in [
        (Uri::CaIssuer, "the URI CaIssuer: "),
        (Uri::Crl, "the URI Crl: "),
        (Uri::Repository, "the URI Repository: "),
        (Uri::Manifest, "the URI Manifest: "),
        (Uri::SignedObject, "the URI SignedObject: "),
        (Uri::Notify, "the URI Notify: "),
    ] {
        let uris = [(which, "http://rpki.example.net/")];
        let wrong = wanted(Kind::Authority, &key, &uris, 1);
        let uri = Some(Place::Uri(which));
        refused(&issuer, &wrong, "BadUri", FaultKind::Issuing, uri);
        let fault = issuer.prepare(&wrong).unwrap_err();
        assert!(fault.to_string().starts_with(text), "{fault}");
    }
    let mut wrong = good.clone();
    wrong.key = b"";
    let issued = Some(Place::Issued);
    refused(&issuer, &wrong, "NoKey", FaultKind::Issuing, issued);
    let bad_call = |wanted: &Wanted<'_>, text: &str| {
        let fault = issuer.prepare(wanted).unwrap_err();
        assert_eq!((fault.kind(), fault.place()), (FaultKind::BadCall, None));
        assert!(fault.sentence().starts_with(text), "{fault}");
    };
    let mut high = [0; 20];
    high[0] = 0x80;
    for serial_number in [[0; 20], [255; 20], high] {
        let mut wrong = good.clone();
        wrong.serial_number = serial_number;
        bad_call(&wrong, "serial_number: expected a number above 0");
    }
    // each has a sentence of its own, which names the field
    let back = RangeInclusive::new(9, 5);
    for (as_numbers, text) in [(vec![], "no range"), (vec![back], "a range ends before")] {
        let mut wrong = good.clone();
        wrong.as_numbers = Resources::Listed(as_numbers);
        bad_call(&wrong, &format!("as_numbers: {text}"));
    }
    let (low, high) = (Ipv4Addr::new(10, 0, 0, 1), Ipv4Addr::new(10, 0, 0, 2));
    for (ipv4, text) in [
        (vec![], "no range"),
        (vec![(high, low)], "a range ends before"),
    ] {
        let mut wrong = good.clone();
        wrong.ipv4 = Resources::Listed(ipv4);
        bad_call(&wrong, &format!("ipv4: {text}"));
    }
    let (low, high) = (low.to_ipv6_mapped(), high.to_ipv6_mapped());
    for (ipv6, text) in [
        (vec![], "no range"),
        (vec![(high, low)], "a range ends before"),
    ] {
        let mut wrong = good.clone();
        wrong.ipv6 = Resources::Listed(ipv6);
        bad_call(&wrong, &format!("ipv6: {text}"));
    }
    let mut wrong = good.clone();
    wrong.kind = Kind::TrustAnchor;
    bad_call(&wrong, "kind: a trust anchor has no issuer");
    let late = issuer_of([&anchor], day(2040, 1));
    refused(&late, &good, "Expired", FaultKind::Verification, member(0));
    let alone = Issuer::of_anchor(now());
    refused(&alone, &good, "BadCall", FaultKind::BadCall, None);
    let fault = alone.prepare(&good).unwrap_err();
    assert!(fault
        .sentence()
        .starts_with("kind: a certificate of this kind has an issuer"));
    let asked = Revocation::by_lists(&[b"no list"]);
    let listed = Issuer::new([&anchor], asked, Anchor::AsGiven, now());
    let fault = listed.prepare(&good).unwrap_err();
    assert_eq!(fault.place(), Some(Place::List(0)));
    // the TAL of the issuer's path
    let below = |file| {
        Issuer::new(
            [&anchor],
            Revocation::NotAsked,
            Anchor::Located(file),
            now(),
        )
    };
    let [own, other] = [&above, &key].map(Key::locator);
    assert!(below(&own).prepare(&good).is_ok());
    let fault = below(&other).prepare(&good).unwrap_err();
    is_fault(fault, "OtherKey", FaultKind::Locator, member(0));
    let fault = below(b"\n").prepare(&good).unwrap_err();
    is_fault(fault, "NoUri", FaultKind::Locator, None);
}

/// Of URIs of one kind the last one counts, each kind is written, and resources are trimmed where
/// that is wanted.
#[test]
fn what_is_wanted_is_written() {
    if !is_there() {
        return;
    }
    let (above, below) = (Key::new("writing"), Key::new("written"));
    let anchor = anchor(&above);
    let issuer = issuer_of([&anchor], now());
    let mut uris = vec![(Uri::Crl, "rsync://rpki.example.net/repo/first.crl")];
    uris.extend(URIS);
    uris.push((Uri::Notify, "https://rpki.example.net/notify.xml"));
    let mut it = wanted(Kind::Authority, &below, &uris, 1);
    let overclaimed = (Ipv4Addr::new(11, 0, 0, 0), Ipv4Addr::new(11, 0, 0, 0));
    it.ipv4 = Resources::Listed(vec![overclaimed]);
    let fault = issuer.prepare(&it).unwrap_err();
    assert_eq!(fault.code(), FaultCode::VerificationOverclaimV4);
    it.trims_resources = true;
    let made = |kind, it: &Wanted<'_>| {
        let octets = issuer.prepare(it).unwrap();
        let signature = above.sign(&octets);
        issuer.complete(kind, &octets, &signature).unwrap()
    };
    let it = made(Kind::Authority, &it);
    assert!(it.trims_resources());
    for (which, uri) in &uris[1..] {
        assert_eq!(it.uri(*which).unwrap().as_deref(), Some(*uri));
    }
    // a directory has an end entity without an object
    let mut ee = wanted(Kind::Detached, &below, &URIS[2..], 1);
    ee.as_numbers = Resources::Missing;
    let ee = made(Kind::Detached, &ee);
    let octets = issuer.prepare_list(&list_wanted(None, &[])).unwrap();
    let list = issuer.complete_list(&octets, &above.sign(&octets)).unwrap();
    let strings = [anchor.as_bytes(), ee.as_bytes(), list.as_bytes()];
    let locator = above.locator();
    let judged = Folder::new(strings, &locator).judge(now()).unwrap();
    match &judged.lines[1] {
        Line::Accepted { kind, .. } => assert_eq!(*kind, Kind::Detached),
        other => panic!("{other:?}"),
    }
}

/// More ranges of one kind than are guessed at first, each of one number.
#[test]
fn each_kind_has_room() {
    if !is_there() {
        return;
    }
    let key = Key::new("many");
    let issuer = Issuer::of_anchor(now());
    let four = |at: u32| (Ipv4Addr::from(2 * at), Ipv4Addr::from(2 * at));
    let six = |at: u32| {
        let first = u128::from(at) << 64;
        (
            Ipv6Addr::from(first),
            Ipv6Addr::from(first + u128::from(at % 2)),
        )
    };
    for counts in [[100, 1, 1], [1, 100, 1], [1, 1, 100]] {
        let mut it = wanted(Kind::TrustAnchor, &key, &URIS[..2], 0);
        it.ipv4 = Resources::Listed((0..counts[0]).map(four).collect());
        it.ipv6 = Resources::Listed((0..counts[1]).map(six).collect());
        it.as_numbers = Resources::Listed((0..counts[2]).map(|at| 2 * at..=2 * at).collect());
        let octets = issuer.prepare(&it).unwrap();
        let signature = key.sign(&octets);
        let made = issuer
            .complete(Kind::TrustAnchor, &octets, &signature)
            .unwrap();
        assert_eq!(made.ipv4().unwrap(), it.ipv4);
        assert_eq!(made.ipv6().unwrap(), it.ipv6);
        assert_eq!(made.as_numbers().unwrap(), it.as_numbers);
        let (asked, anchor) = (Revocation::NotAsked, Anchor::AsGiven);
        let path = Path::new([&made], Kind::Authority, asked, anchor);
        let held = path.validate(now()).unwrap();
        assert_eq!(Resources::Listed(held.ipv4.to_vec()), it.ipv4);
        assert_eq!(Resources::Listed(held.ipv6.to_vec()), it.ipv6);
        assert_eq!(Resources::Listed(held.as_numbers.to_vec()), it.as_numbers);
    }
    // and more octets, and a number of two octets
    let anchor = anchor(&key);
    let issuer = issuer_of([&anchor], now());
    let entry = |at: u16| {
        let mut number = [1; 20];
        number[..2].copy_from_slice(&at.to_be_bytes());
        Entry::new(number, now())
    };
    let entries: Vec<_> = (0..300).map(entry).collect();
    let mut list = list_wanted(None, &entries);
    list.number = Some(serial(255));
    let octets = issuer.prepare_list(&list).unwrap();
    assert!(octets.len() > 4096);
    let made = issuer.complete_list(&octets, &key.sign(&octets)).unwrap();
    assert_eq!(made.entries().unwrap(), entries);
    let table = made.table().unwrap();
    assert!(entries.iter().all(|it| table.contains(&it.serial_number)));
    assert!(!table.contains(&serial(1)));
}

/// Strictness is of names here: one of the last certificate is a UTF8String (tests/verdicts).
#[test]
fn strings_of_issuers_are_checked() {
    if !is_there() {
        return;
    }
    let folder = concat!(env!("CARGO_MANIFEST_DIR"), "/../../tests/files");
    let path = ["ta.cer", "ca1.cer", "odd_name_utf8.cer"]
        .map(|name| std::fs::read(format!("{folder}/{name}")).unwrap());
    let now = day(2025, 6);
    let key = Key::new("strict");
    let mut wanted = wanted(Kind::Detached, &key, &URIS[2..], 0);
    (wanted.not_before, wanted.not_after) = (now, day(2025, 7));
    wanted.ipv4 = Resources::Inherited;
    wanted.as_numbers = Resources::Missing;
    let list = WantedList::new(now, day(2025, 7));
    let strict = issuer_of(&path, now);
    for fault in [
        strict.prepare(&wanted).unwrap_err(),
        strict.prepare_list(&list).unwrap_err(),
    ] {
        let place = Some(Place::Member(2));
        is_fault(fault, "Subject", FaultKind::Inspection, place);
    }
    let lenient = issuer_of(&path, now).lenient();
    assert!(lenient.prepare(&wanted).is_ok());
    assert!(lenient.prepare_list(&list).is_ok());
}

/// Nothing is issued below a CA whose name doesn't chain, of which tests/files/make.py says.
#[test]
fn names_of_issuers_are_checked() {
    if !is_there() {
        return;
    }
    let folder = concat!(env!("CARGO_MANIFEST_DIR"), "/../../tests/files/named");
    let path = ["ta.cer", "ca_other_case.cer"]
        .map(|name| std::fs::read(format!("{folder}/{name}")).unwrap());
    let now = day(2025, 6);
    let key = Key::new("named");
    let mut wanted = wanted(Kind::Authority, &key, &URIS, 0);
    (wanted.not_before, wanted.not_after) = (now, day(2025, 7));
    wanted.ipv4 = Resources::Inherited;
    wanted.as_numbers = Resources::Missing;
    let list = WantedList::new(now, day(2025, 7));
    let asking = issuer_of(&path, now);
    for fault in [
        asking.prepare(&wanted).unwrap_err(),
        asking.prepare_list(&list).unwrap_err(),
    ] {
        let place = Some(Place::Member(1));
        is_fault(fault, "OtherName", FaultKind::Names, place);
    }
    let waiving = issuer_of(&path, now).without_names();
    assert!(waiving.prepare(&wanted).is_ok());
    assert!(waiving.prepare_list(&list).is_ok());
}

fn serial(last: u8) -> [u8; 20] {
    let mut number = [0; 20];
    number[19] = last;
    number
}

fn list_wanted<'a>(previous: Option<&'a RevocationList>, revoked: &'a [Entry]) -> WantedList<'a> {
    let mut it = WantedList::new(now(), day(2036, 1));
    it.previous = previous.map(RevocationList::as_bytes);
    it.revoked = revoked;
    it
}

#[test]
fn lists_are_issued() {
    if !is_there() {
        return;
    }
    let (above, below) = (Key::new("list-above"), Key::new("list-below"));
    let anchor = anchor(&above);
    let path = [anchor.as_bytes()];
    let issuer = issuer_of(&path, now());
    let made = |wanted: &WantedList<'_>| {
        let octets = issuer.prepare_list(wanted).unwrap();
        issuer.complete_list(&octets, &above.sign(&octets)).unwrap()
    };
    let entry = |last, revoked_at| Entry::new(serial(last), revoked_at);
    let early = day(2026, 2);
    let first = made(&list_wanted(None, &[entry(7, early)]));
    assert_eq!(first.number(), serial(1));
    assert_eq!(first.issuer().unwrap(), anchor.subject().unwrap());
    let revoked = [entry(7, now()), entry(5, now())];
    let second = made(&list_wanted(Some(&first), &revoked));
    assert_eq!(second.number(), serial(2));
    assert_eq!(
        second.entries().unwrap(),
        [entry(7, early), entry(5, now())]
    );
    let octets = issuer
        .prepare(&wanted(Kind::Authority, &below, &URIS, 1))
        .unwrap();
    let ca = issuer
        .complete(Kind::Authority, &octets, &above.sign(&octets))
        .unwrap();
    let judged = |lists: &[&RevocationList]| {
        let asked = Revocation::by_lists(lists.iter().copied());
        Path::new([&anchor, &ca], Kind::Authority, asked, Anchor::AsGiven).validate(now())
    };
    assert!(judged(&[&first]).is_ok());
    let fault = judged(&[&first, &second]).unwrap_err();
    let member = Some(Place::Member(1));
    is_fault(fault, "Revoked", FaultKind::Revocation, member);
    let issued = Some(Place::Issued);

    // an entry is dropped once its certificate had expired before the list before was issued
    let mut ended = wanted(Kind::Authority, &below, &URIS, 1);
    (ended.serial_number, ended.not_after) = (serial(7), day(2026, 4));
    let early_issuer = issuer_of(&path, day(2026, 3));
    let octets = early_issuer.prepare(&ended).unwrap();
    let old = early_issuer
        .complete(Kind::Authority, &octets, &above.sign(&octets))
        .unwrap();
    // a certificate counts by its issuer's name and its issuer's key
    let name = anchor.subject_text().unwrap();
    let key = anchor.subject_key_identifier();
    for part in [&name.as_bytes()[3..], &key[..]] {
        let mut foreign = old.as_bytes().to_vec();
        let at = foreign.windows(part.len()).position(|it| it == part);
        foreign[at.unwrap()] ^= 1;
        let foreign = Certificate::read(&foreign).unwrap();
        assert_eq!(second.expired([&foreign]).unwrap(), []);
    }
    let given = [old, ca.clone()];
    assert_eq!(second.expired(&given).unwrap(), [entry(7, early)]);
    let mut next = list_wanted(Some(&second), &[]);
    next.expired = &given;
    let third = made(&next);
    assert_eq!(third.number(), serial(3));
    assert_eq!(third.entries().unwrap(), [entry(5, now())]);
    // with new entries, and a number of its own
    let new = [entry(9, now())];
    (next.revoked, next.number) = (&new, Some(serial(200)));
    let third = made(&next);
    assert_eq!(third.number(), serial(200));
    let entries = [entry(5, now()), entry(9, now())];
    assert_eq!(third.entries().unwrap(), entries);
    next.revoked = &[];
    next.number = None;
    next.expired = &given[1..];
    assert_eq!(made(&next).entries(), second.entries());
    // behind 255 comes 256
    let mut high = list_wanted(Some(&second), &[]);
    high.number = Some(serial(255));
    let high = made(&high);
    let mut next = list_wanted(Some(&high), &[]);
    next.expired = &given;
    let mut number = serial(0);
    number[18] = 1;
    assert_eq!(made(&next).number(), number);
    // that list was issued before the end
    let mut first = list_wanted(None, &revoked);
    first.this_update = day(2026, 4);
    assert_eq!(made(&first).expired(&given).unwrap(), []);

    let refused = |wanted: &WantedList<'_>, name, kind| {
        is_fault(issuer.prepare_list(wanted).unwrap_err(), name, kind, issued);
    };
    let mut wrong = list_wanted(None, &[]);
    wrong.previous = Some(b"no list");
    refused(&wrong, "OtherList", FaultKind::Issuing);
    let mut wrong = list_wanted(Some(&second), &[]);
    wrong.number = Some(serial(2));
    refused(&wrong, "Number", FaultKind::Issuing);
    wrong.number = Some([255; 20]);
    refused(&wrong, "LongNumber", FaultKind::Issuing);
    let mut wrong = list_wanted(None, &[]);
    wrong.next_update = early;
    refused(&wrong, "UpdateOrder", FaultKind::Issuing);
    wrong.this_update = early;
    refused(&wrong, "Stale", FaultKind::Revocation);
    // below two issuers what is issued is no third one
    let two = [&anchor, &ca];
    let below_two = issuer_of(two, now());
    let mut wrong = list_wanted(None, &[]);
    wrong.next_update = early;
    let fault = below_two.prepare_list(&wrong).unwrap_err();
    is_fault(fault, "UpdateOrder", FaultKind::Issuing, issued);
    wrong.this_update = early;
    let octets = issuer.prepare_list(&list_wanted(None, &[])).unwrap();
    for signature in [&below.sign(&octets), &above.sign(b"other octets"), &b""[..]] {
        let fault = issuer.complete_list(&octets, signature).unwrap_err();
        is_fault(fault, "BadSignature", FaultKind::Revocation, issued);
    }
    let fault = issuer.complete_list(b"", b"").unwrap_err();
    is_fault(fault, "NotToSign", FaultKind::Issuing, issued);
    let fault = Issuer::of_anchor(now()).prepare_list(&wrong).unwrap_err();
    is_fault(fault, "BadCall", FaultKind::BadCall, None);
}
