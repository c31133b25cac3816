//! The calls of librpki as rpki.h declares them. All that knows the library's interface, and all that
//! is unsafe, stands here: each function below hands over pointers with the lengths of their own
//! slices, and what is written overlaps nothing else of the call.
use std::cell::Cell;
use std::mem::size_of;
use std::ptr;

/// RPKI_ABI of rpki.h.
pub const ABI: u32 = 5;
pub const OK: u32 = 0;
pub const MEMORY: u32 = 1;
pub const BAD_CALL: u32 = 2;
pub const NO_RESOURCES: u32 = 602;
pub const BAD_URI: u32 = 802;
/// enum rpki_fate of rpki.h, but for the number 0.
pub const ANCHOR: u32 = 1;
pub const ACCEPTED: u32 = 2;
pub const REJECTED: u32 = 3;
pub const LIST: u32 = 4;
pub const NEITHER: u32 = 5;
pub const NOT_ISSUED: u32 = 6;
pub const ISSUER_NOT_CA: u32 = 7;
pub const NOT_LOOKED_AT: u32 = 8;
pub const BELOW_REJECTED: u32 = 9;
pub const BELOW_UNSEEN: u32 = 10;
/// RPKI_WHOLE of rpki.h.
pub const WHOLE: u32 = 1;
/// RPKI_LIMIT_DEPTH of rpki.h.
pub const LIMIT_DEPTH: u32 = 1;
/// RPKI_LIMIT_STEPS of rpki.h.
pub const LIMIT_STEPS: u32 = 2;
/// enum rpki_part_text of rpki.h.
const PART_NAME: u32 = 0;
const PART_WANTED: u32 = 1;
const PART_FOUND: u32 = 2;

#[repr(C)]
#[derive(Clone, Copy, Debug, Default, PartialEq, Eq)]
pub struct Time {
    pub year: u16,
    pub month: u8,
    pub day: u8,
    pub hour: u8,
    pub minute: u8,
    pub second: u8,
    pub unused: u8,
}

#[repr(C)]
#[derive(Clone, Debug, Default)]
pub struct Certificate {
    pub not_before: Time,
    pub not_after: Time,
    pub serial: [u8; 20],
    pub subject_key: [u8; 20],
    pub authority_key: [u8; 20],
    pub has_authority_key: u8,
    pub is_authority: u8,
    pub key_usage: u8,
    pub overclaim: u8,
    pub v4: u8,
    pub v6: u8,
    pub asn: u8,
}

#[repr(C)]
#[derive(Clone, Copy, Default)]
pub struct IpRange {
    pub min: [u8; 16],
    pub max: [u8; 16],
}

#[repr(C)]
#[derive(Clone, Copy, Default)]
pub struct AsRange {
    pub min: u32,
    pub max: u32,
}

#[repr(C)]
#[derive(Clone, Debug, Default)]
pub struct List {
    pub this_update: Time,
    pub next_update: Time,
    pub entries: u64,
    pub number: [u8; 20],
    pub authority_key: [u8; 20],
}

#[repr(C)]
#[derive(Clone, Copy, Default)]
pub struct Entry {
    pub date: Time,
    pub serial: [u8; 20],
}

#[repr(C)]
#[derive(Clone, Copy, Debug, Default)]
pub struct Serial {
    pub serial: [u8; 20],
    pub hint: u32,
}

#[repr(C)]
#[derive(Clone, Copy, Default)]
struct CStop {
    fault: u32,
    octet: u64,
}

/// Strings of octets, as the library takes them.
#[repr(C)]
struct CStrings {
    octets: *const u8,
    length: usize,
    lengths: *const usize,
    count: usize,
}

#[repr(C)]
struct CQuestion {
    size: usize,
    members: CStrings,
    lists: CStrings,
    locator: *const u8,
    locator_length: usize,
    moment: Time,
    last: u32,
    strict: u32,
    revocation: u32,
    anchor: u32,
    key: u32,
    names: u32,
}

#[repr(C)]
struct Room {
    v4: *mut IpRange,
    v4_room: usize,
    v6: *mut IpRange,
    v6_room: usize,
    asn: *mut AsRange,
    asn_room: usize,
}

#[repr(C)]
#[derive(Default)]
struct Verdict {
    fault: u32,
    index: u32,
    v4: u64,
    v6: u64,
    asn: u64,
}

#[repr(C)]
struct CFolderQuestion {
    size: usize,
    strings: CStrings,
    locator: *const u8,
    locator_length: usize,
    moment: Time,
    depth: usize,
    steps: usize,
    strict: u32,
    key: u32,
    names: u32,
}

#[repr(C)]
#[derive(Clone, Copy, Default)]
pub struct HeldPlaces {
    pub v4: u64,
    pub v6: u64,
    pub asn: u64,
    pub v4_at: u64,
    pub v6_at: u64,
    pub asn_at: u64,
}

#[repr(C)]
#[derive(Clone, Copy, Default)]
pub struct Line {
    pub what: u32,
    pub fault: u32,
    pub step: u64,
    pub issuer: u64,
    pub kind: u32,
    pub limits: u32,
    pub held: HeldPlaces,
    pub needed: u64,
}

#[repr(C)]
#[derive(Default)]
pub struct Walk {
    pub fault: u32,
    pub ended: u32,
    pub anchor: u64,
    pub v4: u64,
    pub v6: u64,
    pub asn: u64,
}

#[repr(C)]
struct CAddresses {
    ranges: *const IpRange,
    count: usize,
    state: u32,
}

#[repr(C)]
struct CAsNumbers {
    ranges: *const AsRange,
    count: usize,
    state: u32,
}

/// A pointer and a length, as they stand in a struct.
#[repr(C)]
#[derive(Clone, Copy)]
struct COctets {
    octets: *const u8,
    length: usize,
}

#[repr(C)]
struct CWanted {
    size: usize,
    issuer: CQuestion,
    key: COctets,
    v4: CAddresses,
    v6: CAddresses,
    asn: CAsNumbers,
    uris: [COctets; 6],
    not_before: Time,
    not_after: Time,
    serial: [u8; 20],
    kind: u32,
    overclaim: u32,
}

#[repr(C)]
struct CCompletion {
    size: usize,
    issuer: CQuestion,
    prepared: COctets,
    signature: COctets,
    kind: u32,
}

#[repr(C)]
struct CWantedList {
    size: usize,
    issuer: CQuestion,
    previous: COctets,
    revoked: *const Entry,
    revoked_count: usize,
    this_update: Time,
    next_update: Time,
    number: [u8; 20],
}

#[repr(C)]
struct CListCompletion {
    size: usize,
    issuer: CQuestion,
    prepared: COctets,
    signature: COctets,
}

#[repr(C)]
#[derive(Default)]
struct Issued {
    fault: u32,
    index: u32,
    count: u64,
}

extern "C" {
    fn rpki_abi_version() -> u32;
    fn rpki_fault_name(fault: u32, out: *mut u8, room: usize, count: *mut u64) -> u32;
    fn rpki_fault_sentence(fault: u32, out: *mut u8, room: usize, count: *mut u64) -> u32;
    fn rpki_certificate_read(octets: *const u8, length: usize, out: *mut Certificate) -> u32;
    fn rpki_certificate_inspect(octets: *const u8, length: usize, kind: u32, strict: u32) -> u32;
    fn rpki_certificate_addresses(
        octets: *const u8,
        length: usize,
        family: u32,
        out: *mut IpRange,
        room: usize,
        count: *mut u64,
    ) -> u32;
    fn rpki_certificate_as_numbers(
        octets: *const u8,
        length: usize,
        out: *mut AsRange,
        room: usize,
        count: *mut u64,
    ) -> u32;
    fn rpki_certificate_uri(
        octets: *const u8,
        length: usize,
        which: u32,
        out: *mut u8,
        room: usize,
        count: *mut u64,
    ) -> u32;
    fn rpki_certificate_name(
        octets: *const u8,
        length: usize,
        which: u32,
        out: *mut u8,
        room: usize,
        count: *mut u64,
    ) -> u32;
    fn rpki_certificate_key(
        octets: *const u8,
        length: usize,
        out: *mut u8,
        room: usize,
        count: *mut u64,
        is_used: *mut u8,
    ) -> u32;
    fn rpki_list_read(octets: *const u8, length: usize, out: *mut List) -> u32;
    fn rpki_list_entries(
        octets: *const u8,
        length: usize,
        out: *mut Entry,
        room: usize,
        count: *mut u64,
    ) -> u32;
    fn rpki_list_issuer(
        octets: *const u8,
        length: usize,
        out: *mut u8,
        room: usize,
        count: *mut u64,
    ) -> u32;
    fn rpki_list_ask(
        octets: *const u8,
        length: usize,
        serials: *const u8,
        serials_length: usize,
        answers: *mut u8,
        count: usize,
    ) -> u32;
    fn rpki_list_table(
        octets: *const u8,
        length: usize,
        out: *mut Serial,
        room: usize,
        count: *mut u64,
    ) -> u32;
    fn rpki_table_ask(
        table: *const Serial,
        entries: usize,
        serials: *const u8,
        serials_length: usize,
        answers: *mut u8,
        count: usize,
    ) -> u32;
    fn rpki_stop_text(
        octets: *const u8,
        length: usize,
        is_list: u32,
        which: u32,
        stop: *mut CStop,
        out: *mut u8,
        room: usize,
        count: *mut u64,
    ) -> u32;
    fn rpki_path_validate(question: *const CQuestion, room: *mut Room, out: *mut Verdict) -> u32;
    fn rpki_folder_judge(
        question: *const CFolderQuestion,
        lines: *mut Line,
        lines_room: usize,
        room: *mut Room,
        out: *mut Walk,
    ) -> u32;
    fn rpki_prepare(wanted: *const CWanted, out: *mut u8, room: usize, told: *mut Issued) -> u32;
    fn rpki_complete(
        completion: *const CCompletion,
        out: *mut u8,
        room: usize,
        told: *mut Issued,
    ) -> u32;
    fn rpki_prepare_list(
        wanted: *const CWantedList,
        out: *mut u8,
        room: usize,
        told: *mut Issued,
    ) -> u32;
    fn rpki_complete_list(
        completion: *const CListCompletion,
        out: *mut u8,
        room: usize,
        told: *mut Issued,
    ) -> u32;
}

/// The number of a fault, where a call answers one.
type Called<T> = Result<T, u32>;

fn answered<T>(fault: u32, value: T) -> Called<T> {
    match fault {
        OK => Ok(value),
        _ => Err(fault),
    }
}

/// All elements that a call writes: a first call counts them, and a second one writes them.
fn all_of<T: Clone + Default>(write: impl Fn(*mut T, usize, *mut u64) -> u32) -> Called<Vec<T>> {
    let mut count = 0;
    answered(write(ptr::null_mut(), 0, &mut count), ())?;
    let mut room = vec![T::default(); count as usize];
    let fault = write(room.as_mut_ptr(), room.len(), &mut count);
    answered(fault, room)
}

pub fn abi_version() -> u32 {
    // SAFETY: it takes nothing
    unsafe { rpki_abi_version() }
}

pub fn fault_name(fault: u32) -> Called<Vec<u8>> {
    // SAFETY: the octets are those of one slice, and `all_of` gives room for as many as it says
    all_of(|out, room, count| unsafe { rpki_fault_name(fault, out, room, count) })
}

pub fn fault_sentence(fault: u32) -> Called<Vec<u8>> {
    // SAFETY: the octets are those of one slice, and `all_of` gives room for as many as it says
    all_of(|out, room, count| unsafe { rpki_fault_sentence(fault, out, room, count) })
}

pub fn certificate(octets: &[u8]) -> Called<Certificate> {
    let mut out = Certificate::default();
    // SAFETY: each pointer is that of a value, or of a slice with the length beside it
    let fault = unsafe { rpki_certificate_read(octets.as_ptr(), octets.len(), &mut out) };
    answered(fault, out)
}

pub fn inspect(octets: &[u8], kind: u32, strict: bool) -> Called<()> {
    let (at, length) = (octets.as_ptr(), octets.len());
    // SAFETY: each pointer is that of a value, or of a slice with the length beside it
    answered(
        unsafe { rpki_certificate_inspect(at, length, kind, strict.into()) },
        (),
    )
}

pub fn addresses(octets: &[u8], family: u32) -> Called<Vec<IpRange>> {
    let (at, length) = (octets.as_ptr(), octets.len());
    // SAFETY: the octets are those of one slice, and `all_of` gives room for as many as it says
    all_of(|out, room, count| unsafe {
        rpki_certificate_addresses(at, length, family, out, room, count)
    })
}

pub fn as_numbers(octets: &[u8]) -> Called<Vec<AsRange>> {
    let (at, length) = (octets.as_ptr(), octets.len());
    // SAFETY: the octets are those of one slice, and `all_of` gives room for as many as it says
    all_of(|out, room, count| unsafe { rpki_certificate_as_numbers(at, length, out, room, count) })
}

pub fn certificate_uri(octets: &[u8], which: u32) -> Called<Vec<u8>> {
    let (at, length) = (octets.as_ptr(), octets.len());
    // SAFETY: the octets are those of one slice, and `all_of` gives room for as many as it says
    all_of(|out, room, count| unsafe { rpki_certificate_uri(at, length, which, out, room, count) })
}

pub fn certificate_name(octets: &[u8], which: u32) -> Called<Vec<u8>> {
    let (at, length) = (octets.as_ptr(), octets.len());
    // SAFETY: the octets are those of one slice, and `all_of` gives room for as many as it says
    all_of(|out, room, count| unsafe { rpki_certificate_name(at, length, which, out, room, count) })
}

/// The SubjectPublicKeyInfo, and whether the RPKI uses such a key.
pub fn certificate_key(octets: &[u8]) -> Called<(Vec<u8>, bool)> {
    let (at, length) = (octets.as_ptr(), octets.len());
    let is_used = Cell::new(0);
    // SAFETY: the octets are those of one slice, and `all_of` gives room for as many as it says
    let key = all_of(|out, room, count| unsafe {
        rpki_certificate_key(at, length, out, room, count, is_used.as_ptr())
    })?;
    Ok((key, is_used.get() != 0))
}

pub fn list(octets: &[u8]) -> Called<List> {
    let mut out = List::default();
    // SAFETY: each pointer is that of a value, or of a slice with the length beside it
    let fault = unsafe { rpki_list_read(octets.as_ptr(), octets.len(), &mut out) };
    answered(fault, out)
}

pub fn entries(octets: &[u8]) -> Called<Vec<Entry>> {
    let (at, length) = (octets.as_ptr(), octets.len());
    // SAFETY: the octets are those of one slice, and `all_of` gives room for as many as it says
    all_of(|out, room, count| unsafe { rpki_list_entries(at, length, out, room, count) })
}

pub fn list_issuer(octets: &[u8]) -> Called<Vec<u8>> {
    let (at, length) = (octets.as_ptr(), octets.len());
    // SAFETY: the octets are those of one slice, and `all_of` gives room for as many as it says
    all_of(|out, room, count| unsafe { rpki_list_issuer(at, length, out, room, count) })
}

/// Whether the list has each of the serial numbers.
pub fn are_revoked(octets: &[u8], serials: &[[u8; 20]]) -> Called<Vec<bool>> {
    let mut answers = vec![0; serials.len()];
    let (at, length, count) = (octets.as_ptr(), octets.len(), serials.len());
    let (asked, out) = (serials.as_ptr().cast(), answers.as_mut_ptr());
    // SAFETY: `serials` has 20 times `count` octets, and `answers` has `count`
    let fault = unsafe { rpki_list_ask(at, length, asked, 20 * count, out, count) };
    answered(fault, answers.into_iter().map(|it| it != 0).collect())
}

/// A table of the serial numbers of a list.
pub fn table(octets: &[u8]) -> Called<Vec<Serial>> {
    let (at, length) = (octets.as_ptr(), octets.len());
    // SAFETY: the octets are those of one slice, and `all_of` gives room for as many as it says
    all_of(|out, room, count| unsafe { rpki_list_table(at, length, out, room, count) })
}

/// Whether a table has each of the serial numbers.
pub fn are_in(table: &[Serial], serials: &[[u8; 20]]) -> Vec<bool> {
    let mut answers = vec![0; serials.len()];
    ask_table(table, serials, &mut answers);
    answers.into_iter().map(|it| it != 0).collect()
}

/// Whether a table has the serial number.
pub fn is_in(table: &[Serial], serial: &[u8; 20]) -> bool {
    let mut answer = [0];
    ask_table(table, std::slice::from_ref(serial), &mut answer);
    answer[0] != 0
}

/// Writes the answer for each serial number, of which there are as many as answers.
fn ask_table(table: &[Serial], serials: &[[u8; 20]], answers: &mut [u8]) {
    assert_eq!(serials.len(), answers.len());
    let (asked, out) = (serials.as_ptr().cast(), answers.as_mut_ptr());
    let (entries, count) = (table.len(), serials.len());
    // SAFETY: `serials` has 20 times `count` octets, `answers` has `count`, and `table` is one slice
    let fault = unsafe { rpki_table_ask(table.as_ptr(), entries, asked, 20 * count, out, count) };
    debug_assert_eq!(fault, OK);
}

/// Where the reading of octets stops, and the texts about the part there.
pub struct Stop {
    pub octet: usize,
    pub field: Vec<u8>,
    pub wanted: Vec<u8>,
    /// Empty where nothing is told.
    pub found: Vec<u8>,
}

/// Where the reading of octets stops as a certificate, or as a list; nowhere where they are one.
pub fn stop(octets: &[u8], is_list: bool) -> Called<Option<Stop>> {
    let (at, length) = (octets.as_ptr(), octets.len());
    let stop = Cell::new(CStop::default());
    let text = |which| {
        // SAFETY: the octets are those of one slice, and `all_of` gives room for as many as it says
        all_of(|out, room, count| unsafe {
            let is_list = is_list.into();
            rpki_stop_text(at, length, is_list, which, stop.as_ptr(), out, room, count)
        })
    };
    let (field, wanted) = (text(PART_NAME)?, text(PART_WANTED)?);
    let found = text(PART_FOUND)?;
    let CStop { fault, octet } = stop.get();
    Ok((fault != OK).then_some(Stop {
        octet: octet as usize,
        field,
        wanted,
        found,
    }))
}

/// Octets that stand one behind the other, and their lengths.
struct Strings {
    octets: Vec<u8>,
    lengths: Vec<usize>,
}

impl Strings {
    fn of(parts: &[&[u8]]) -> Strings {
        Strings {
            octets: parts.concat(),
            lengths: parts.iter().map(|part| part.len()).collect(),
        }
    }

    fn lent(&self) -> CStrings {
        CStrings {
            octets: self.octets.as_ptr(),
            length: self.octets.len(),
            lengths: self.lengths.as_ptr(),
            count: self.lengths.len(),
        }
    }
}

/// What is asked of a path: lists and a locator where they are given.
pub struct Question<'a> {
    pub members: &'a [&'a [u8]],
    pub last: u32,
    pub lists: Option<&'a [&'a [u8]]>,
    pub locator: Option<&'a [u8]>,
    pub strict: bool,
    pub any_key: bool,
    pub any_names: bool,
    pub now: Time,
}

impl Question<'_> {
    /// The members and the lists.
    fn strings(&self) -> (Strings, Strings) {
        let lists = self.lists.unwrap_or_default();
        (Strings::of(self.members), Strings::of(lists))
    }

    /// What the library takes. It points into these strings.
    fn lent(&self, strings: &(Strings, Strings)) -> CQuestion {
        let locator = self.locator.unwrap_or_default();
        CQuestion {
            size: size_of::<CQuestion>(),
            members: strings.0.lent(),
            lists: strings.1.lent(),
            locator: locator.as_ptr(),
            locator_length: locator.len(),
            moment: self.now,
            last: self.last,
            strict: self.strict.into(),
            revocation: self.lists.is_none().into(),
            anchor: self.locator.is_none().into(),
            key: self.any_key.into(),
            names: self.any_names.into(),
        }
    }
}

/// The ranges that a path holds.
#[derive(Default)]
pub struct Held {
    pub v4: Vec<IpRange>,
    pub v6: Vec<IpRange>,
    pub asn: Vec<AsRange>,
}

impl Held {
    fn resize(&mut self, v4: usize, v6: usize, asn: usize) {
        self.v4.resize(v4, IpRange::default());
        self.v6.resize(v6, IpRange::default());
        self.asn.resize(asn, AsRange::default());
    }

    // Makes it as long as this. Tells whether there was room for all.
    fn fit(&mut self, v4: usize, v6: usize, asn: usize) -> bool {
        let is_whole = v4 <= self.v4.len() && v6 <= self.v6.len() && asn <= self.asn.len();
        self.resize(v4, v6, asn);
        is_whole
    }

    fn room(&mut self) -> Room {
        Room {
            v4: self.v4.as_mut_ptr(),
            v4_room: self.v4.len(),
            v6: self.v6.as_mut_ptr(),
            v6_room: self.v6.len(),
            asn: self.asn.as_mut_ptr(),
            asn_room: self.asn.len(),
        }
    }
}

/// What the last member holds, or a fault and its place: a second call has room for more than 64
/// ranges of a kind.
pub fn judge(question: &Question<'_>) -> Result<Held, (u32, usize)> {
    let strings = question.strings();
    let asked = question.lent(&strings);
    let mut held = Held::default();
    held.resize(64, 64, 64);
    loop {
        let mut out = Verdict::default();
        // SAFETY: `asked` points into `question` and `strings`, and the room is that of `held`
        let fault = unsafe { rpki_path_validate(&asked, &mut held.room(), &mut out) };
        answered(fault, ()).map_err(|fault| (fault, out.index as usize))?;
        if held.fit(out.v4 as usize, out.v6 as usize, out.asn as usize) {
            return Ok(held);
        }
    }
}

/// What is asked of a folder. No depth and no steps ask for the usual ones.
pub struct FolderQuestion<'a> {
    pub strings: &'a [&'a [u8]],
    pub locator: &'a [u8],
    pub now: Time,
    pub depth: usize,
    pub steps: usize,
    pub strict: bool,
    pub any_key: bool,
    pub any_names: bool,
}

/// How the walk over a folder ended, a line for each string, and the ranges that are held; or a fault
/// and its place. A second call has room for more than some eight ranges of a kind a string.
pub fn judge_folder(
    question: &FolderQuestion<'_>,
) -> Result<(Walk, Vec<Line>, Held), (u32, usize)> {
    let strings = Strings::of(question.strings);
    let asked = CFolderQuestion {
        size: size_of::<CFolderQuestion>(),
        strings: strings.lent(),
        locator: question.locator.as_ptr(),
        locator_length: question.locator.len(),
        moment: question.now,
        depth: question.depth,
        steps: question.steps,
        strict: question.strict.into(),
        key: question.any_key.into(),
        names: question.any_names.into(),
    };
    let mut lines = vec![Line::default(); question.strings.len()];
    let mut held = Held::default();
    let usual = 8 * lines.len() + 64;
    held.resize(usual, usual, usual);
    loop {
        let mut out = Walk::default();
        let (put, room) = (lines.as_mut_ptr(), lines.len());
        // SAFETY: each pointer is that of a value, or of a slice with the length beside it
        let fault = unsafe { rpki_folder_judge(&asked, put, room, &mut held.room(), &mut out) };
        answered(fault, ()).map_err(|fault| (fault, out.anchor as usize))?;
        if held.fit(out.v4 as usize, out.v6 as usize, out.asn as usize) {
            return Ok((out, lines, held));
        }
    }
}

fn octets_of(octets: &[u8]) -> COctets {
    COctets {
        octets: octets.as_ptr(),
        length: octets.len(),
    }
}

/// What a certificate is to be. Each state is an enum rpki_state, and the URIs are those of enum
/// rpki_uri.
pub struct Wanted<'a> {
    pub issuer: Question<'a>,
    pub key: &'a [u8],
    pub v4: (u32, Vec<IpRange>),
    pub v6: (u32, Vec<IpRange>),
    pub asn: (u32, Vec<AsRange>),
    pub uris: [&'a [u8]; 6],
    pub not_before: Time,
    pub not_after: Time,
    pub serial: [u8; 20],
    pub kind: u32,
    pub trims: bool,
}

/// What was prepared, and its signature.
pub struct Completion<'a> {
    pub issuer: Question<'a>,
    pub prepared: &'a [u8],
    pub signature: &'a [u8],
    pub kind: u32,
}

/// What a call writes, or a fault and its place: where there is more than a first call has room for,
/// a second one writes it.
fn issued(write: impl Fn(*mut u8, usize, *mut Issued) -> u32) -> Result<Vec<u8>, (u32, usize)> {
    let mut room = vec![0; 4096];
    loop {
        let mut told = Issued::default();
        let fault = write(room.as_mut_ptr(), room.len(), &mut told);
        answered(fault, ()).map_err(|fault| (fault, told.index as usize))?;
        let is_whole = told.count as usize <= room.len();
        room.resize(told.count as usize, 0);
        if is_whole {
            return Ok(room);
        }
    }
}

/// What is to be signed, or a fault and its place.
pub fn prepare(wanted: &Wanted<'_>) -> Result<Vec<u8>, (u32, usize)> {
    let strings = wanted.issuer.strings();
    let addresses = |of: &(u32, Vec<IpRange>)| CAddresses {
        ranges: of.1.as_ptr(),
        count: of.1.len(),
        state: of.0,
    };
    let asked = CWanted {
        size: size_of::<CWanted>(),
        issuer: wanted.issuer.lent(&strings),
        key: octets_of(wanted.key),
        v4: addresses(&wanted.v4),
        v6: addresses(&wanted.v6),
        asn: CAsNumbers {
            ranges: wanted.asn.1.as_ptr(),
            count: wanted.asn.1.len(),
            state: wanted.asn.0,
        },
        uris: wanted.uris.map(octets_of),
        not_before: wanted.not_before,
        not_after: wanted.not_after,
        serial: wanted.serial,
        kind: wanted.kind,
        overclaim: wanted.trims.into(),
    };
    // SAFETY: `asked` points into slices that live on, and `issued` gives as much room as it says
    issued(|out, room, told| unsafe { rpki_prepare(&asked, out, room, told) })
}

/// The certificate, or a fault and its place.
pub fn complete(completion: &Completion<'_>) -> Result<Vec<u8>, (u32, usize)> {
    let strings = completion.issuer.strings();
    let asked = CCompletion {
        size: size_of::<CCompletion>(),
        issuer: completion.issuer.lent(&strings),
        prepared: octets_of(completion.prepared),
        signature: octets_of(completion.signature),
        kind: completion.kind,
    };
    // SAFETY: `asked` points into slices that live on, and `issued` gives as much room as it says
    issued(|out, room, told| unsafe { rpki_complete(&asked, out, room, told) })
}

/// What a revocation list is to be. A number of zeros chooses none.
pub struct WantedList<'a> {
    pub issuer: Question<'a>,
    pub previous: &'a [u8],
    pub revoked: Vec<Entry>,
    pub this_update: Time,
    pub next_update: Time,
    pub number: [u8; 20],
}

/// What was prepared of a list, and its signature.
pub struct ListCompletion<'a> {
    pub issuer: Question<'a>,
    pub prepared: &'a [u8],
    pub signature: &'a [u8],
}

/// What is to be signed of a list, or a fault and its place.
pub fn prepare_list(wanted: &WantedList<'_>) -> Result<Vec<u8>, (u32, usize)> {
    let strings = wanted.issuer.strings();
    let asked = CWantedList {
        size: size_of::<CWantedList>(),
        issuer: wanted.issuer.lent(&strings),
        previous: octets_of(wanted.previous),
        revoked: wanted.revoked.as_ptr(),
        revoked_count: wanted.revoked.len(),
        this_update: wanted.this_update,
        next_update: wanted.next_update,
        number: wanted.number,
    };
    // SAFETY: `asked` points into slices that live on, and `issued` gives as much room as it says
    issued(|out, room, told| unsafe { rpki_prepare_list(&asked, out, room, told) })
}

/// The list, or a fault and its place.
pub fn complete_list(completion: &ListCompletion<'_>) -> Result<Vec<u8>, (u32, usize)> {
    let strings = completion.issuer.strings();
    let asked = CListCompletion {
        size: size_of::<CListCompletion>(),
        issuer: completion.issuer.lent(&strings),
        prepared: octets_of(completion.prepared),
        signature: octets_of(completion.signature),
    };
    // SAFETY: `asked` points into slices that live on, and `issued` gives as much room as it says
    issued(|out, room, told| unsafe { rpki_complete_list(&asked, out, room, told) })
}
