//! Certificates and CRLs that are issued with a key that is elsewhere.
use crate::{
    check_library, slices, sys, Anchor, AsRanges, Certificate, Entry, Fault, Ipv4Ranges,
    Ipv6Ranges, Kind, Moment, Resources, Revocation, RevocationList, Uri,
};
use std::collections::HashSet;

/// A requested certificate. The names, key identifiers, key usage and policy are set as RFC 6487 4
/// requires. [`Wanted::new`] makes it, and its fields are set then.
#[derive(Clone, Debug)]
#[non_exhaustive]
pub struct Wanted<'a> {
    /// Its kind.
    pub kind: Kind,
    /// The subject's SubjectPublicKeyInfo in DER.
    pub key: &'a [u8],
    /// The serial number, the most significant byte first: above 0 and below 2^159.
    pub serial_number: [u8; 20],
    /// The first second of the validity.
    pub not_before: Moment,
    /// The last second of the validity.
    pub not_after: Moment,
    /// IPv4 addresses. Ranges may be in any order, and may overlap.
    pub ipv4: Resources<Ipv4Ranges>,
    /// IPv6 addresses.
    pub ipv6: Resources<Ipv6Ranges>,
    /// AS numbers.
    pub as_numbers: Resources<AsRanges>,
    /// The URIs. If there are several of one kind, the last one counts.
    pub uris: &'a [(Uri, &'a str)],
    /// Whether overclaimed resources are trimmed (RFC 8360), and not rejected.
    pub trims_resources: bool,
}

impl<'a> Wanted<'a> {
    /// Makes it of what every certificate has. It has no resources and no URIs yet.
    pub fn new(
        kind: Kind,
        key: &'a [u8],
        serial_number: [u8; 20],
        not_before: Moment,
        not_after: Moment,
    ) -> Wanted<'a> {
        Wanted {
            kind,
            key,
            serial_number,
            not_before,
            not_after,
            ipv4: Resources::Missing,
            ipv6: Resources::Missing,
            as_numbers: Resources::Missing,
            uris: &[],
            trims_resources: false,
        }
    }
}

/// A requested CRL: the issuer's next one, or its first. The issuer's name and the identifier of
/// its key are set as RFC 6487 5 requires. [`WantedList::new`] makes it, and its fields are set
/// then.
#[derive(Clone, Debug)]
#[non_exhaustive]
pub struct WantedList<'a> {
    /// The issuer's previous CRL, if there is one. Its entries stay, except for those of `expired`.
    pub previous: Option<&'a [u8]>,
    /// Certificates of the issuer's. The entries that [`RevocationList::expired`] returns for these
    /// are dropped: their certificates had expired before the previous CRL was issued.
    pub expired: &'a [Certificate],
    /// The entries to be added to those of the previous CRL.
    pub revoked: &'a [Entry],
    /// When it is issued.
    pub this_update: Moment,
    /// Until when the next one is issued.
    pub next_update: Moment,
    /// The CRL number, the most significant byte first: greater than the previous one, and below
    /// 2^159. The default is one more, and 1 for a first CRL.
    pub number: Option<[u8; 20]>,
}

impl<'a> WantedList<'a> {
    /// Makes a first CRL, which revokes nothing, with these times.
    pub fn new(this_update: Moment, next_update: Moment) -> WantedList<'a> {
        WantedList {
            previous: None,
            expired: &[],
            revoked: &[],
            this_update,
            next_update,
            number: None,
        }
    }
}

/// What is listed of a kind of numbers, as the library takes it.
fn resources<T, R>(listed: &Resources<T>, ranges: impl Fn(&T) -> Vec<R>) -> (u32, Vec<R>) {
    match listed {
        Resources::Missing => (0, Vec::new()),
        Resources::Inherited => (1, Vec::new()),
        Resources::Listed(listed) => (2, ranges(listed)),
    }
}

fn ipv4(ranges: &Ipv4Ranges) -> Vec<sys::IpRange> {
    let octets = |it: std::net::Ipv4Addr| {
        let mut octets = [0; 16];
        octets[..4].copy_from_slice(&it.octets());
        octets
    };
    let range = |it: &(_, _)| sys::IpRange {
        min: octets(it.0),
        max: octets(it.1),
    };
    ranges.iter().map(range).collect()
}

fn ipv6(ranges: &Ipv6Ranges) -> Vec<sys::IpRange> {
    let range = |it: &(std::net::Ipv6Addr, std::net::Ipv6Addr)| sys::IpRange {
        min: it.0.octets(),
        max: it.1.octets(),
    };
    ranges.iter().map(range).collect()
}

fn as_numbers(ranges: &AsRanges) -> Vec<sys::AsRange> {
    let range = |it: &std::ops::RangeInclusive<u32>| sys::AsRange {
        min: *it.start(),
        max: *it.end(),
    };
    ranges.iter().map(range).collect()
}

// Why resources of a kind aren't listed: there are none, or a range is back to front.
const IPV4_TEXTS: [&str; 2] = [
    "ipv4: no range is listed; expected Resources::Missing for no addresses",
    "ipv4: a range ends before it begins",
];
const IPV6_TEXTS: [&str; 2] = [
    "ipv6: no range is listed; expected Resources::Missing for no addresses",
    "ipv6: a range ends before it begins",
];
const AS_TEXTS: [&str; 2] = [
    "as_numbers: no range is listed; expected Resources::Missing for no AS numbers",
    "as_numbers: a range ends before it begins",
];

fn why_unlisted<T>(
    resources: &Resources<Vec<T>>,
    texts: &[&'static str; 2],
    is_back: impl Fn(&T) -> bool,
) -> Option<&'static str> {
    match resources {
        Resources::Listed(listed) if listed.is_empty() => Some(texts[0]),
        Resources::Listed(listed) if listed.iter().any(is_back) => Some(texts[1]),
        _ => None,
    }
}

// The number behind this one, which isn't the greatest.
fn next(mut number: [u8; 20]) -> [u8; 20] {
    for octet in number.iter_mut().rev() {
        *octet = octet.wrapping_add(1);
        if *octet != 0 {
            break;
        }
    }
    number
}

/// The issuer: the CA in which a path ends, as it is validated at a time; or none above a trust
/// anchor, which signs itself.
#[derive(Clone, Debug)]
pub struct Issuer<'a> {
    path: Vec<&'a [u8]>,
    revocation: Revocation<'a>,
    anchor: Anchor<'a>,
    strict: bool,
    chain_names: bool,
    now: Moment,
}

impl<'a> Issuer<'a> {
    /// Makes the issuer that a path of certificates ends in, as `&[Certificate]` or `&Vec<Vec<u8>>` has
    /// them, in order, the trust anchor first. This is checked of revocation and of the trust anchor.
    pub fn new<T>(
        path: impl IntoIterator<Item = &'a T>,
        revocation: Revocation<'a>,
        anchor: Anchor<'a>,
        now: Moment,
    ) -> Issuer<'a>
    where
        T: AsRef<[u8]> + ?Sized + 'a,
    {
        Issuer {
            path: slices(path),
            revocation,
            anchor,
            strict: true,
            chain_names: true,
            now,
        }
    }

    /// Makes the issuer of a trust anchor: nobody is above it, and it signs itself.
    pub fn of_anchor(now: Moment) -> Issuer<'a> {
        Issuer::new::<[u8]>([], Revocation::NotAsked, Anchor::AsGiven, now)
    }

    /// Accepts string types in names that RFC 6487 4.4 doesn't allow.
    pub fn lenient(mut self) -> Issuer<'a> {
        self.strict = false;
        self
    }

    /// Doesn't check that each issuer of the path is the subject of the certificate above it (RFC
    /// 6487 7.2), and that a CRL has its issuer's name (RFC 5280 6.3.3).
    pub fn without_names(mut self) -> Issuer<'a> {
        self.chain_names = false;
        self
    }

    fn question(&self, kind: Kind) -> sys::Question<'_> {
        let last = match kind {
            Kind::TrustAnchor => Kind::TrustAnchor,
            _ => Kind::Authority,
        };
        sys::Question {
            members: &self.path,
            last: last as u32,
            lists: self.revocation.lists(),
            locator: self.anchor.locator(),
            strict: self.strict,
            any_key: false,
            any_names: !self.chain_names,
            now: self.now.0,
        }
    }

    // Why there is no such certificate below this issuer, whatever is signed.
    fn why_unwanted(&self, wanted: &Wanted<'_>) -> Option<&'static str> {
        let serial = &wanted.serial_number;
        if *serial == [0; 20] || serial[0] >= 0x80 {
            return Some("serial_number: expected a number above 0 and below 2^159");
        }
        let texts = why_unlisted(&wanted.ipv4, &IPV4_TEXTS, |it| it.1 < it.0)
            .or_else(|| why_unlisted(&wanted.ipv6, &IPV6_TEXTS, |it| it.1 < it.0))
            .or_else(|| why_unlisted(&wanted.as_numbers, &AS_TEXTS, |it| it.end() < it.start()));
        if texts.is_some() {
            return texts;
        }
        match (wanted.kind == Kind::TrustAnchor, self.path.is_empty()) {
            (true, false) => Some("kind: a trust anchor has no issuer, and the path isn't empty"),
            (false, true) => {
                Some("kind: a certificate of this kind has an issuer, and there is none")
            }
            _ => None,
        }
    }

    // A number and an index, of what is issued or of who issues.
    fn fault(&self, (number, index): (u32, usize)) -> Fault {
        let lists = self.revocation.lists().unwrap_or_default();
        Fault::of_issued(number, index, &self.path, lists)
    }

    /// Prepares a certificate for its signature: returns the TBSCertificate, which the issuer's key
    /// has to sign (RSASSA-PKCS1-v1_5 with SHA-256, RFC 7935). All is checked that a validator will
    /// check below the issuer, but the signature.
    ///
    /// # Errors
    ///
    /// Returns the error of a certificate of the path, or of the requested one (`Place::Issued`, or
    /// `Place::Uri` for one of its URIs).
    pub fn prepare(&self, wanted: &Wanted<'_>) -> Result<Vec<u8>, Fault> {
        check_library();
        if let Some(why) = self.why_unwanted(wanted) {
            return Err(Fault::bad_call(why));
        }
        let mut uris: [&[u8]; 6] = [&[]; 6];
        for (which, uri) in wanted.uris {
            uris[*which as usize] = uri.as_bytes();
        }
        let asked = sys::Wanted {
            issuer: self.question(wanted.kind),
            key: wanted.key,
            v4: resources(&wanted.ipv4, ipv4),
            v6: resources(&wanted.ipv6, ipv6),
            asn: resources(&wanted.as_numbers, as_numbers),
            uris,
            not_before: wanted.not_before.0,
            not_after: wanted.not_after.0,
            serial: wanted.serial_number,
            kind: wanted.kind as u32,
            trims: wanted.trims_resources,
        };
        sys::prepare(&asked).map_err(|it| self.fault(it))
    }

    /// Completes a prepared certificate with its signature: returns the certificate if and only if
    /// the issuer's key (a trust anchor's own key) signed what was prepared.
    ///
    /// # Errors
    ///
    /// As [`Issuer::prepare`].
    pub fn complete(
        &self,
        kind: Kind,
        prepared: &[u8],
        signature: &[u8],
    ) -> Result<Certificate, Fault> {
        check_library();
        let asked = sys::Completion {
            issuer: self.question(kind),
            prepared,
            signature,
            kind: kind as u32,
        };
        let octets = sys::complete(&asked).map_err(|it| self.fault(it))?;
        Certificate::read(&octets)
    }

    /// Prepares the issuer's next CRL, or its first one, for its signature: returns the
    /// TBSCertList, which the issuer's key has to sign, as [`Issuer::prepare`] does. The entries of
    /// the previous CRL stay, except for those that may be dropped. New entries follow them, each
    /// serial number once.
    ///
    /// # Errors
    ///
    /// As [`Issuer::prepare`].
    pub fn prepare_list(&self, wanted: &WantedList<'_>) -> Result<Vec<u8>, Fault> {
        check_library();
        if self.path.is_empty() {
            return Err(Fault::bad_call(
                "a CRL has an issuer, and the path is empty",
            ));
        }
        let octets = self.prepared_list(wanted)?;
        let before = match wanted.previous {
            Some(before) => RevocationList::read(before)?,
            None => return Ok(octets),
        };
        let dropped = before.expired(wanted.expired)?;
        if dropped.is_empty() {
            return Ok(octets);
        }
        // the list before was checked above: this one is made as a first list, of what stays of it
        let dropped: HashSet<Entry> = dropped.into_iter().collect();
        let mut kept = before.entries()?;
        kept.retain(|entry| !dropped.contains(entry));
        kept.extend(wanted.revoked);
        let mut first = wanted.clone();
        first.previous = None;
        first.revoked = &kept;
        first.number = wanted.number.or_else(|| Some(next(before.number())));
        self.prepared_list(&first)
    }

    // What is to be signed of a list that drops no entries.
    fn prepared_list(&self, wanted: &WantedList<'_>) -> Result<Vec<u8>, Fault> {
        let entry = |it: &Entry| sys::Entry {
            date: it.revoked_at.0,
            serial: it.serial_number,
        };
        let asked = sys::WantedList {
            issuer: self.question(Kind::Authority),
            previous: wanted.previous.unwrap_or_default(),
            revoked: wanted.revoked.iter().map(entry).collect(),
            this_update: wanted.this_update.0,
            next_update: wanted.next_update.0,
            number: wanted.number.unwrap_or_default(),
        };
        sys::prepare_list(&asked).map_err(|it| self.fault(it))
    }

    /// Completes a prepared CRL with its signature: returns the CRL if and only if the issuer's key
    /// signed what was prepared.
    ///
    /// # Errors
    ///
    /// As [`Issuer::prepare_list`].
    pub fn complete_list(
        &self,
        prepared: &[u8],
        signature: &[u8],
    ) -> Result<RevocationList, Fault> {
        check_library();
        let asked = sys::ListCompletion {
            issuer: self.question(Kind::Authority),
            prepared,
            signature,
        };
        let octets = sys::complete_list(&asked).map_err(|it| self.fault(it))?;
        RevocationList::read(&octets)
    }
}
