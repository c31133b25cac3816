//! Reads and validates resource certificates and CRLs of the RPKI (RFC 6487), and issues them with
//! a key that is elsewhere, by the proved library librpki.
//!
//! ```no_run
//! use gonxebhula::{Anchor, FaultKind, Kind, Moment, Path, Revocation};
//!
//! fn files(names: &[&str]) -> std::io::Result<Vec<Vec<u8>>> {
//!     names.iter().map(std::fs::read).collect()
//! }
//!
//! fn main() -> std::io::Result<()> {
//!     let members = files(&["anchor.cer", "first.cer", "second.cer"])?;
//!     let lists = files(&["first.crl", "second.crl"])?;
//!     let locator = std::fs::read("anchor.tal")?;
//!     let (asked, anchor) = (Revocation::by_lists(&lists), Anchor::Located(&locator));
//!     let path = Path::new(&members, Kind::Authority, asked, anchor);
//!     match path.validate(Moment::now()) {
//!         Ok(held) => {
//!             for (min, max) in held.ipv4.iter() {
//!                 println!("{min} to {max}");
//!             }
//!         }
//!         Err(fault) if fault.kind() == FaultKind::Revocation => println!("not current: {fault}"),
//!         Err(fault) => println!("{fault}"),
//!     }
//!     Ok(())
//! }
//! ```
//!
//! Verdicts are proved: the library accepts a path if and only if it is valid by the standards'
//! definitions. This crate only moves values into it and out of it, and is tested. All types are
//! plain data, and so `Send` and `Sync`; the library has no state, and several threads may call it.
//!
//! # The library
//!
//! When a crate is built, librpki is searched in the directory that the variable `RPKI_LIBRARY`
//! names, or else where `pkg-config` finds `rpki.pc`, or else where the linker searches libraries.
//! When the program runs, the system searches librpki.so: if it isn't in a directory of the
//! system's, name its directory in `LD_LIBRARY_PATH`. With the feature `static` the program
//! contains librpki.a:
//!
//! ```text
//! export RPKI_LIBRARY=$HOME/.local/lib
//! LD_LIBRARY_PATH=$RPKI_LIBRARY cargo run
//! cargo run --features gonxebhula/static
//! ```
//!
//! Each call checks first that the library has this crate's interface, and panics if it hasn't.
//!
//! # Features
//!
//! None is on by default, and then no other crate is needed.
//!
//! - `static`: links librpki.a.
//! - `ipnet`: resources as networks of the crate ipnet: `ipv4_nets`, `ipv6_nets`,
//!   `Holdings::contains_net`.
//! - `serde`: [`Moment`] (as its text), [`Kind`], [`Uri`], [`Resources`], [`Holdings`], [`Entry`],
//!   [`FaultCode`], [`FaultKind`] and [`Place`] are `Serialize` and `Deserialize`; [`Fault`], [`Line`]
//!   and [`Judged`] are `Serialize`. Variants are in snake case, as `"end_entity"`.
mod code;
mod fault;
mod folder;
mod issuing;
mod moment;
mod sys;

pub use code::FaultCode;
pub use fault::{Fault, FaultKind, Place};
pub use folder::{Folder, Judged, LimitedCa, Line};
pub use issuing::{Issuer, Wanted, WantedList};
pub use moment::{Moment, NoMoment};

use std::collections::HashSet;
use std::net::{IpAddr, Ipv4Addr, Ipv6Addr};
use std::ops::RangeInclusive;
use std::sync::{Arc, Once};

/// Panics if the library has another interface than this crate.
fn check_library() {
    static CHECK: Once = Once::new();
    CHECK.call_once(|| {
        let version = sys::abi_version();
        assert_eq!(
            version,
            sys::ABI,
            "librpki isn't of the version of this crate"
        );
    });
}

/// The kind as which a certificate is validated. As another kind than its own it is rejected, with
/// an error of `FaultKind::Inspection`.
#[derive(Clone, Copy, Debug, PartialEq, Eq, Hash)]
#[cfg_attr(feature = "serde", derive(serde::Serialize, serde::Deserialize))]
#[cfg_attr(feature = "serde", serde(rename_all = "snake_case"))]
#[non_exhaustive]
pub enum Kind {
    /// A trust anchor.
    TrustAnchor = 0,
    /// A CA.
    Authority = 1,
    /// An end entity: the certificate of a signed object that is published, such as a ROA or a
    /// manifest. It has to have the object's URI (`Uri::SignedObject`, RFC 6487 4.8.8.2).
    EndEntity = 2,
    /// An end entity that needn't have that URI. All else is required as for `EndEntity`, so each
    /// of those is accepted too. Use it only if the object has no URI.
    Detached = 3,
    /// A BGPsec router (RFC 8209).
    Router = 4,
}

/// A URI of a certificate.
#[derive(Clone, Copy, Debug, PartialEq, Eq, Hash)]
#[cfg_attr(feature = "serde", derive(serde::Serialize, serde::Deserialize))]
#[cfg_attr(feature = "serde", serde(rename_all = "snake_case"))]
#[non_exhaustive]
pub enum Uri {
    /// Where its issuer's certificate is.
    CaIssuer = 0,
    /// The URI of its issuer's CRL.
    Crl = 1,
    /// Where it publishes.
    Repository = 2,
    /// Where its manifest is.
    Manifest = 3,
    /// Where the object is that it signs.
    SignedObject = 4,
    /// Where the notification file of RRDP is.
    Notify = 5,
}

impl Uri {
    // By its number in enum rpki_uri.
    fn of(number: usize) -> Option<Uri> {
        use Uri::*;
        let all = [CaIssuer, Crl, Repository, Manifest, SignedObject, Notify];
        all.get(number).copied()
    }
}

/// The ranges of a set. They ascend, and neither overlap nor touch.
pub type Ipv4Ranges = Vec<(Ipv4Addr, Ipv4Addr)>;
/// The ranges of a set. They ascend, and neither overlap nor touch.
pub type Ipv6Ranges = Vec<(Ipv6Addr, Ipv6Addr)>;
/// The ranges of a set. They ascend, and neither overlap nor touch.
pub type AsRanges = Vec<RangeInclusive<u32>>;

/// How a certificate has its resources of one kind. There is no fourth way (RFC 3779), so this may be
/// matched without a rest.
#[derive(Clone, Debug, PartialEq, Eq, Hash)]
#[cfg_attr(feature = "serde", derive(serde::Serialize, serde::Deserialize))]
#[cfg_attr(feature = "serde", serde(rename_all = "snake_case"))]
#[allow(clippy::exhaustive_enums)]
pub enum Resources<T> {
    /// It has none.
    Missing,
    /// It has those of its issuer.
    Inherited,
    /// It lists these.
    Listed(T),
}

impl<T> Resources<T> {
    fn of(state: u8, listed: impl FnOnce() -> Result<T, u32>) -> Result<Resources<T>, Fault> {
        match state {
            0 => Ok(Resources::Missing),
            1 => Ok(Resources::Inherited),
            _ => Ok(Resources::Listed(listed().map_err(Fault::new)?)),
        }
    }
}

/// The numbers that a path holds. Certificates of one directory that hold the same share the ranges.
#[derive(Clone, Debug, Default, PartialEq, Eq, Hash)]
#[cfg_attr(feature = "serde", derive(serde::Serialize, serde::Deserialize))]
#[non_exhaustive]
pub struct Holdings {
    /// IPv4 addresses.
    pub ipv4: Arc<Ipv4Ranges>,
    /// IPv6 addresses.
    pub ipv6: Arc<Ipv6Ranges>,
    /// AS numbers.
    pub as_numbers: Arc<AsRanges>,
}

impl Holdings {
    fn of(held: sys::Held) -> Holdings {
        Holdings {
            ipv4: Arc::new(ipv4(&held.v4)),
            ipv6: Arc::new(ipv6(&held.v6)),
            as_numbers: Arc::new(as_numbers(&held.asn)),
        }
    }

    /// Returns the IPv4 addresses as prefixes, the fewest that make them up.
    pub fn ipv4_prefixes(&self) -> Vec<(Ipv4Addr, u8)> {
        ipv4_prefixes(&self.ipv4)
    }

    /// Returns the IPv6 addresses as prefixes, the fewest that make them up.
    pub fn ipv6_prefixes(&self) -> Vec<(Ipv6Addr, u8)> {
        ipv6_prefixes(&self.ipv6)
    }

    /// Returns the IPv4 addresses as networks, the fewest that make them up. Requires the feature
    /// `ipnet`.
    #[cfg(feature = "ipnet")]
    pub fn ipv4_nets(&self) -> Vec<ipnet::Ipv4Net> {
        ipv4_nets(&self.ipv4)
    }

    /// Returns the IPv6 addresses as networks, the fewest that make them up. Requires the feature
    /// `ipnet`.
    #[cfg(feature = "ipnet")]
    pub fn ipv6_nets(&self) -> Vec<ipnet::Ipv6Net> {
        ipv6_nets(&self.ipv6)
    }

    /// Returns whether all of a network is held. Requires the feature `ipnet`.
    #[cfg(feature = "ipnet")]
    pub fn contains_net(&self, net: ipnet::IpNet) -> bool {
        self.contains_prefix(net.addr(), net.prefix_len())
    }

    /// Returns whether this address is held.
    pub fn contains(&self, address: IpAddr) -> bool {
        let length = if address.is_ipv4() { 32 } else { 128 };
        self.contains_prefix(address, length)
    }

    /// Returns whether all of a prefix is held. A prefix that is longer than its family's addresses
    /// is not.
    pub fn contains_prefix(&self, address: IpAddr, length: u8) -> bool {
        match address {
            IpAddr::V4(it) if length <= 32 => {
                let host = u32::MAX.checked_shr(length.into()).unwrap_or(0);
                let first = u32::from(it) & !host;
                covers(&self.ipv4, &first.into(), &(first | host).into())
            }
            IpAddr::V6(it) if length <= 128 => {
                let host = u128::MAX.checked_shr(length.into()).unwrap_or(0);
                let first = u128::from(it) & !host;
                covers(&self.ipv6, &first.into(), &(first | host).into())
            }
            _ => false,
        }
    }

    /// Returns whether this AS number is held.
    pub fn contains_as(&self, number: u32) -> bool {
        let behind = self.as_numbers.partition_point(|it| *it.start() <= number);
        behind > 0 && self.as_numbers[behind - 1].contains(&number)
    }
}

/// Returns the fewest prefixes that make up these ranges: the first address of each, and its length.
pub fn ipv4_prefixes(ranges: &[(Ipv4Addr, Ipv4Addr)]) -> Vec<(Ipv4Addr, u8)> {
    let bounds =
        |(min, max): &(Ipv4Addr, Ipv4Addr)| (u32::from(*min).into(), u32::from(*max).into());
    let address = |(first, length)| (Ipv4Addr::from(first as u32), length);
    let ranges = ranges.iter().map(bounds);
    ranges
        .flat_map(|it| prefixes(it, 32))
        .map(address)
        .collect()
}

/// Returns the fewest prefixes that make up these ranges: the first address of each, and its length.
pub fn ipv6_prefixes(ranges: &[(Ipv6Addr, Ipv6Addr)]) -> Vec<(Ipv6Addr, u8)> {
    let bounds = |(min, max): &(Ipv6Addr, Ipv6Addr)| (u128::from(*min), u128::from(*max));
    let address = |(first, length)| (Ipv6Addr::from(first), length);
    let ranges = ranges.iter().map(bounds);
    ranges
        .flat_map(|it| prefixes(it, 128))
        .map(address)
        .collect()
}

/// Returns the fewest networks that make up these ranges. Requires the feature `ipnet`.
#[cfg(feature = "ipnet")]
pub fn ipv4_nets(ranges: &[(Ipv4Addr, Ipv4Addr)]) -> Vec<ipnet::Ipv4Net> {
    let net = |(first, length)| ipnet::Ipv4Net::new(first, length).ok();
    ipv4_prefixes(ranges).into_iter().filter_map(net).collect()
}

/// Returns the fewest networks that make up these ranges. Requires the feature `ipnet`.
#[cfg(feature = "ipnet")]
pub fn ipv6_nets(ranges: &[(Ipv6Addr, Ipv6Addr)]) -> Vec<ipnet::Ipv6Net> {
    let net = |(first, length)| ipnet::Ipv6Net::new(first, length).ok();
    ipv6_prefixes(ranges).into_iter().filter_map(net).collect()
}

// The fewest prefixes of a range of addresses of so many bits, the first address of each as a number.
fn prefixes((first, last): (u128, u128), bits: u32) -> impl Iterator<Item = (u128, u8)> {
    let mut next = (first <= last).then_some(first);
    std::iter::from_fn(move || {
        let first = next?;
        // the greatest block that begins here, and one that doesn't end behind the last address
        let fits = match (last - first).checked_add(1) {
            Some(count) => 127 - count.leading_zeros(),
            None => 128,
        };
        let host = first.trailing_zeros().min(fits).min(bits);
        let end = first | u128::MAX.checked_shr(128 - host).unwrap_or(0);
        next = (end < last).then(|| end + 1);
        Some((first, (bits - host) as u8))
    })
}

// Whether one of these ranges, which ascend, has all from the first to the last.
fn covers<T: Ord>(ranges: &[(T, T)], first: &T, last: &T) -> bool {
    let behind = ranges.partition_point(|(min, _)| min <= first);
    behind > 0 && *last <= ranges[behind - 1].1
}

fn ipv4(ranges: &[sys::IpRange]) -> Ipv4Ranges {
    let first_four = |it: [u8; 16]| Ipv4Addr::new(it[0], it[1], it[2], it[3]);
    let both = |it: &sys::IpRange| (first_four(it.min), first_four(it.max));
    ranges.iter().map(both).collect()
}

fn ipv6(ranges: &[sys::IpRange]) -> Ipv6Ranges {
    let both = |it: &sys::IpRange| (it.min.into(), it.max.into());
    ranges.iter().map(both).collect()
}

fn as_numbers(ranges: &[sys::AsRange]) -> AsRanges {
    ranges.iter().map(|it| it.min..=it.max).collect()
}

/// A resource certificate, read from DER.
///
/// ```no_run
/// # fn main() -> Result<(), Box<dyn std::error::Error>> {
/// let cert = gonxebhula::Certificate::read(&std::fs::read("ca.cer")?)?;
/// println!("valid until {}", cert.not_after());
/// # Ok(())
/// # }
/// ```
#[derive(Clone, Debug)]
pub struct Certificate {
    octets: Vec<u8>,
    read: sys::Certificate,
}

impl Certificate {
    /// Reads the certificate at the start of the bytes, and ignores the rest.
    ///
    /// # Errors
    ///
    /// Returns an error if the bytes don't start with a certificate.
    ///
    /// # Not checked
    ///
    /// The profile, the signature and the validity: [`Path::validate`] checks them.
    pub fn read(octets: &[u8]) -> Result<Certificate, Fault> {
        check_library();
        let of_reading = |number| Fault::of_reading(number, octets, false);
        let read = sys::certificate(octets).map_err(of_reading)?;
        Ok(Certificate {
            octets: octets.to_vec(),
            read,
        })
    }

    /// Returns the bytes that it was read from.
    pub fn as_bytes(&self) -> &[u8] {
        &self.octets
    }

    /// Returns the serial number, the most significant byte first.
    pub fn serial_number(&self) -> [u8; 20] {
        self.read.serial
    }

    /// Returns the first second of the validity.
    pub fn not_before(&self) -> Moment {
        Moment(self.read.not_before)
    }

    /// Returns the last second of the validity.
    pub fn not_after(&self) -> Moment {
        Moment(self.read.not_after)
    }

    /// Returns the identifier of its key.
    pub fn subject_key_identifier(&self) -> [u8; 20] {
        self.read.subject_key
    }

    /// Returns the identifier of its issuer's key, if it has one.
    pub fn authority_key_identifier(&self) -> Option<[u8; 20]> {
        (self.read.has_authority_key != 0).then_some(self.read.authority_key)
    }

    /// Returns whether Basic Constraints say that it is a CA.
    pub fn is_authority(&self) -> bool {
        self.read.is_authority != 0
    }

    /// Returns whether its key usage is a CA's, and not an end entity's.
    pub fn signs_certificates(&self) -> bool {
        self.read.key_usage == 0
    }

    /// Returns whether overclaimed resources are trimmed (RFC 8360), and not rejected.
    pub fn trims_resources(&self) -> bool {
        self.read.overclaim != 0
    }

    /// Returns its IPv4 addresses.
    pub fn ipv4(&self) -> Result<Resources<Ipv4Ranges>, Fault> {
        Resources::of(self.read.v4, || {
            sys::addresses(&self.octets, 4).map(|it| ipv4(&it))
        })
    }

    /// Returns its IPv6 addresses.
    pub fn ipv6(&self) -> Result<Resources<Ipv6Ranges>, Fault> {
        Resources::of(self.read.v6, || {
            sys::addresses(&self.octets, 6).map(|it| ipv6(&it))
        })
    }

    /// Returns its AS numbers.
    pub fn as_numbers(&self) -> Result<Resources<AsRanges>, Fault> {
        Resources::of(self.read.asn, || {
            sys::as_numbers(&self.octets).map(|it| as_numbers(&it))
        })
    }

    /// Returns one of its URIs, if it has it.
    pub fn uri(&self, which: Uri) -> Result<Option<String>, Fault> {
        let uri = sys::certificate_uri(&self.octets, which as u32).map_err(Fault::new)?;
        Ok((!uri.is_empty()).then(|| String::from_utf8_lossy(&uri).into_owned()))
    }

    /// Returns the issuer's Name in DER.
    pub fn issuer(&self) -> Result<Vec<u8>, Fault> {
        sys::certificate_name(&self.octets, 0).map_err(Fault::new)
    }

    /// Returns the subject's Name in DER.
    pub fn subject(&self) -> Result<Vec<u8>, Fault> {
        sys::certificate_name(&self.octets, 1).map_err(Fault::new)
    }

    /// Returns the issuer's name as text (RFC 4514, but with the parts in the order of the name), as
    /// `CN=0A1B`. It has visible ASCII characters alone, and escapes all others.
    pub fn issuer_text(&self) -> Result<String, Fault> {
        self.name_text(2)
    }

    /// Returns the subject's name as text, in the same form.
    pub fn subject_text(&self) -> Result<String, Fault> {
        self.name_text(3)
    }

    fn name_text(&self, which: u32) -> Result<String, Fault> {
        let text = sys::certificate_name(&self.octets, which).map_err(Fault::new)?;
        Ok(String::from_utf8_lossy(&text).into_owned())
    }

    /// Returns its key: the SubjectPublicKeyInfo in DER.
    pub fn public_key(&self) -> Result<Vec<u8>, Fault> {
        let (key, _) = sys::certificate_key(&self.octets).map_err(Fault::new)?;
        Ok(key)
    }

    /// Returns whether the RPKI uses such a key: RSA of 2048 bits with the exponent 65537 (RFC 7935 3),
    /// or for routers an uncompressed point on the curve P-256 (RFC 8608 3.1).
    pub fn has_usable_key(&self) -> Result<bool, Fault> {
        let (_, is_used) = sys::certificate_key(&self.octets).map_err(Fault::new)?;
        Ok(is_used)
    }

    /// Checks that it meets the profile of a kind. Strictly, names have to have the strings of RFC
    /// 6487 4.4.
    pub fn inspect(&self, kind: Kind, strict: bool) -> Result<(), Fault> {
        sys::inspect(&self.octets, kind as u32, strict).map_err(Fault::new)
    }
}

impl TryFrom<&[u8]> for Certificate {
    type Error = Fault;

    fn try_from(octets: &[u8]) -> Result<Certificate, Fault> {
        Certificate::read(octets)
    }
}

/// Compares by the bytes.
impl PartialEq for Certificate {
    fn eq(&self, other: &Certificate) -> bool {
        self.octets == other.octets
    }
}

impl Eq for Certificate {}

impl std::hash::Hash for Certificate {
    fn hash<H: std::hash::Hasher>(&self, state: &mut H) {
        self.octets.hash(state);
    }
}

impl AsRef<[u8]> for Certificate {
    fn as_ref(&self) -> &[u8] {
        self.as_bytes()
    }
}

/// A revoked certificate's serial number, the most significant byte first, and its revocation date.
#[derive(Clone, Copy, Debug, PartialEq, Eq, Hash)]
#[cfg_attr(feature = "serde", derive(serde::Serialize, serde::Deserialize))]
#[non_exhaustive]
pub struct Entry {
    /// The serial number.
    pub serial_number: [u8; 20],
    /// Since when it is revoked.
    pub revoked_at: Moment,
}

impl Entry {
    /// Makes an entry of a serial number and the time since when it is revoked.
    pub const fn new(serial_number: [u8; 20], revoked_at: Moment) -> Entry {
        Entry {
            serial_number,
            revoked_at,
        }
    }
}

/// A CRL, read from DER.
///
/// ```no_run
/// # use gonxebhula::{Certificate, RevocationList};
/// # fn main() -> Result<(), Box<dyn std::error::Error>> {
/// let list = RevocationList::read(&std::fs::read("ca.crl")?)?;
/// let cert = Certificate::read(&std::fs::read("object.cer")?)?;
/// println!("revoked: {}", list.contains(&cert.serial_number())?);
/// # Ok(())
/// # }
/// ```
#[derive(Clone, Debug)]
pub struct RevocationList {
    octets: Vec<u8>,
    read: sys::List,
}

impl RevocationList {
    /// Reads the CRL at the start of the bytes, and ignores the rest.
    ///
    /// # Errors
    ///
    /// Returns an error if the bytes don't start with a CRL.
    ///
    /// # Not checked
    ///
    /// The signature, and the times: [`Path::validate`] checks them.
    pub fn read(octets: &[u8]) -> Result<RevocationList, Fault> {
        check_library();
        let of_reading = |number| Fault::of_reading(number, octets, true);
        let read = sys::list(octets).map_err(of_reading)?;
        Ok(RevocationList {
            octets: octets.to_vec(),
            read,
        })
    }

    /// Returns the bytes that it was read from.
    pub fn as_bytes(&self) -> &[u8] {
        &self.octets
    }

    /// Returns the CRL number, the most significant byte first.
    pub fn number(&self) -> [u8; 20] {
        self.read.number
    }

    /// Returns when it was issued.
    pub fn this_update(&self) -> Moment {
        Moment(self.read.this_update)
    }

    /// Returns until when the next one is issued.
    pub fn next_update(&self) -> Moment {
        Moment(self.read.next_update)
    }

    /// Returns the identifier of its issuer's key.
    pub fn authority_key_identifier(&self) -> [u8; 20] {
        self.read.authority_key
    }

    /// Returns the issuer's Name in DER.
    pub fn issuer(&self) -> Result<Vec<u8>, Fault> {
        sys::list_issuer(&self.octets).map_err(Fault::new)
    }

    /// Returns the entries, in the CRL's order.
    pub fn entries(&self) -> Result<Vec<Entry>, Fault> {
        let entry = |it: sys::Entry| Entry {
            serial_number: it.serial,
            revoked_at: Moment(it.date),
        };
        let entries = sys::entries(&self.octets).map_err(Fault::new)?;
        Ok(entries.into_iter().map(entry).collect())
    }

    /// Returns the entries that the issuer's next CRL may drop, because their certificates are
    /// among these and had expired before this CRL was issued (RFC 5280 3.3: an entry has to be on
    /// one CRL that was issued after the certificate expired).
    ///
    /// A certificate counts if its issuer's name and key identifier are those of the CRL's issuer.
    ///
    /// # Not checked
    ///
    /// That the issuer signed it. Pass only certificates that it issued.
    pub fn expired<'c>(
        &self,
        certificates: impl IntoIterator<Item = &'c Certificate>,
    ) -> Result<Vec<Entry>, Fault> {
        let (issuer, key) = (self.issuer()?, Some(self.authority_key_identifier()));
        let mut ended = HashSet::new();
        for it in certificates {
            let is_own = it.authority_key_identifier() == key && it.issuer()? == issuer;
            if is_own && it.not_after() < self.this_update() {
                ended.insert(it.serial_number());
            }
        }
        let mut entries = self.entries()?;
        entries.retain(|entry| ended.contains(&entry.serial_number));
        Ok(entries)
    }

    /// Returns whether the serial number is on the CRL. Each call reads the CRL:
    /// [`RevocationList::contains_each`] reads it once for many serial numbers, and
    /// [`RevocationList::table`] once for as many calls as you like.
    ///
    /// # Not checked
    ///
    /// Whose CRL it is.
    pub fn contains(&self, serial_number: &[u8; 20]) -> Result<bool, Fault> {
        self.contains_each(std::slice::from_ref(serial_number))
            .map(|answers| answers[0])
    }

    /// Returns for each of these serial numbers whether it is on the CRL.
    pub fn contains_each(&self, serial_numbers: &[[u8; 20]]) -> Result<Vec<bool>, Fault> {
        sys::are_revoked(&self.octets, serial_numbers).map_err(Fault::new)
    }

    /// Returns a table of the serial numbers, for many questions at different times.
    pub fn table(&self) -> Result<RevocationTable, Fault> {
        let rows = sys::table(&self.octets).map_err(Fault::new)?;
        Ok(RevocationTable { rows })
    }
}

/// The serial numbers of a CRL, in 24 bytes each. [`RevocationList::table`] makes it.
#[derive(Clone, Debug)]
pub struct RevocationTable {
    rows: Vec<sys::Serial>,
}

impl RevocationTable {
    /// Returns whether the serial number is on the CRL.
    pub fn contains(&self, serial_number: &[u8; 20]) -> bool {
        sys::is_in(&self.rows, serial_number)
    }

    /// Returns for each of these serial numbers whether it is on the CRL.
    pub fn contains_each(&self, serial_numbers: &[[u8; 20]]) -> Vec<bool> {
        sys::are_in(&self.rows, serial_numbers)
    }
}

impl TryFrom<&[u8]> for RevocationList {
    type Error = Fault;

    fn try_from(octets: &[u8]) -> Result<RevocationList, Fault> {
        RevocationList::read(octets)
    }
}

/// Compares by the bytes.
impl PartialEq for RevocationList {
    fn eq(&self, other: &RevocationList) -> bool {
        self.octets == other.octets
    }
}

impl Eq for RevocationList {}

impl std::hash::Hash for RevocationList {
    fn hash<H: std::hash::Hasher>(&self, state: &mut H) {
        self.octets.hash(state);
    }
}

impl AsRef<[u8]> for RevocationList {
    fn as_ref(&self) -> &[u8] {
        self.as_bytes()
    }
}

/// How revocation is checked. There is no default, since either choice decides what is accepted.
#[derive(Clone, Debug, PartialEq, Eq, Hash)]
#[non_exhaustive]
pub enum Revocation<'a> {
    /// These revocation lists, in any order: each member below the trust anchor has to be unrevoked by
    /// the latest list of its issuer that has begun. Each stands alone: behind one nothing may stand,
    /// since that may be another one. A list has to have its issuer's name (RFC 5280 6.3.3 (b) (1)),
    /// unless names are waived. One that names no key of the path is read up to its extensions, so the
    /// lists of a whole cache may be given. `by_lists` makes it of any that are at hand.
    ByLists(Vec<&'a [u8]>),
    /// Not at all: a revoked certificate is accepted.
    NotAsked,
}

impl<'a> Revocation<'a> {
    /// Checks revocation by these CRLs, such as `&[RevocationList]` or `&Vec<Vec<u8>>`.
    pub fn by_lists<T>(lists: impl IntoIterator<Item = &'a T>) -> Revocation<'a>
    where
        T: AsRef<[u8]> + ?Sized + 'a,
    {
        Revocation::ByLists(slices(lists))
    }

    fn lists(&self) -> Option<&[&'a [u8]]> {
        match self {
            Revocation::ByLists(lists) => Some(lists),
            Revocation::NotAsked => None,
        }
    }
}

/// What is checked of the trust anchor. There is no default, since either choice decides what is
/// accepted.
#[derive(Clone, Copy, Debug, PartialEq, Eq, Hash)]
#[non_exhaustive]
pub enum Anchor<'a> {
    /// It has to have the key of this TAL file (RFC 8630).
    Located(&'a [u8]),
    /// Nothing: anybody's is accepted.
    AsGiven,
}

impl<'a> Anchor<'a> {
    fn locator(self) -> Option<&'a [u8]> {
        match self {
            Anchor::Located(file) => Some(file),
            Anchor::AsGiven => None,
        }
    }
}

/// The bytes of each, in their order.
fn slices<'a, T>(strings: impl IntoIterator<Item = &'a T>) -> Vec<&'a [u8]>
where
    T: AsRef<[u8]> + ?Sized + 'a,
{
    strings.into_iter().map(AsRef::as_ref).collect()
}

/// A path of certificates, and what is checked of it.
///
/// ```no_run
/// # use gonxebhula::{Anchor, Kind, Moment, Path, Revocation};
/// # fn main() -> Result<(), Box<dyn std::error::Error>> {
/// let mut members = Vec::new();
/// for name in ["anchor.cer", "ca.cer", "object.cer"] {
///     members.push(std::fs::read(name)?);
/// }
/// let locator = std::fs::read("anchor.tal")?;
/// let anchor = Anchor::Located(&locator);
/// let path = Path::new(&members, Kind::EndEntity, Revocation::NotAsked, anchor);
/// match path.validate("2026-06-01T12:00:00Z".parse()?) {
///     Ok(held) => println!("{:?}", held.as_numbers),
///     Err(fault) => println!("{fault}: {:?}", fault.place()),
/// }
/// # Ok(())
/// # }
/// ```
#[derive(Clone, Debug)]
pub struct Path<'a> {
    members: Vec<&'a [u8]>,
    last: Kind,
    revocation: Revocation<'a>,
    anchor: Anchor<'a>,
    strict: bool,
    chain_names: bool,
    check_key: bool,
}

impl<'a> Path<'a> {
    /// Makes a path of these certificates, as `&[Certificate]` or `&Vec<Vec<u8>>` has them, in order,
    /// the trust anchor first. The last one is judged as of this kind, and this is checked of
    /// revocation and of the trust anchor.
    pub fn new<T>(
        members: impl IntoIterator<Item = &'a T>,
        last: Kind,
        revocation: Revocation<'a>,
        anchor: Anchor<'a>,
    ) -> Path<'a>
    where
        T: AsRef<[u8]> + ?Sized + 'a,
    {
        Path {
            members: slices(members),
            last,
            revocation,
            anchor,
            strict: true,
            chain_names: true,
            check_key: true,
        }
    }

    /// Accepts string types in names that RFC 6487 4.4 doesn't allow, and any bytes in a TAL's
    /// comments.
    pub fn lenient(mut self) -> Path<'a> {
        self.strict = false;
        self
    }

    /// Doesn't check that each issuer is the subject of the certificate above it (RFC 6487 7.2),
    /// and that a CRL has its issuer's name (RFC 5280 6.3.3).
    pub fn without_names(mut self) -> Path<'a> {
        self.chain_names = false;
        self
    }

    /// Doesn't check that the RPKI uses the last certificate's key (RFC 7935 3, RFC 8608 3.1).
    pub fn with_any_key(mut self) -> Path<'a> {
        self.check_key = false;
        self
    }

    // Why so many certificates aren't a path that ends in one of the kind.
    fn why_no_path(&self) -> Option<&'static str> {
        match (self.members.len(), self.last) {
            (0, _) => Some("there are no certificates"),
            (1, Kind::EndEntity | Kind::Detached | Kind::Router) => {
                Some("there are too few certificates: one of this kind has an issuer")
            }
            (2.., Kind::TrustAnchor) => Some("the last of several certificates is a trust anchor"),
            _ => None,
        }
    }

    /// Validates the path, with signatures (RFC 7935), and returns what its last certificate holds;
    /// for a router's certificate, what the certificate above it holds (RFC 6487 7.2).
    ///
    /// # Errors
    ///
    /// Returns the error of the first wrong certificate. Names are checked after all of these, and
    /// the last key at the end.
    ///
    /// # Not checked
    ///
    /// Manifests.
    pub fn validate(&self, now: Moment) -> Result<Holdings, Fault> {
        check_library();
        let question = sys::Question {
            members: &self.members,
            last: self.last as u32,
            lists: self.revocation.lists(),
            locator: self.anchor.locator(),
            strict: self.strict,
            any_key: !self.check_key,
            any_names: !self.chain_names,
            now: now.0,
        };
        let of_path = |(number, index)| {
            let lists = question.lists.unwrap_or_default();
            Fault::of_path(number, index, &self.members, lists)
        };
        if let Some(why) = self.why_no_path() {
            return Err(Fault::bad_call(why));
        }
        sys::judge(&question).map(Holdings::of).map_err(of_path)
    }
}
