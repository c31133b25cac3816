//! Why something is rejected.
use crate::{sys, FaultCode, Uri};
use std::error::Error;
use std::fmt;

/// What an error is about, with the names of its errors.
#[derive(Clone, Copy, Debug, PartialEq, Eq, Hash)]
#[cfg_attr(feature = "serde", derive(serde::Serialize, serde::Deserialize))]
#[cfg_attr(feature = "serde", serde(rename_all = "snake_case"))]
#[non_exhaustive]
pub enum FaultKind {
    /// Memory ran out. Its name is `Memory`.
    Memory,
    /// The call itself is wrong: there are too few certificates, or a range or a serial number
    /// doesn't exist. The sentence says which. Its name is `BadCall`.
    BadCall,
    /// The bytes don't start with a certificate or a CRL, or other bytes follow a CRL of a path.
    ///
    /// Its name is `Truncated`, `BadLength`, `BadTag`, `BadValue`, `Trailing`, `TooDeep`,
    /// `AlgorithmMismatch`, `UnexpectedCritical`, `InvalidExtension`, `Missing`, `Duplicate`,
    /// `Critical`, `NotCritical` or `WrongResources`. The number and the sentence say which
    /// extension is missing, or there twice.
    Decode,
    /// The certificate doesn't meet the profile of the kind as which it is validated. This also
    /// happens if the caller names another kind than its own: an end entity's certificate as
    /// `Kind::Authority` has `MissingBasicConstraints`.
    ///
    /// Its name is `AlgorithmMismatch`, `Issuer`, `Subject`, `KeyAlgorithm`,
    /// `SubjectKeyIdentifier`, `ExtendedKeyUsagePresent`, `CaFlagFalse`, `MissingBasicConstraints`,
    /// `KeyUsage`, `MissingCaRepository`, `MissingManifest`, `ManifestNotChild`,
    /// `SignedObjectPresent`, `AuthorityKeyIdentifier`, `CrlUriPresent`, `CaIssuerPresent`,
    /// `MissingCrlUri`, `BasicConstraintsPresent`, `CaRepositoryPresent`, `ManifestPresent`,
    /// `MissingSignedObject`, `MissingExtendedKeyUsage`, `MissingRouterPurpose`,
    /// `SubjectInformationPresent`, `IpResourcesPresent`, `MissingAsResources` or
    /// `InheritedAsResources`.
    Inspection,
    /// The certificate isn't valid at the time, or not issued by the one above it.
    ///
    /// Its name is `NotYetValid`, `Expired`, `InheritedV4`, `InheritedV6`, `InheritedAs`,
    /// `MissingKeyId`, `WrongKeyId`, `MissingIssuerUri`, `BadSignature`, `OverclaimV4`,
    /// `OverclaimV6` or `OverclaimAs`.
    Verification,
    /// The CRLs don't show that the certificate isn't revoked (RFC 6487 7.2).
    ///
    /// Its name is `NoCrl`, `WrongKeyId`, `BadSignature`, `Stale`, `Revoked` or `WrongIssuer`.
    Revocation,
    /// The issuer isn't the subject of the certificate above it. Its name is `OtherName`.
    Names,
    /// The RPKI doesn't use the last certificate's key. Its name is `BadKey`.
    Key,
    /// The file is no TAL, or the trust anchor has another key or lists no resources (RFC 8630).
    ///
    /// Its name is `OtherKey` for the key, `NoResources` for the resources, and else `NoText`,
    /// `BadUri`, `NoUri`, `NoKey` or `BadKey`.
    Locator,
    /// No certificate or CRL can be issued with this key, this URI, these fields or these bytes.
    ///
    /// Its name is `NoKey`, `UnusedKey`, `BadUri`, `NoName`, `Unwritable`, `TooLong`, `NotToSign` or
    /// `OtherOctets`; for a CRL alone it is `OtherList` if the previous one isn't the issuer's,
    /// `Number`, `LongNumber` or `UpdateOrder`.
    Issuing,
}

/// The place of an error in a question.
#[derive(Clone, Copy, Debug, PartialEq, Eq, Hash)]
#[cfg_attr(feature = "serde", derive(serde::Serialize, serde::Deserialize))]
#[cfg_attr(feature = "serde", serde(rename_all = "snake_case"))]
#[non_exhaustive]
pub enum Place {
    /// This certificate of the path, the trust anchor at 0; or this string of a directory.
    Member(usize),
    /// This CRL, by its index among the given CRLs.
    List(usize),
    /// The certificate or the CRL that is to be issued.
    Issued,
    /// This URI of the certificate that is to be issued.
    Uri(Uri),
}

/// The place where reading stops.
#[derive(Clone, PartialEq, Eq, Hash)]
struct Stop {
    octet: usize,
    field: String,
    wanted: String,
    found: String,
}

impl Stop {
    fn of(it: sys::Stop) -> Stop {
        Stop {
            octet: it.octet,
            field: text(Ok(it.field)),
            wanted: text(Ok(it.wanted)),
            found: text(Ok(it.found)),
        }
    }
}

/// Why something is rejected. It displays place, sentence and name: `member 2: certificate revoked
/// (Revoked)`, or `list 1: truncated value (Truncated)`; without a place it starts with the
/// sentence.
#[derive(Clone, PartialEq, Eq, Hash)]
pub struct Fault {
    number: u32,
    place: Option<Place>,
    stop: Option<Stop>,
    // what is wrong of a call
    why: Option<&'static str>,
}

impl Fault {
    pub(crate) fn new(number: u32) -> Fault {
        Fault::at(number, None)
    }

    fn at(number: u32, place: Option<Place>) -> Fault {
        Fault {
            number,
            place,
            stop: None,
            why: None,
        }
    }

    // Of a call that is wrong, since this is so.
    pub(crate) fn bad_call(why: &'static str) -> Fault {
        Fault {
            why: Some(why),
            ..Fault::new(sys::BAD_CALL)
        }
    }

    // Of octets that are read as a certificate, or as a list.
    pub(crate) fn of_reading(number: u32, octets: &[u8], is_list: bool) -> Fault {
        Fault::new(number).with_stop(octets, is_list)
    }

    // With where reading stops, if that is the fault.
    fn with_stop(mut self, octets: &[u8], is_list: bool) -> Fault {
        if self.kind() == FaultKind::Decode {
            let stop = sys::stop(octets, is_list).unwrap_or_default();
            self.stop = stop.map(Stop::of);
        }
        self
    }

    // Of a path of these members, or of one of these lists, which stand behind them.
    pub(crate) fn of_path(number: u32, index: usize, members: &[&[u8]], lists: &[&[u8]]) -> Fault {
        if number == sys::MEMORY || number == sys::BAD_CALL || number / 100 == 7 {
            return Fault::new(number);
        }
        match index.checked_sub(members.len()) {
            None => Fault::at(number, Some(Place::Member(index))).with_stop(members[index], false),
            Some(list) => {
                let octets = lists.get(list).copied().unwrap_or_default();
                Fault::at(number, Some(Place::List(list))).with_stop(octets, true)
            }
        }
    }

    // Of what is issued below these members, of one of them, or of one of these lists.
    pub(crate) fn of_issued(
        number: u32,
        index: usize,
        members: &[&[u8]],
        lists: &[&[u8]],
    ) -> Fault {
        match number {
            sys::MEMORY | sys::BAD_CALL | 700..=799 => Fault::new(number),
            sys::BAD_URI => Fault::at(number, Uri::of(index).map(Place::Uri)),
            // a list that can't be read is behind the members
            100..=299 => Fault::of_path(number, index, members, lists),
            _ if index >= members.len() => Fault::at(number, Some(Place::Issued)),
            _ => Fault::at(number, Some(Place::Member(index))),
        }
    }

    // Of the trust anchor at a place of a folder, or of its locator.
    pub(crate) fn of_anchor(number: u32, anchor: usize) -> Fault {
        let is_anchors = matches!(number, 100..=600 | sys::NO_RESOURCES);
        Fault::at(number, is_anchors.then_some(Place::Member(anchor)))
    }

    /// Returns the number, of `enum rpki_fault` of rpki.h. It is unique, and never gets another
    /// meaning.
    pub fn number(&self) -> u32 {
        self.number
    }

    /// Returns the number by its name in rpki.h, without the part that an error of reading is
    /// about.
    pub fn code(&self) -> FaultCode {
        let number = match self.number {
            120..=219 => self.number - self.number % 20,
            number => number,
        };
        FaultCode::of(number).unwrap_or(FaultCode::BadCall)
    }

    /// Returns which certificate or CRL is wrong, if it is one of a path or a directory. There is
    /// none for a TAL that can't be read.
    pub fn place(&self) -> Option<Place> {
        self.place
    }

    /// Returns the offset at which reading stops, for an error of `FaultKind::Decode`: the bytes
    /// before it were read, and from there on there is no value of the part that has to come next.
    /// There is none if bytes follow a CRL.
    pub fn octet(&self) -> Option<usize> {
        self.stop.as_ref().map(|stop| stop.octet)
    }

    /// Returns the name of that part, such as `the serial number`.
    pub fn field(&self) -> Option<&str> {
        self.stop.as_ref().map(|stop| stop.field.as_str())
    }

    /// Returns what is expected there, with the section that requires it, such as `a Name (RFC 5280
    /// 4.1.2.4)`.
    pub fn wanted(&self) -> Option<&str> {
        self.stop.as_ref().map(|stop| stop.wanted.as_str())
    }

    /// Returns what is wrong with what is found there, such as `a negative number`, if that is
    /// known.
    pub fn found(&self) -> Option<&str> {
        let found = self.stop.as_ref().map(|stop| stop.found.as_str());
        found.filter(|text| !text.is_empty())
    }

    /// Returns what it is about.
    pub fn kind(&self) -> FaultKind {
        match self.number {
            sys::MEMORY => FaultKind::Memory,
            sys::BAD_CALL => FaultKind::BadCall,
            300..=399 => FaultKind::Inspection,
            400..=499 => FaultKind::Verification,
            500..=599 => FaultKind::Revocation,
            600 => FaultKind::Names,
            603 => FaultKind::Key,
            601..=602 | 700..=799 => FaultKind::Locator,
            800..=899 => FaultKind::Issuing,
            _ => FaultKind::Decode,
        }
    }

    /// Returns the name, such as `BadSignature`. Errors of two kinds may have one name: that one is
    /// a certificate's if the kind is `Verification`, and a CRL's if it is `Revocation`.
    pub fn name(&self) -> String {
        text(sys::fault_name(self.number))
    }

    /// Returns what it means.
    pub fn sentence(&self) -> String {
        match self.why {
            Some(why) => why.to_owned(),
            None => text(sys::fault_sentence(self.number)),
        }
    }
}

/// A text of the library's, which has one for each number that it answers.
fn text(octets: Result<Vec<u8>, u32>) -> String {
    String::from_utf8_lossy(&octets.unwrap_or_default()).into_owned()
}

/// Prints what a `main` prints that ends with an error: also its name.
impl fmt::Debug for Fault {
    fn fmt(&self, f: &mut fmt::Formatter<'_>) -> fmt::Result {
        f.debug_struct("Fault")
            .field("number", &self.number)
            .field("name", &self.name())
            .field("place", &self.place)
            .finish()
    }
}

impl fmt::Display for Fault {
    fn fmt(&self, f: &mut fmt::Formatter<'_>) -> fmt::Result {
        match self.place {
            Some(Place::Member(at)) => write!(f, "member {at}: ")?,
            Some(Place::List(at)) => write!(f, "list {at}: ")?,
            Some(Place::Uri(which)) => write!(f, "the URI {which:?}: ")?,
            Some(Place::Issued) | None => {}
        }
        write!(f, "{} ({})", self.sentence(), self.name())
    }
}

impl Error for Fault {}

/// Serializes the number, the name, the sentence and the place; of an error of reading also where
/// reading stops.
#[cfg(feature = "serde")]
impl serde::Serialize for Fault {
    fn serialize<S: serde::Serializer>(&self, serializer: S) -> Result<S::Ok, S::Error> {
        use serde::ser::SerializeStruct;
        let mut it = serializer.serialize_struct("Fault", 9)?;
        it.serialize_field("number", &self.number)?;
        it.serialize_field("kind", &self.kind())?;
        it.serialize_field("name", &self.name())?;
        it.serialize_field("sentence", &self.sentence())?;
        it.serialize_field("place", &self.place)?;
        it.serialize_field("octet", &self.octet())?;
        it.serialize_field("field", &self.field())?;
        it.serialize_field("wanted", &self.wanted())?;
        it.serialize_field("found", &self.found())?;
        it.end()
    }
}
