//! Certificates and revocation lists in any order.
use crate::{as_numbers, ipv4, ipv6};
use crate::{
    check_library, slices, sys, AsRanges, Fault, Holdings, Ipv4Ranges, Ipv6Ranges, Kind, Moment,
};
use std::collections::HashMap;
use std::sync::Arc;

/// The result for one string of a directory.
///
/// Six variants are of certificates without a verdict, and say why there is none
/// ([`Line::is_unjudged`]). The certificate's issuer is the one among the strings whose key it names as
/// its signer's. Of several with that key it is an accepted CA at which a limit was reached on each path
/// to it, else an accepted CA below which the walk looked, else a rejected one, else an accepted one that
/// isn't a CA, else one without a verdict; of equal ones the first. An issuer that is rejected with `BadKey`
/// counts as accepted here.
#[derive(Clone, Debug, PartialEq, Eq, Hash)]
#[cfg_attr(feature = "serde", derive(serde::Serialize))]
#[cfg_attr(feature = "serde", serde(rename_all = "snake_case"))]
#[non_exhaustive]
pub enum Line {
    /// A certificate that names no key as its signer's, or a key that no certificate among the strings
    /// has.
    NoIssuer,
    /// A certificate whose issuer is an accepted CA below which the walk looked, and didn't issue it: the
    /// CA has another name, or its key didn't sign the certificate.
    #[non_exhaustive]
    NotIssued {
        /// The index of its issuer's string.
        issuer: usize,
    },
    /// A certificate whose issuer is accepted, and isn't a CA.
    #[non_exhaustive]
    IssuerNotCa {
        /// The index of its issuer's string.
        issuer: usize,
    },
    /// A certificate at whose issuer the walk reached a limit, on each path to it.
    /// [`Judged::limited`] has the limit.
    #[non_exhaustive]
    NotLookedAt {
        /// The index of its issuer's string.
        issuer: usize,
    },
    /// A certificate whose issuer is rejected: the issuer's line has the error.
    #[non_exhaustive]
    BelowRejected {
        /// The index of its issuer's string.
        issuer: usize,
    },
    /// A certificate on whose issuer there is no verdict either. The issuer may be the certificate
    /// itself, and several such may form a circle.
    #[non_exhaustive]
    BelowUnseen {
        /// The index of its issuer's string.
        issuer: usize,
    },
    /// The trust anchor, which is valid, or a copy of it.
    Anchor,
    /// The last certificate of a valid path.
    #[non_exhaustive]
    Accepted {
        /// How many certificates of the path are above it.
        step: usize,
        /// The index of its issuer's string: of the CA right above it.
        issuer: usize,
        /// As what it was judged.
        kind: Kind,
        /// What it holds; of a router's certificate what the one above it holds.
        held: Holdings,
    },
    /// A certificate that is wrong below each valid path to its issuer.
    #[non_exhaustive]
    Rejected {
        /// How many certificates of the path are above it.
        step: usize,
        /// Why it is rejected.
        fault: Fault,
        /// As what it was judged.
        kind: Kind,
    },
    /// A CRL.
    List,
    /// Neither a certificate nor a CRL; also a CRL that other bytes follow.
    Neither,
}

impl Line {
    /// Returns whether it is a valid certificate.
    pub fn is_valid(&self) -> bool {
        matches!(self, Line::Anchor | Line::Accepted { .. })
    }

    /// Returns whether it is a certificate without a verdict; its variant says why there is none.
    pub fn is_unjudged(&self) -> bool {
        matches!(
            self,
            Line::NoIssuer
                | Line::NotIssued { .. }
                | Line::IssuerNotCa { .. }
                | Line::NotLookedAt { .. }
                | Line::BelowRejected { .. }
                | Line::BelowUnseen { .. }
        )
    }

    /// Returns the index of its issuer's string: of the CA right above an accepted certificate, or of
    /// the issuer of a certificate without a verdict. `None` if there is none, and of other lines.
    pub fn issuer(&self) -> Option<usize> {
        match self {
            Line::Accepted { issuer, .. }
            | Line::NotIssued { issuer }
            | Line::IssuerNotCa { issuer }
            | Line::NotLookedAt { issuer }
            | Line::BelowRejected { issuer }
            | Line::BelowUnseen { issuer } => Some(*issuer),
            _ => None,
        }
    }

    fn of(it: &sys::Line, held: &mut SharedRanges<'_>) -> Line {
        let (step, issuer) = (it.step as usize, it.issuer as usize);
        match it.what {
            sys::NOT_ISSUED => Line::NotIssued { issuer },
            sys::ISSUER_NOT_CA => Line::IssuerNotCa { issuer },
            sys::NOT_LOOKED_AT => Line::NotLookedAt { issuer },
            sys::BELOW_REJECTED => Line::BelowRejected { issuer },
            sys::BELOW_UNSEEN => Line::BelowUnseen { issuer },
            sys::ANCHOR => Line::Anchor,
            sys::ACCEPTED => Line::Accepted {
                step,
                issuer,
                kind: kind_of(it.kind),
                held: held.of(&it.held),
            },
            sys::REJECTED => Line::Rejected {
                step,
                fault: Fault::new(it.fault),
                kind: kind_of(it.kind),
            },
            sys::LIST => Line::List,
            sys::NEITHER => Line::Neither,
            _ => Line::NoIssuer,
        }
    }
}

// The ranges that lines hold, by their place and number: those that several lines share are made once.
struct SharedRanges<'a> {
    held: &'a sys::Held,
    ipv4: HashMap<(u64, u64), Arc<Ipv4Ranges>>,
    ipv6: HashMap<(u64, u64), Arc<Ipv6Ranges>>,
    as_numbers: HashMap<(u64, u64), Arc<AsRanges>>,
}

impl<'a> SharedRanges<'a> {
    fn new(held: &'a sys::Held) -> SharedRanges<'a> {
        SharedRanges {
            held,
            ipv4: HashMap::new(),
            ipv6: HashMap::new(),
            as_numbers: HashMap::new(),
        }
    }

    fn of(&mut self, it: &sys::HeldPlaces) -> Holdings {
        let held = self.held;
        Holdings {
            ipv4: shared(&mut self.ipv4, &held.v4, (it.v4_at, it.v4), ipv4),
            ipv6: shared(&mut self.ipv6, &held.v6, (it.v6_at, it.v6), ipv6),
            as_numbers: shared(
                &mut self.as_numbers,
                &held.asn,
                (it.asn_at, it.asn),
                as_numbers,
            ),
        }
    }
}

// The ranges at a place, so many, which are made if they weren't yet.
fn shared<R, T>(
    made: &mut HashMap<(u64, u64), Arc<T>>,
    all: &[R],
    (at, count): (u64, u64),
    make: fn(&[R]) -> T,
) -> Arc<T> {
    let part = &all[at as usize..(at + count) as usize];
    Arc::clone(
        made.entry((at, count))
            .or_insert_with(|| Arc::new(make(part))),
    )
}

// A kind below a trust anchor.
fn kind_of(number: u32) -> Kind {
    match number {
        1 => Kind::Authority,
        2 => Kind::EndEntity,
        3 => Kind::Detached,
        _ => Kind::Router,
    }
}

/// A CA, or the trust anchor, at which the walk over a directory reached a limit: on a path to it none of
/// its children was validated.
#[derive(Clone, Copy, Debug, PartialEq, Eq, Hash)]
#[cfg_attr(feature = "serde", derive(serde::Serialize))]
#[non_exhaustive]
pub struct LimitedCa {
    /// The index of its string.
    pub ca: usize,
    /// Whether a path to it has [`Folder::depth`] certificates below the trust anchor, and it has a
    /// child.
    pub at_depth: bool,
    /// Whether its share of the steps is less than its children, on a path to it.
    pub out_of_steps: bool,
    /// The least [`Folder::steps`] with which the children are validated on such a path, with the same
    /// depth. `None` if it isn't `out_of_steps`, or if no 64 bits are enough.
    pub steps_needed: Option<u64>,
}

impl LimitedCa {
    fn of((ca, it): (usize, &sys::Line)) -> Option<LimitedCa> {
        if it.limits == 0 {
            return None;
        }
        Some(LimitedCa {
            ca,
            at_depth: it.limits & sys::LIMIT_DEPTH != 0,
            out_of_steps: it.limits & sys::LIMIT_STEPS != 0,
            steps_needed: Some(it.needed).filter(|needed| *needed != 0),
        })
    }
}

/// The results for the strings of a directory.
#[derive(Clone, Debug, PartialEq, Eq, Hash)]
#[cfg_attr(feature = "serde", derive(serde::Serialize))]
#[non_exhaustive]
pub struct Judged {
    /// A line for each string, in their order.
    pub lines: Vec<Line>,
    /// The place of the trust anchor among them.
    pub anchor: usize,
    /// Whether all was looked at to which a valid path leads. Else a limit was reached, and what isn't
    /// accepted may yet be valid.
    pub is_whole: bool,
    /// The CAs at which a limit was reached, in the order of their strings; none if `is_whole`.
    pub limited: Vec<LimitedCa>,
}

/// Certificates and CRLs in any order, and what is checked of them.
///
/// ```no_run
/// # use gonxebhula::{Folder, Moment};
/// # fn main() -> Result<(), Box<dyn std::error::Error>> {
/// let names = ["object.cer", "ca.cer", "anchor.crl", "ca.crl", "anchor.cer"];
/// let mut files = Vec::new();
/// for name in names {
///     files.push(std::fs::read(name)?);
/// }
/// let locator = std::fs::read("anchor.tal")?;
/// let judged = Folder::new(&files, &locator).judge(Moment::now())?;
/// for (name, line) in names.iter().zip(&judged.lines) {
///     println!("{name}: {line:?}");
/// }
/// # Ok(())
/// # }
/// ```
#[derive(Clone, Debug)]
pub struct Folder<'a> {
    octets: Vec<&'a [u8]>,
    locator: &'a [u8],
    strict: bool,
    chain_names: bool,
    check_key: bool,
    depth: usize,
    steps: usize,
}

impl<'a> Folder<'a> {
    /// Makes a directory of these strings, such as `&Vec<Vec<u8>>`. The trust anchor is a valid
    /// certificate among them with the key of this TAL file (RFC 8630); if several are valid, the one
    /// that is valid longest.
    pub fn new<T>(octets: impl IntoIterator<Item = &'a T>, locator: &'a [u8]) -> Folder<'a>
    where
        T: AsRef<[u8]> + ?Sized + 'a,
    {
        Folder {
            octets: slices(octets),
            locator,
            strict: true,
            chain_names: true,
            check_key: true,
            depth: 0,
            steps: 0,
        }
    }

    /// Accepts string types in names that RFC 6487 4.4 doesn't allow, and any bytes in a TAL's
    /// comments.
    pub fn lenient(mut self) -> Folder<'a> {
        self.strict = false;
        self
    }

    /// Doesn't check that each issuer is the subject of the certificate above it (RFC 6487 7.2), and
    /// that a CRL has its issuer's name (RFC 5280 6.3.3).
    pub fn without_names(mut self) -> Folder<'a> {
        self.chain_names = false;
        self
    }

    /// Doesn't check that the RPKI uses a certificate's key (RFC 7935 3, RFC 8608 3.1).
    pub fn with_any_key(mut self) -> Folder<'a> {
        self.check_key = false;
        self
    }

    /// Limits paths to so many certificates below the trust anchor; 0 means 32.
    pub fn depth(mut self, depth: usize) -> Folder<'a> {
        self.depth = depth;
        self
    }

    /// Limits the steps of the walk: a certificate that a CA signed takes one for each path that leads
    /// to it, and they are divided evenly among the CAs below each CA; 0 means 10,000,000.
    pub fn steps(mut self, steps: usize) -> Folder<'a> {
        self.steps = steps;
        self
    }

    /// Validates each certificate that an accepted CA signed, as the kind that it says, with signatures
    /// (RFC 7935) and by the CRLs among the strings. [`Path::validate`](crate::Path::validate) accepts
    /// what is accepted here. Copies of a certificate have one line, and take the steps of one.
    ///
    /// # Errors
    ///
    /// Returns an error if the TAL isn't one, or if no certificate has its key. If no trust anchor is
    /// valid, returns what is wrong with the first certificate that has the key (`Place::Member`, its
    /// index among the strings).
    ///
    /// # Not checked
    ///
    /// Manifests. A withheld file isn't detected: a caller who reads manifests leaves out the files that
    /// they don't list.
    pub fn judge(&self, now: Moment) -> Result<Judged, Fault> {
        check_library();
        let question = sys::FolderQuestion {
            strings: &self.octets,
            locator: self.locator,
            now: now.0,
            depth: self.depth,
            steps: self.steps,
            strict: self.strict,
            any_key: !self.check_key,
            any_names: !self.chain_names,
        };
        let of_anchor = |(number, anchor)| Fault::of_anchor(number, anchor);
        let (walk, lines, held) = sys::judge_folder(&question).map_err(of_anchor)?;
        let mut ranges = SharedRanges::new(&held);
        Ok(Judged {
            lines: lines.iter().map(|it| Line::of(it, &mut ranges)).collect(),
            anchor: walk.anchor as usize,
            is_whole: walk.ended == sys::WHOLE,
            limited: lines.iter().enumerate().filter_map(LimitedCa::of).collect(),
        })
    }
}

#[cfg(test)]
mod tests {
    use super::SharedRanges;
    use crate::sys::{AsRange, Held, HeldPlaces};
    use std::sync::Arc;

    #[test]
    fn ranges_at_one_place_are_made_once() {
        let of = |number| AsRange {
            min: number,
            max: number + 1,
        };
        let held = Held {
            asn: vec![of(1), of(7)],
            ..Held::default()
        };
        let places = |asn_at, asn| HeldPlaces {
            asn_at,
            asn,
            ..HeldPlaces::default()
        };
        let mut ranges = SharedRanges::new(&held);
        let one = ranges.of(&places(0, 2));
        let other = ranges.of(&places(0, 2));
        assert!(Arc::ptr_eq(&one.as_numbers, &other.as_numbers));
        assert_eq!(*one.as_numbers, [1..=2, 7..=8]);
        assert_eq!(*ranges.of(&places(1, 1)).as_numbers, [7..=8]);
        assert_eq!(*ranges.of(&places(0, 1)).as_numbers, [1..=2]);
        assert!(one.ipv4.is_empty() && one.ipv6.is_empty());
    }
}
