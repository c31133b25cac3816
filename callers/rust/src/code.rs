//! The numbers of faults, as enum rpki_fault of rpki.h has them. docs/make_header.py writes this.

/// The number of a fault, by its name in rpki.h. A fault of reading that speaks of a part
/// (`DecodeMissing`, `DecodeDuplicate` ..) is here without the part's number.
#[derive(Clone, Copy, Debug, PartialEq, Eq, Hash, PartialOrd, Ord)]
#[cfg_attr(feature = "serde", derive(serde::Serialize, serde::Deserialize))]
#[cfg_attr(feature = "serde", serde(rename_all = "snake_case"))]
#[non_exhaustive]
#[repr(u32)]
pub enum FaultCode {
    /// `RPKI_MEMORY` of rpki.h.
    Memory = 1,
    /// `RPKI_BAD_CALL` of rpki.h.
    BadCall = 2,
    /// `RPKI_DECODE_TRUNCATED` of rpki.h.
    DecodeTruncated = 100,
    /// `RPKI_DECODE_BAD_LENGTH` of rpki.h.
    DecodeBadLength = 101,
    /// `RPKI_DECODE_BAD_TAG` of rpki.h.
    DecodeBadTag = 102,
    /// `RPKI_DECODE_BAD_VALUE` of rpki.h.
    DecodeBadValue = 103,
    /// `RPKI_DECODE_TRAILING` of rpki.h.
    DecodeTrailing = 104,
    /// `RPKI_DECODE_TOO_DEEP` of rpki.h.
    DecodeTooDeep = 105,
    /// `RPKI_DECODE_ALGORITHM_MISMATCH` of rpki.h.
    DecodeAlgorithmMismatch = 106,
    /// `RPKI_DECODE_UNEXPECTED_CRITICAL` of rpki.h.
    DecodeUnexpectedCritical = 107,
    /// `RPKI_DECODE_INVALID_EXTENSION` of rpki.h.
    DecodeInvalidExtension = 108,
    /// `RPKI_DECODE_MISSING` of rpki.h.
    DecodeMissing = 120,
    /// `RPKI_DECODE_DUPLICATE` of rpki.h.
    DecodeDuplicate = 140,
    /// `RPKI_DECODE_CRITICAL` of rpki.h.
    DecodeCritical = 160,
    /// `RPKI_DECODE_NOT_CRITICAL` of rpki.h.
    DecodeNotCritical = 180,
    /// `RPKI_DECODE_WRONG_RESOURCES` of rpki.h.
    DecodeWrongResources = 200,
    /// `RPKI_INSPECTION_ALGORITHM_MISMATCH` of rpki.h.
    InspectionAlgorithmMismatch = 300,
    /// `RPKI_INSPECTION_ISSUER` of rpki.h.
    InspectionIssuer = 301,
    /// `RPKI_INSPECTION_SUBJECT` of rpki.h.
    InspectionSubject = 302,
    /// `RPKI_INSPECTION_KEY_ALGORITHM` of rpki.h.
    InspectionKeyAlgorithm = 303,
    /// `RPKI_INSPECTION_SUBJECT_KEY_IDENTIFIER` of rpki.h.
    InspectionSubjectKeyIdentifier = 304,
    /// `RPKI_INSPECTION_EXTENDED_KEY_USAGE_PRESENT` of rpki.h.
    InspectionExtendedKeyUsagePresent = 305,
    /// `RPKI_INSPECTION_CA_FLAG_FALSE` of rpki.h.
    InspectionCaFlagFalse = 306,
    /// `RPKI_INSPECTION_MISSING_BASIC_CONSTRAINTS` of rpki.h.
    InspectionMissingBasicConstraints = 307,
    /// `RPKI_INSPECTION_KEY_USAGE` of rpki.h.
    InspectionKeyUsage = 308,
    /// `RPKI_INSPECTION_MISSING_CA_REPOSITORY` of rpki.h.
    InspectionMissingCaRepository = 309,
    /// `RPKI_INSPECTION_MISSING_MANIFEST` of rpki.h.
    InspectionMissingManifest = 310,
    /// `RPKI_INSPECTION_MANIFEST_NOT_CHILD` of rpki.h.
    InspectionManifestNotChild = 311,
    /// `RPKI_INSPECTION_SIGNED_OBJECT_PRESENT` of rpki.h.
    InspectionSignedObjectPresent = 312,
    /// `RPKI_INSPECTION_AUTHORITY_KEY_IDENTIFIER` of rpki.h.
    InspectionAuthorityKeyIdentifier = 313,
    /// `RPKI_INSPECTION_CRL_URI_PRESENT` of rpki.h.
    InspectionCrlUriPresent = 314,
    /// `RPKI_INSPECTION_CA_ISSUER_PRESENT` of rpki.h.
    InspectionCaIssuerPresent = 315,
    /// `RPKI_INSPECTION_MISSING_CRL_URI` of rpki.h.
    InspectionMissingCrlUri = 316,
    /// `RPKI_INSPECTION_BASIC_CONSTRAINTS_PRESENT` of rpki.h.
    InspectionBasicConstraintsPresent = 317,
    /// `RPKI_INSPECTION_CA_REPOSITORY_PRESENT` of rpki.h.
    InspectionCaRepositoryPresent = 318,
    /// `RPKI_INSPECTION_MANIFEST_PRESENT` of rpki.h.
    InspectionManifestPresent = 319,
    /// `RPKI_INSPECTION_MISSING_SIGNED_OBJECT` of rpki.h.
    InspectionMissingSignedObject = 320,
    /// `RPKI_INSPECTION_MISSING_EXTENDED_KEY_USAGE` of rpki.h.
    InspectionMissingExtendedKeyUsage = 321,
    /// `RPKI_INSPECTION_MISSING_ROUTER_PURPOSE` of rpki.h.
    InspectionMissingRouterPurpose = 322,
    /// `RPKI_INSPECTION_SUBJECT_INFORMATION_PRESENT` of rpki.h.
    InspectionSubjectInformationPresent = 323,
    /// `RPKI_INSPECTION_IP_RESOURCES_PRESENT` of rpki.h.
    InspectionIpResourcesPresent = 324,
    /// `RPKI_INSPECTION_MISSING_AS_RESOURCES` of rpki.h.
    InspectionMissingAsResources = 325,
    /// `RPKI_INSPECTION_INHERITED_AS_RESOURCES` of rpki.h.
    InspectionInheritedAsResources = 326,
    /// `RPKI_VERIFICATION_NOT_YET_VALID` of rpki.h.
    VerificationNotYetValid = 400,
    /// `RPKI_VERIFICATION_EXPIRED` of rpki.h.
    VerificationExpired = 401,
    /// `RPKI_VERIFICATION_INHERITED_V4` of rpki.h.
    VerificationInheritedV4 = 402,
    /// `RPKI_VERIFICATION_INHERITED_V6` of rpki.h.
    VerificationInheritedV6 = 403,
    /// `RPKI_VERIFICATION_INHERITED_AS` of rpki.h.
    VerificationInheritedAs = 404,
    /// `RPKI_VERIFICATION_MISSING_KEY_ID` of rpki.h.
    VerificationMissingKeyId = 405,
    /// `RPKI_VERIFICATION_WRONG_KEY_ID` of rpki.h.
    VerificationWrongKeyId = 406,
    /// `RPKI_VERIFICATION_MISSING_ISSUER_URI` of rpki.h.
    VerificationMissingIssuerUri = 407,
    /// `RPKI_VERIFICATION_BAD_SIGNATURE` of rpki.h.
    VerificationBadSignature = 408,
    /// `RPKI_VERIFICATION_OVERCLAIM_V4` of rpki.h.
    VerificationOverclaimV4 = 409,
    /// `RPKI_VERIFICATION_OVERCLAIM_V6` of rpki.h.
    VerificationOverclaimV6 = 410,
    /// `RPKI_VERIFICATION_OVERCLAIM_AS` of rpki.h.
    VerificationOverclaimAs = 411,
    /// `RPKI_REVOCATION_NO_CRL` of rpki.h.
    RevocationNoCrl = 500,
    /// `RPKI_REVOCATION_WRONG_KEY_ID` of rpki.h.
    RevocationWrongKeyId = 501,
    /// `RPKI_REVOCATION_BAD_SIGNATURE` of rpki.h.
    RevocationBadSignature = 502,
    /// `RPKI_REVOCATION_STALE` of rpki.h.
    RevocationStale = 503,
    /// `RPKI_REVOCATION_REVOKED` of rpki.h.
    RevocationRevoked = 504,
    /// `RPKI_REVOCATION_WRONG_ISSUER` of rpki.h.
    RevocationWrongIssuer = 505,
    /// `RPKI_OTHER_NAME` of rpki.h.
    OtherName = 600,
    /// `RPKI_OTHER_KEY` of rpki.h.
    OtherKey = 601,
    /// `RPKI_NO_RESOURCES` of rpki.h.
    NoResources = 602,
    /// `RPKI_BAD_KEY` of rpki.h.
    BadKey = 603,
    /// `RPKI_LOCATOR_NO_TEXT` of rpki.h.
    LocatorNoText = 700,
    /// `RPKI_LOCATOR_BAD_URI` of rpki.h.
    LocatorBadUri = 701,
    /// `RPKI_LOCATOR_NO_URI` of rpki.h.
    LocatorNoUri = 702,
    /// `RPKI_LOCATOR_NO_KEY` of rpki.h.
    LocatorNoKey = 703,
    /// `RPKI_LOCATOR_BAD_KEY` of rpki.h.
    LocatorBadKey = 704,
    /// `RPKI_ISSUING_NO_KEY` of rpki.h.
    IssuingNoKey = 800,
    /// `RPKI_ISSUING_UNUSED_KEY` of rpki.h.
    IssuingUnusedKey = 801,
    /// `RPKI_ISSUING_BAD_URI` of rpki.h.
    IssuingBadUri = 802,
    /// `RPKI_ISSUING_NO_NAME` of rpki.h.
    IssuingNoName = 803,
    /// `RPKI_ISSUING_UNWRITABLE` of rpki.h.
    IssuingUnwritable = 804,
    /// `RPKI_ISSUING_TOO_LONG` of rpki.h.
    IssuingTooLong = 805,
    /// `RPKI_ISSUING_NOT_TO_SIGN` of rpki.h.
    IssuingNotToSign = 806,
    /// `RPKI_ISSUING_OTHER_OCTETS` of rpki.h.
    IssuingOtherOctets = 807,
    /// `RPKI_ISSUING_OTHER_LIST` of rpki.h.
    IssuingOtherList = 808,
    /// `RPKI_ISSUING_NUMBER` of rpki.h.
    IssuingNumber = 809,
    /// `RPKI_ISSUING_LONG_NUMBER` of rpki.h.
    IssuingLongNumber = 810,
    /// `RPKI_ISSUING_UPDATE_ORDER` of rpki.h.
    IssuingUpdateOrder = 811,
}

impl FaultCode {
    /// Returns the code with this number, if there is one.
    pub fn of(number: u32) -> Option<FaultCode> {
        ALL.iter().copied().find(|it| *it as u32 == number)
    }
}

const ALL: &[FaultCode] = &[
    FaultCode::Memory,
    FaultCode::BadCall,
    FaultCode::DecodeTruncated,
    FaultCode::DecodeBadLength,
    FaultCode::DecodeBadTag,
    FaultCode::DecodeBadValue,
    FaultCode::DecodeTrailing,
    FaultCode::DecodeTooDeep,
    FaultCode::DecodeAlgorithmMismatch,
    FaultCode::DecodeUnexpectedCritical,
    FaultCode::DecodeInvalidExtension,
    FaultCode::DecodeMissing,
    FaultCode::DecodeDuplicate,
    FaultCode::DecodeCritical,
    FaultCode::DecodeNotCritical,
    FaultCode::DecodeWrongResources,
    FaultCode::InspectionAlgorithmMismatch,
    FaultCode::InspectionIssuer,
    FaultCode::InspectionSubject,
    FaultCode::InspectionKeyAlgorithm,
    FaultCode::InspectionSubjectKeyIdentifier,
    FaultCode::InspectionExtendedKeyUsagePresent,
    FaultCode::InspectionCaFlagFalse,
    FaultCode::InspectionMissingBasicConstraints,
    FaultCode::InspectionKeyUsage,
    FaultCode::InspectionMissingCaRepository,
    FaultCode::InspectionMissingManifest,
    FaultCode::InspectionManifestNotChild,
    FaultCode::InspectionSignedObjectPresent,
    FaultCode::InspectionAuthorityKeyIdentifier,
    FaultCode::InspectionCrlUriPresent,
    FaultCode::InspectionCaIssuerPresent,
    FaultCode::InspectionMissingCrlUri,
    FaultCode::InspectionBasicConstraintsPresent,
    FaultCode::InspectionCaRepositoryPresent,
    FaultCode::InspectionManifestPresent,
    FaultCode::InspectionMissingSignedObject,
    FaultCode::InspectionMissingExtendedKeyUsage,
    FaultCode::InspectionMissingRouterPurpose,
    FaultCode::InspectionSubjectInformationPresent,
    FaultCode::InspectionIpResourcesPresent,
    FaultCode::InspectionMissingAsResources,
    FaultCode::InspectionInheritedAsResources,
    FaultCode::VerificationNotYetValid,
    FaultCode::VerificationExpired,
    FaultCode::VerificationInheritedV4,
    FaultCode::VerificationInheritedV6,
    FaultCode::VerificationInheritedAs,
    FaultCode::VerificationMissingKeyId,
    FaultCode::VerificationWrongKeyId,
    FaultCode::VerificationMissingIssuerUri,
    FaultCode::VerificationBadSignature,
    FaultCode::VerificationOverclaimV4,
    FaultCode::VerificationOverclaimV6,
    FaultCode::VerificationOverclaimAs,
    FaultCode::RevocationNoCrl,
    FaultCode::RevocationWrongKeyId,
    FaultCode::RevocationBadSignature,
    FaultCode::RevocationStale,
    FaultCode::RevocationRevoked,
    FaultCode::RevocationWrongIssuer,
    FaultCode::OtherName,
    FaultCode::OtherKey,
    FaultCode::NoResources,
    FaultCode::BadKey,
    FaultCode::LocatorNoText,
    FaultCode::LocatorBadUri,
    FaultCode::LocatorNoUri,
    FaultCode::LocatorNoKey,
    FaultCode::LocatorBadKey,
    FaultCode::IssuingNoKey,
    FaultCode::IssuingUnusedKey,
    FaultCode::IssuingBadUri,
    FaultCode::IssuingNoName,
    FaultCode::IssuingUnwritable,
    FaultCode::IssuingTooLong,
    FaultCode::IssuingNotToSign,
    FaultCode::IssuingOtherOctets,
    FaultCode::IssuingOtherList,
    FaultCode::IssuingNumber,
    FaultCode::IssuingLongNumber,
    FaultCode::IssuingUpdateOrder,
];
