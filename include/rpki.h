/* Reads, validates and issues resource certificates and CRLs of the RPKI (RFC 6487), for C.
 *
 * What is proved:
 *   - Every function returns for all bytes, lengths and numbers, without undefined behaviour, as
 *     long as the caller keeps the rules below.
 *   - Bytes are read as a certificate or a CRL if and only if they begin with one, unless memory
 *     runs out. A CRL of a question and the previous CRL have to be all of their bytes.
 *   - A path is accepted if and only if it is valid by crates/rpki_path/specs (Judging.antt,
 *     Paths.antt), and what the question requires of its TAL and its last key holds, unless memory
 *     runs out.
 *   - The CRL that decides about a certificate is that of crates/rpki_path/specs/AskedLists.antt,
 *     whatever the order of the CRLs.
 *   - The error of a rejected path is that of the first wrong certificate, whose path index is
 *     returned.
 *   - Each line of a directory is right, and each certificate is accepted that a valid path reaches
 *     which was looked at (crates/rpki_c/specs/FolderFates.antt).
 *   - What is written of a certificate's or a CRL's fields is theirs.
 *   - The offset and the part at which reading stops are those of
 *     crates/rpki_files/specs/StopPlaces.antt.
 *   - The bytes to be signed are written if and only if only a signature is missing, and a
 *     certificate or a CRL if and only if the issuer's key signed it
 *     (crates/rpki_c/specs/WantedAnswers.antt and ListAnswers.antt), unless memory runs out.
 *
 * What the caller has to keep:
 *   - Each pointer points to as many elements as the length beside it says, aligned as C requires.
 *   - What a function writes overlaps nothing else of the call.
 *   - A pointer beside the length 0 may be NULL; it is neither read nor written. No other may be.
 *   - The program's malloc, realloc and free are those of one allocator. A block that malloc or
 *     realloc gives is aligned to each power of two up to 16 that divides its size.
 *   - No function is called from a signal handler, or in the forked child of a process with
 *     threads.
 *
 * Every function:
 *   - keeps no pointer, holds no lock and has no state; threads may call side by side;
 *   - frees what it allocates, so the caller frees nothing;
 *   - takes bytes in DER; what follows a certificate is ignored, and so is what follows a CRL that
 *     is read or searched alone. Nothing may follow a CRL of a question or the previous CRL: it may
 *     be a CRL that revokes;
 *   - returns RPKI_OK or an error code, whose number never gets another meaning;
 *   - writes nothing of use after an error, unless its comment says otherwise.
 *
 * The library is librpki.a and librpki.so, which need nothing but the C library. On the compiler's
 * line a program's source is before $(pkg-config --cflags --libs rpki), since the linker reads in
 * order. */
#ifndef RPKI_H
#define RPKI_H

#include <stddef.h>
#include <stdint.h>
#include <string.h>

#ifdef __cplusplus
template <class T> inline T rpki_sized() {
    T it = T();
    it.size = sizeof(T);
    return it;
}
template <class T> inline T rpki_sized_below() {
    T it = rpki_sized<T>();
    it.issuer.size = sizeof it.issuer;
    return it;
}
extern "C" {
#endif

/* What rpki_abi_version returns if this header fits the library. */
#define RPKI_ABI 5

/* The version of Gonxebhula that this header is of: MAJOR.MINOR.PATCH. */
#define RPKI_VERSION "0.2.0"

/* Returns the number of the library's interface. */
uint32_t rpki_abi_version(void);

/* Holds a text of the library's own, which is valid as long as the library is loaded. */
struct rpki_text {
    const char *text; /* ends with a 0 */
    size_t size;      /* its length, with that 0 */
};

/* Writes the library's version into *out: MAJOR.MINOR.PATCH. Returns RPKI_OK. */
uint32_t rpki_version(struct rpki_text *out);

/* Each struct that has a `size` has an initialiser, which sets the size and sets the rest to 0:
 * struct rpki_question question = RPKI_QUESTION_INIT; */
#ifdef __cplusplus
#define RPKI_QUESTION_INIT rpki_sized<rpki_question>()
#define RPKI_FOLDER_QUESTION_INIT rpki_sized<rpki_folder_question>()
#define RPKI_WANTED_INIT rpki_sized_below<rpki_wanted>()
#define RPKI_COMPLETION_INIT rpki_sized_below<rpki_completion>()
#define RPKI_WANTED_LIST_INIT rpki_sized_below<rpki_wanted_list>()
#define RPKI_LIST_COMPLETION_INIT rpki_sized_below<rpki_list_completion>()
#else
#define RPKI_QUESTION_INIT {.size = sizeof(struct rpki_question)}
#define RPKI_FOLDER_QUESTION_INIT {.size = sizeof(struct rpki_folder_question)}
#define RPKI_WANTED_INIT {.size = sizeof(struct rpki_wanted), .issuer = RPKI_QUESTION_INIT}
#define RPKI_COMPLETION_INIT {.size = sizeof(struct rpki_completion), .issuer = RPKI_QUESTION_INIT}
#define RPKI_WANTED_LIST_INIT {.size = sizeof(struct rpki_wanted_list), .issuer = RPKI_QUESTION_INIT}
#define RPKI_LIST_COMPLETION_INIT {.size = sizeof(struct rpki_list_completion), .issuer = RPKI_QUESTION_INIT}
#endif

/* ---- errors */

/* Numbers the parts of a certificate or CRL that some errors of reading are about. The error's
 * number and the part's are added. */
enum rpki_field {
    RPKI_FIELD_BASIC_CONSTRAINTS = 0,
    RPKI_FIELD_SUBJECT_KEY_IDENTIFIER = 1,
    RPKI_FIELD_AUTHORITY_KEY_IDENTIFIER = 2,
    RPKI_FIELD_KEY_USAGE = 3,
    RPKI_FIELD_EXTENDED_KEY_USAGE = 4,
    RPKI_FIELD_CRL_DISTRIBUTION_POINTS = 5,
    RPKI_FIELD_AUTHORITY_INFORMATION_ACCESS = 6,
    RPKI_FIELD_SUBJECT_INFORMATION_ACCESS = 7,
    RPKI_FIELD_CERTIFICATE_POLICIES = 8,
    RPKI_FIELD_IP_RESOURCES = 9,
    RPKI_FIELD_AS_RESOURCES = 10,
    RPKI_FIELD_RESOURCES = 11,
    RPKI_FIELD_CRL_NUMBER = 12
};

/* Numbers the errors. The hundreds say what an error is about. The number is unique; the name is
 * not: 408 and 502 are both BadSignature, of a certificate and of a CRL. RPKI_MEMORY and
 * RPKI_BAD_CALL are not verdicts on the input. */
enum rpki_fault {
    RPKI_OK = 0,
    RPKI_MEMORY = 1,   /* memory ran out */
    RPKI_BAD_CALL = 2, /* lengths or a size don't fit, or a time, a kind, a URI .. doesn't exist */

    /* The bytes don't start with a certificate or a CRL, or other bytes follow a CRL of a
     * question. */
    RPKI_DECODE_TRUNCATED = 100,
    RPKI_DECODE_BAD_LENGTH = 101,
    RPKI_DECODE_BAD_TAG = 102,
    RPKI_DECODE_BAD_VALUE = 103,
    RPKI_DECODE_TRAILING = 104,
    RPKI_DECODE_TOO_DEEP = 105,
    RPKI_DECODE_ALGORITHM_MISMATCH = 106,
    RPKI_DECODE_UNEXPECTED_CRITICAL = 107,
    RPKI_DECODE_INVALID_EXTENSION = 108,
    RPKI_DECODE_MISSING = 120,         /* and an enum rpki_field */
    RPKI_DECODE_DUPLICATE = 140,       /* and an enum rpki_field */
    RPKI_DECODE_CRITICAL = 160,        /* and an enum rpki_field */
    RPKI_DECODE_NOT_CRITICAL = 180,    /* and an enum rpki_field */
    RPKI_DECODE_WRONG_RESOURCES = 200, /* and an enum rpki_field */

    /* The certificate doesn't meet the profile of its kind. */
    RPKI_INSPECTION_ALGORITHM_MISMATCH = 300,
    RPKI_INSPECTION_ISSUER = 301,
    RPKI_INSPECTION_SUBJECT = 302,
    RPKI_INSPECTION_KEY_ALGORITHM = 303,
    RPKI_INSPECTION_SUBJECT_KEY_IDENTIFIER = 304,
    RPKI_INSPECTION_EXTENDED_KEY_USAGE_PRESENT = 305,
    RPKI_INSPECTION_CA_FLAG_FALSE = 306,
    RPKI_INSPECTION_MISSING_BASIC_CONSTRAINTS = 307,
    RPKI_INSPECTION_KEY_USAGE = 308,
    RPKI_INSPECTION_MISSING_CA_REPOSITORY = 309,
    RPKI_INSPECTION_MISSING_MANIFEST = 310,
    RPKI_INSPECTION_MANIFEST_NOT_CHILD = 311,
    RPKI_INSPECTION_SIGNED_OBJECT_PRESENT = 312,
    RPKI_INSPECTION_AUTHORITY_KEY_IDENTIFIER = 313,
    RPKI_INSPECTION_CRL_URI_PRESENT = 314,
    RPKI_INSPECTION_CA_ISSUER_PRESENT = 315,
    RPKI_INSPECTION_MISSING_CRL_URI = 316,
    RPKI_INSPECTION_BASIC_CONSTRAINTS_PRESENT = 317,
    RPKI_INSPECTION_CA_REPOSITORY_PRESENT = 318,
    RPKI_INSPECTION_MANIFEST_PRESENT = 319,
    RPKI_INSPECTION_MISSING_SIGNED_OBJECT = 320,
    RPKI_INSPECTION_MISSING_EXTENDED_KEY_USAGE = 321,
    RPKI_INSPECTION_MISSING_ROUTER_PURPOSE = 322,
    RPKI_INSPECTION_SUBJECT_INFORMATION_PRESENT = 323,
    RPKI_INSPECTION_IP_RESOURCES_PRESENT = 324,
    RPKI_INSPECTION_MISSING_AS_RESOURCES = 325,
    RPKI_INSPECTION_INHERITED_AS_RESOURCES = 326,

    /* The certificate isn't valid at the time, or not issued by the one above it. */
    RPKI_VERIFICATION_NOT_YET_VALID = 400,
    RPKI_VERIFICATION_EXPIRED = 401,
    RPKI_VERIFICATION_INHERITED_V4 = 402,
    RPKI_VERIFICATION_INHERITED_V6 = 403,
    RPKI_VERIFICATION_INHERITED_AS = 404,
    RPKI_VERIFICATION_MISSING_KEY_ID = 405,
    RPKI_VERIFICATION_WRONG_KEY_ID = 406,
    RPKI_VERIFICATION_MISSING_ISSUER_URI = 407,
    RPKI_VERIFICATION_BAD_SIGNATURE = 408,
    RPKI_VERIFICATION_OVERCLAIM_V4 = 409,
    RPKI_VERIFICATION_OVERCLAIM_V6 = 410,
    RPKI_VERIFICATION_OVERCLAIM_AS = 411,

    /* The CRL of the certificate above doesn't show that the certificate is unrevoked. */
    RPKI_REVOCATION_NO_CRL = 500,
    RPKI_REVOCATION_WRONG_KEY_ID = 501,
    RPKI_REVOCATION_BAD_SIGNATURE = 502,
    RPKI_REVOCATION_STALE = 503,
    RPKI_REVOCATION_REVOKED = 504,
    RPKI_REVOCATION_WRONG_ISSUER = 505,

    /* The issuer isn't the subject of the certificate above; of an anchor, its own subject. */
    RPKI_OTHER_NAME = 600,

    /* The anchor's key isn't the TAL's; for a directory: no certificate has the TAL's key. */
    RPKI_OTHER_KEY = 601,

    /* The anchor has the TAL's key, and lists no IP address and no AS number. */
    RPKI_NO_RESOURCES = 602,

    /* The RPKI doesn't use the last certificate's key; for a directory: the key of a line's. */
    RPKI_BAD_KEY = 603,

    /* The bytes of the TAL aren't a TAL. No certificate has these errors. */
    RPKI_LOCATOR_NO_TEXT = 700, /* the TAL isn't UTF-8, and `strict` isn't 0 */
    RPKI_LOCATOR_BAD_URI = 701, /* a line of its URIs is neither an rsync nor an https URI */
    RPKI_LOCATOR_NO_URI = 702,  /* the TAL has no URI */
    RPKI_LOCATOR_NO_KEY = 703,  /* it ends before the empty line after its URIs */
    RPKI_LOCATOR_BAD_KEY = 704, /* the rest isn't a public key in base64 */

    /* No certificate and no CRL is prepared or completed. */
    RPKI_ISSUING_NO_KEY = 800,       /* the key isn't a SubjectPublicKeyInfo */
    RPKI_ISSUING_UNUSED_KEY = 801,   /* the RPKI doesn't use the key */
    RPKI_ISSUING_BAD_URI = 802,      /* the index is of enum rpki_uri */
    RPKI_ISSUING_NO_NAME = 803,      /* the subject would have no name */
    RPKI_ISSUING_UNWRITABLE = 804,   /* no certificate has the fields: there are no resources .. */
    RPKI_ISSUING_TOO_LONG = 805,     /* it would have 2^32 bytes or more */
    RPKI_ISSUING_NOT_TO_SIGN = 806,  /* `prepared` is no TBSCertificate, or no TBSCertList */
    RPKI_ISSUING_OTHER_OCTETS = 807, /* `prepared` isn't what is prepared of its fields */
    RPKI_ISSUING_OTHER_LIST = 808,   /* the previous CRL isn't one that the issuer signed */
    RPKI_ISSUING_NUMBER = 809,       /* the CRL number isn't greater than the previous one */
    RPKI_ISSUING_LONG_NUMBER = 810,  /* the CRL number is 2^159 or more */
    RPKI_ISSUING_UPDATE_ORDER = 811  /* nextUpdate is before thisUpdate */
};

/* Every function with `out`, `room` and `count` writes as many elements as there is room for, and
 * in *count how many there are: with room 0 it counts. After an error *count is 0. Texts have no 0
 * at their end. */

/* Writes the name of an error, as the library's enums have it: "BadSignature". Returns
 * RPKI_BAD_CALL if no error has the number. */
uint32_t rpki_fault_name(uint32_t fault, uint8_t *out, size_t room, uint64_t *count);

/* Writes what the error means: "overclaimed IPv4 resources". Returns RPKI_BAD_CALL if no error has
 * the number. */
uint32_t rpki_fault_sentence(uint32_t fault, uint8_t *out, size_t room, uint64_t *count);

/* Passes the number, the name and the sentence of each error to a macro X. */
#define RPKI_EACH_FIELD(X, number, name, before, behind)            \
    X(number + 0, name, before "BasicConstraints" behind)           \
    X(number + 1, name, before "SubjectKeyIdentifier" behind)       \
    X(number + 2, name, before "AuthorityKeyIdentifier" behind)     \
    X(number + 3, name, before "KeyUsage" behind)                   \
    X(number + 4, name, before "ExtendedKeyUsage" behind)           \
    X(number + 5, name, before "CrlDistributionPoints" behind)      \
    X(number + 6, name, before "AuthorityInformationAccess" behind) \
    X(number + 7, name, before "SubjectInformationAccess" behind)   \
    X(number + 8, name, before "CertificatePolicies" behind)        \
    X(number + 9, name, before "IpResources" behind)                \
    X(number + 10, name, before "AsResources" behind)               \
    X(number + 11, name, before "Resources" behind)                 \
    X(number + 12, name, before "CrlNumber" behind)

#define RPKI_EACH_FAULT(X)                                                        \
    X(0, "None", "no fault")                                                      \
    X(1, "Memory", "out of memory")                                               \
    X(2, "BadCall", "lengths or numbers of the call don't fit")                   \
    X(100, "Truncated", "truncated value")                                        \
    X(101, "BadLength", "bad length")                                             \
    X(102, "BadTag", "unexpected identifier")                                     \
    X(103, "BadValue", "bad value")                                               \
    X(104, "Trailing", "trailing octets")                                         \
    X(105, "TooDeep", "values nested too deep")                                   \
    X(106, "AlgorithmMismatch", "signature algorithm mismatch")                   \
    X(107, "UnexpectedCritical", "unexpected critical extension")                 \
    X(108, "InvalidExtension", "invalid extension")                               \
    RPKI_EACH_FIELD(X, 120, "Missing", "missing ", "")                            \
    RPKI_EACH_FIELD(X, 140, "Duplicate", "duplicate ", "")                        \
    RPKI_EACH_FIELD(X, 160, "Critical", "", " is critical")                       \
    RPKI_EACH_FIELD(X, 180, "NotCritical", "", " is not critical")                \
    RPKI_EACH_FIELD(X, 200, "WrongResources", "wrong identifier of ", "")         \
    X(300, "AlgorithmMismatch", "signature algorithm mismatch")                   \
    X(301, "Issuer", "invalid issuer")                                            \
    X(302, "Subject", "invalid subject")                                          \
    X(303, "KeyAlgorithm", "invalid key algorithm")                               \
    X(304, "SubjectKeyIdentifier", "subject key identifier mismatch")             \
    X(305, "ExtendedKeyUsagePresent", "extended key usage present")               \
    X(306, "CaFlagFalse", "CA flag is false")                                     \
    X(307, "MissingBasicConstraints", "missing basic constraints")                \
    X(308, "KeyUsage", "wrong key usage")                                         \
    X(309, "MissingCaRepository", "missing CA repository")                        \
    X(310, "MissingManifest", "missing manifest")                                 \
    X(311, "ManifestNotChild", "manifest not directly below the repository")      \
    X(312, "SignedObjectPresent", "signed object present")                        \
    X(313, "AuthorityKeyIdentifier", "authority key identifier mismatch")         \
    X(314, "CrlUriPresent", "CRL URI present")                                    \
    X(315, "CaIssuerPresent", "CA issuer present")                                \
    X(316, "MissingCrlUri", "missing CRL URI")                                    \
    X(317, "BasicConstraintsPresent", "basic constraints present")                \
    X(318, "CaRepositoryPresent", "CA repository present")                        \
    X(319, "ManifestPresent", "manifest present")                                 \
    X(320, "MissingSignedObject", "missing signed object")                        \
    X(321, "MissingExtendedKeyUsage", "missing extended key usage")               \
    X(322, "MissingRouterPurpose", "missing router purpose")                      \
    X(323, "SubjectInformationPresent", "subject information access present")     \
    X(324, "IpResourcesPresent", "IP resources present")                          \
    X(325, "MissingAsResources", "missing AS resources")                          \
    X(326, "InheritedAsResources", "inherited AS resources")                      \
    X(400, "NotYetValid", "certificate not yet valid")                            \
    X(401, "Expired", "certificate expired")                                      \
    X(402, "InheritedV4", "inherited IPv4 resources")                             \
    X(403, "InheritedV6", "inherited IPv6 resources")                             \
    X(404, "InheritedAs", "inherited AS resources")                               \
    X(405, "MissingKeyId", "missing authority key identifier")                    \
    X(406, "WrongKeyId", "wrong authority key identifier")                        \
    X(407, "MissingIssuerUri", "missing URI of the issuer's certificate")         \
    X(408, "BadSignature", "bad signature")                                       \
    X(409, "OverclaimV4", "overclaimed IPv4 resources")                           \
    X(410, "OverclaimV6", "overclaimed IPv6 resources")                           \
    X(411, "OverclaimAs", "overclaimed AS resources")                             \
    X(500, "NoCrl", "missing revocation list")                                    \
    X(501, "WrongKeyId", "wrong authority key identifier of the revocation list") \
    X(502, "BadSignature", "bad signature of the revocation list")                \
    X(503, "Stale", "stale revocation list")                                      \
    X(504, "Revoked", "certificate revoked")                                      \
    X(505, "WrongIssuer", "wrong issuer of the revocation list")                  \
    X(600, "OtherName", "the issuer isn't the subject of the certificate above")  \
    X(601, "OtherKey", "the trust anchor's key isn't the locator's")              \
    X(602, "NoResources", "the trust anchor lists no resources")                  \
    X(603, "BadKey", "the last certificate's key isn't one that the RPKI uses")   \
    X(700, "NoText", "not UTF-8 text")                                            \
    X(701, "BadUri", "bad URI")                                                   \
    X(702, "NoUri", "no URI")                                                     \
    X(703, "NoKey", "no key")                                                     \
    X(704, "BadKey", "bad key")                                                   \
    X(800, "NoKey", "no public key")                                              \
    X(801, "UnusedKey", "a key that the RPKI doesn't use")                        \
    X(802, "BadUri", "bad URI")                                                   \
    X(803, "NoName", "the subject would have no name")                            \
    X(804, "Unwritable", "fields of no certificate")                              \
    X(805, "TooLong", "content too long")                                         \
    X(806, "NotToSign", "not what is to be signed")                               \
    X(807, "OtherOctets", "not the octets that are prepared of the fields")       \
    X(808, "OtherList", "the previous list isn't one that the issuer signed")     \
    X(809, "Number", "the number isn't greater")                                  \
    X(810, "LongNumber", "the number is too long")                                \
    X(811, "UpdateOrder", "the next update is before this one")

/* Returns the name of an error, as rpki_fault_name writes it, or NULL if no error has the
 * number. */
static inline const char *rpki_name_of_fault(uint32_t fault) {
#define RPKI_NAME(number, name, sentence) case number: return name;
    switch (fault) { RPKI_EACH_FAULT(RPKI_NAME) }
#undef RPKI_NAME
    return NULL;
}

/* Returns what an error means, as rpki_fault_sentence writes it, or NULL if no error has the
 * number. */
static inline const char *rpki_sentence_of_fault(uint32_t fault) {
#define RPKI_SENTENCE(number, name, sentence) case number: return sentence;
    switch (fault) { RPKI_EACH_FAULT(RPKI_SENTENCE) }
#undef RPKI_SENTENCE
    return NULL;
}

/* ---- certificates */

/* A second of UTC in the years 0 to 9999: on a day of the calendar, with an hour below 24, and
 * a minute and a second below 60. */
struct rpki_time {
    uint16_t year;
    uint8_t month, day, hour, minute, second;
    uint8_t unused; /* is ignored; the library writes 0 */
};

/* Numbers the kinds of certificates. A caller says as which kind a certificate is validated; as
 * another kind than its own it is rejected with an RPKI_INSPECTION_ error.
 *
 * RPKI_END_ENTITY is for the certificate of a signed object that is published, as a ROA or a
 * manifest: it has to name where that object is (SIA, signedObject; RFC 6487 4.8.8.2).
 * RPKI_DETACHED requires all but that name, so it also accepts each RPKI_END_ENTITY. Use it only if
 * the object has no URI. */
enum rpki_kind {
    RPKI_ANCHOR = 0,     /* a trust anchor, which signs itself */
    RPKI_AUTHORITY = 1,  /* a CA, which signs certificates and CRLs */
    RPKI_END_ENTITY = 2, /* signs one object, and names it */
    RPKI_DETACHED = 3,   /* signs one object, and need not name it */
    RPKI_ROUTER = 4      /* a BGPsec router (RFC 8209) */
};

/* Numbers how a certificate has its resources of one kind. */
enum rpki_state { RPKI_MISSING = 0, RPKI_INHERITED = 1, RPKI_LISTED = 2 };

/* Holds a certificate's fields of a fixed size. Serial numbers start with their most significant
 * byte. */
struct rpki_certificate {
    struct rpki_time not_before, not_after;
    uint8_t serial[20], subject_key[20], authority_key[20];
    uint8_t has_authority_key, is_authority; /* are 0 or 1 */
    uint8_t key_usage;   /* is 0 of a CA, 1 of an end entity */
    uint8_t overclaim;   /* is 0 if it is rejected, 1 if it is trimmed (RFC 8360) */
    uint8_t v4, v6, asn; /* are of enum rpki_state */
};

/* Holds two addresses, in network byte order. IPv4 is in the first four bytes. */
struct rpki_ip_range {
    uint8_t min[16], max[16];
};

/* Holds two AS numbers. */
struct rpki_as_range {
    uint32_t min, max;
};

/* Reads the certificate. */
uint32_t rpki_certificate_read(const uint8_t *octets, size_t length, struct rpki_certificate *out);

/* Returns RPKI_OK if the certificate meets the profile of the kind, an enum rpki_kind, and
 * otherwise its first error. Returns RPKI_BAD_CALL if no kind has the number. If `strict` isn't 0,
 * names need the strings of RFC 6487 4.4. Use 1 unless you have a reason not to. */
uint32_t rpki_certificate_inspect(const uint8_t *octets, size_t length, uint32_t kind,
                                  uint32_t strict);

/* Writes the ranges of addresses that the certificate lists: of IPv4 if `family` is 4, of IPv6 if
 * it is 6. They ascend, and neither overlap nor touch. Returns RPKI_BAD_CALL if `family` is another
 * number. */
uint32_t rpki_certificate_addresses(const uint8_t *octets, size_t length, uint32_t family,
                                    struct rpki_ip_range *out, size_t room, uint64_t *count);

/* Writes the ranges of AS numbers that the certificate lists. They ascend, and neither overlap nor
 * touch. */
uint32_t rpki_certificate_as_numbers(const uint8_t *octets, size_t length,
                                     struct rpki_as_range *out, size_t room, uint64_t *count);

/* Numbers the URIs of a certificate. */
enum rpki_uri {
    RPKI_URI_CA_ISSUER = 0,
    RPKI_URI_CRL = 1,
    RPKI_URI_REPOSITORY = 2,
    RPKI_URI_MANIFEST = 3,
    RPKI_URI_SIGNED_OBJECT = 4,
    RPKI_URI_NOTIFY = 5
};

/* Writes one URI, an enum rpki_uri. *count is 0 if the certificate has no such URI. Returns
 * RPKI_BAD_CALL if no URI has the number. */
uint32_t rpki_certificate_uri(const uint8_t *octets, size_t length, uint32_t which, uint8_t *out,
                              size_t room, uint64_t *count);

/* Numbers a certificate's names. A text is that of RFC 4514, but with the parts in the order of the
 * Name and a comma and a space between them: "CN=0A1B". It has visible ASCII characters alone, and
 * escapes all others. */
enum rpki_which_name {
    RPKI_ISSUER_NAME = 0,  /* the issuer's Name in DER */
    RPKI_SUBJECT_NAME = 1, /* the subject's Name in DER */
    RPKI_ISSUER_TEXT = 2,  /* the issuer's name as text */
    RPKI_SUBJECT_TEXT = 3  /* the subject's name as text */
};

/* Writes a name, an enum rpki_which_name. Returns RPKI_BAD_CALL if no name has the number. */
uint32_t rpki_certificate_name(const uint8_t *octets, size_t length, uint32_t which, uint8_t *out,
                               size_t room, uint64_t *count);

/* Writes the certificate's SubjectPublicKeyInfo in DER, and into *is_used 1 if the RPKI uses such a
 * key, else 0: RSA of 2048 bits with the exponent 65537 (RFC 7935 3), or for routers an
 * uncompressed point on the curve P-256 (RFC 8608 3.1). After an error *is_used is 0. */
uint32_t rpki_certificate_key(const uint8_t *octets, size_t length, uint8_t *out, size_t room,
                              uint64_t *count, uint8_t *is_used);

/* Holds where three parts are in a certificate's bytes, for a caller with its own cryptography: the
 * signature is to be one of the message with sha256WithRSAEncryption (RFC 7935 2), by the key of the
 * certificate above; a trust anchor's by its own. */
struct rpki_places {
    uint64_t key_at, key_length;             /* are those of the SubjectPublicKeyInfo in DER */
    uint64_t message_at, message_length;     /* are those of the TBSCertificate in DER */
    uint64_t signature_at, signature_length; /* are those of the signature in its BIT STRING */
};

/* Writes where the certificate's key, its signed part and its signature are. No place goes past the
 * certificate's bytes. */
uint32_t rpki_certificate_places(const uint8_t *octets, size_t length, struct rpki_places *out);

/* Holds one string of bytes. */
struct rpki_octets {
    const uint8_t *octets;
    size_t length;
};

/* Holds all fields of a certificate. A field that it doesn't have has the length or the count 0. */
struct rpki_fields {
    struct rpki_certificate fixed;
    struct rpki_octets issuer, subject;           /* are the Names in DER */
    struct rpki_octets issuer_text, subject_text; /* are the names as text */
    struct rpki_octets key;                       /* is the SubjectPublicKeyInfo in DER */
    struct rpki_octets uris[6];                   /* are those of enum rpki_uri */
    const struct rpki_ip_range *v4, *v6;
    size_t v4_count, v6_count;
    const struct rpki_as_range *asn;
    size_t asn_count;
    size_t size;            /* is how many bytes of memory the fields take that have no fixed size */
    uint8_t has_usable_key; /* is 1 if the RPKI uses such a key, else 0 */
};

/* Returns where the next field is in so much memory, of which so much is used, and in *left how much
 * is left there. */
static inline void *rpki_next_field(uint8_t *memory, size_t room, uint64_t used, size_t *left) {
    *left = used < room ? room - (size_t)used : 0;
    return *left > 0 ? memory + used : NULL;
}

/* Reads a certificate, and writes all of its fields: those of a fixed size into *out, and the others
 * into `memory`, which has `room` bytes, and to which *out then points. If out->size is more than
 * `room`, only the fields of a fixed size are written; call again with more memory. With room 0 it
 * counts. After an error all of *out is 0. The error is as for rpki_certificate_read. */
static inline uint32_t rpki_fields_of_certificate(const uint8_t *octets, size_t length, void *memory,
                                                  size_t room, struct rpki_fields *out) {
    /* ranges of AS numbers come first, aligned; that takes up to 3 bytes of the memory */
    uint8_t *const start = room > 3 ? (uint8_t *)memory + (0 - (uintptr_t)memory) % 4 : NULL;
    const size_t usable = room > 3 ? room - 3 : 0;
    struct rpki_octets texts[11];
    uint64_t used, count = 0;
    size_t left;
    memset(out, 0, sizeof *out);
    uint32_t fault = rpki_certificate_read(octets, length, &out->fixed);
    void *at = rpki_next_field(start, usable, 0, &left);
    if (fault == RPKI_OK)
        fault = rpki_certificate_as_numbers(octets, length, (struct rpki_as_range *)at,
                                            left / sizeof(struct rpki_as_range), &count);
    out->asn = (const struct rpki_as_range *)at;
    out->asn_count = (size_t)count;
    used = count * sizeof(struct rpki_as_range);
    for (uint32_t family = 4; family <= 6 && fault == RPKI_OK; family += 2) {
        at = rpki_next_field(start, usable, used, &left);
        fault = rpki_certificate_addresses(octets, length, family, (struct rpki_ip_range *)at,
                                           left / sizeof(struct rpki_ip_range), &count);
        *(family == 4 ? &out->v4 : &out->v6) = (const struct rpki_ip_range *)at;
        *(family == 4 ? &out->v4_count : &out->v6_count) = (size_t)count;
        used += count * sizeof(struct rpki_ip_range);
    }
    for (uint32_t i = 0; i < 11 && fault == RPKI_OK; i++) {
        uint8_t *to = (uint8_t *)rpki_next_field(start, usable, used, &left);
        if (i < 4) fault = rpki_certificate_name(octets, length, i, to, left, &count);
        else if (i < 10) fault = rpki_certificate_uri(octets, length, i - 4, to, left, &count);
        else fault = rpki_certificate_key(octets, length, to, left, &count, &out->has_usable_key);
        texts[i].octets = to;
        texts[i].length = (size_t)count;
        used += count;
    }
    if (fault != RPKI_OK) {
        memset(out, 0, sizeof *out);
        return fault;
    }
    if (used <= usable) {
        out->issuer = texts[RPKI_ISSUER_NAME];
        out->subject = texts[RPKI_SUBJECT_NAME];
        out->issuer_text = texts[RPKI_ISSUER_TEXT];
        out->subject_text = texts[RPKI_SUBJECT_TEXT];
        memcpy(out->uris, texts + 4, sizeof out->uris);
        out->key = texts[10];
    } else {
        out->v4 = out->v6 = NULL;
        out->asn = NULL;
        out->v4_count = out->v6_count = out->asn_count = 0;
    }
    out->size = (size_t)used + 3;
    return RPKI_OK;
}

/* ---- revocation lists */

/* Holds a CRL's fields of a fixed size, and how many entries it has. */
struct rpki_list {
    struct rpki_time this_update, next_update;
    uint64_t entries;
    uint8_t number[20], authority_key[20];
};

/* Holds a revoked certificate's serial number, and the time of its revocation. */
struct rpki_entry {
    struct rpki_time date;
    uint8_t serial[20];
};

/* Reads the CRL. */
uint32_t rpki_list_read(const uint8_t *octets, size_t length, struct rpki_list *out);

/* Writes the entries of the CRL, in its order. */
uint32_t rpki_list_entries(const uint8_t *octets, size_t length, struct rpki_entry *out,
                           size_t room, uint64_t *count);

/* Writes the CRL issuer's Name in DER. */
uint32_t rpki_list_issuer(const uint8_t *octets, size_t length, uint8_t *out, size_t room,
                          uint64_t *count);

/* Searches the CRL for `count` serial numbers of 20 bytes each, one after the other. answers[i] is
 * 1 if the i-th is on the CRL, and otherwise 0. Returns RPKI_BAD_CALL if serials_length isn't 20
 * times `count`. */
uint32_t rpki_list_ask(const uint8_t *octets, size_t length, const uint8_t *serials,
                       size_t serials_length, uint8_t *answers, size_t count);

/* Holds a revoked serial number in a table. */
struct rpki_serial {
    uint8_t serial[20]; /* its most significant byte is first */
    uint32_t hint;      /* where a search starts; decides no answer */
};

/* Writes a table of the CRL, for a caller who searches it often: its serial numbers, ascending. It
 * is a table only if there is room for all, so if *count is more than `room`, call again with more.
 * The table is plain memory of the caller's: it may be copied, kept, and searched by several
 * threads, and there is nothing to free. */
uint32_t rpki_list_table(const uint8_t *octets, size_t length, struct rpki_serial *out,
                         size_t room, uint64_t *count);

/* Searches a table of `entries` serial numbers, as rpki_list_ask searches a CRL, in a fraction of a
 * microsecond per serial number. If the entries aren't a table that rpki_list_table wrote, each
 * answer is 0 or 1 and means nothing. Takes no memory. */
uint32_t rpki_table_ask(const struct rpki_serial *table, size_t entries, const uint8_t *serials,
                        size_t serials_length, uint8_t *answers, size_t count);

/* ---- where reading stops */

/* Holds the place where reading stops: the bytes before it were read, and from there on there is no
 * value of the part that has to come next. */
struct rpki_stop {
    uint32_t fault; /* is an RPKI_DECODE_ one, or RPKI_OK if the bytes can be read */
    uint64_t octet; /* is the offset of that part; 0 if the bytes can be read */
};

/* Numbers the texts about the part at which reading stops. */
enum rpki_part_text {
    RPKI_PART_NAME = 0,   /* its name: "the issuer" */
    RPKI_PART_WANTED = 1, /* what is expected, and by which section: "a Name (RFC 5280 ..)" */
    RPKI_PART_FOUND = 2   /* what is wrong with what is found: "a negative number"; or no text */
};

/* Reports where reading stops in bytes that begin with no certificate, if `is_list` is 0, or with
 * no CRL, if it is another number. Writes into *stop the error and the offset, and one text about
 * the part there, an enum rpki_part_text. Bytes that can be read have an empty text. Returns
 * RPKI_BAD_CALL if no text has the number. */
uint32_t rpki_stop_text(const uint8_t *octets, size_t length, uint32_t is_list, uint32_t which,
                        struct rpki_stop *stop, uint8_t *out, size_t room, uint64_t *count);

/* ---- paths */

/* Holds strings of bytes, one after the other, and the length of each. */
struct rpki_strings {
    const uint8_t *octets;
    size_t length;
    const size_t *lengths;
    size_t count;
};

/* Returns how many bytes the parts have together, or SIZE_MAX if they are as many or more. */
static inline size_t rpki_joined_length(const struct rpki_octets *parts, size_t count) {
    size_t length = 0;
    for (size_t i = 0; i < count; i++) {
        if (parts[i].length >= SIZE_MAX - length) return SIZE_MAX;
        length += parts[i].length;
    }
    return length;
}

/* Joins separate strings, as a question expects them: copies them one after the other to `octets`,
 * which has room for rpki_joined_length of them, and their lengths to `lengths`, which has room for
 * `count`. The returned struct points to both. */
static inline struct rpki_strings rpki_join(const struct rpki_octets *parts, size_t count,
                                            uint8_t *octets, size_t *lengths) {
    struct rpki_strings joined = {octets, 0, lengths, count};
    for (size_t i = 0; i < count; i++) {
        if (parts[i].length > 0) memcpy(octets + joined.length, parts[i].octets, parts[i].length);
        lengths[i] = parts[i].length;
        joined.length += parts[i].length;
    }
    return joined;
}

/* Numbers how revocation is checked: by the CRLs of the question, or not at all. With
 * RPKI_ASK_NOBODY revoked certificates are accepted. */
enum rpki_revocation { RPKI_ASK_LISTS = 0, RPKI_ASK_NOBODY = 1 };

/* Numbers which key the trust anchor has to have: the one of the question's TAL (RFC 8630 3), or
 * any. */
enum rpki_trust { RPKI_ASK_LOCATOR = 0, RPKI_AS_GIVEN = 1 };

/* Numbers what the last certificate's key has to be: one that the RPKI uses (RFC 7935 3, RFC 8608
 * 3.1), or any. The keys above it verify signatures, which only such keys do. */
enum rpki_last_key { RPKI_ASK_KEY = 0, RPKI_ANY_KEY = 1 };

/* Numbers whether names are checked: those of the path, which have to chain as for rpki_path_names,
 * and those of its CRLs. Names are compared byte by byte. */
enum rpki_names { RPKI_ASK_NAMES = 0, RPKI_ANY_NAMES = 1 };

/* Describes a question about a path. There are no permissive defaults: with zeros in `revocation`,
 * `anchor`, `key` and `names`, CRLs, a TAL, a last key that the RPKI uses and names that chain are
 * required.
 *
 * CRLs may be of any issuers, in any order; where they were found doesn't matter. The keys of the
 * path are those of its certificates, and those that these name as their issuers'. A CRL that names
 * none of them is read up to its extensions: neither its entries nor its signature are looked at,
 * so an error there isn't reported. Of each certificate below the trust anchor the issuer's newest
 * CRL that has begun decides:
 *   - It names the key that signed the certificate, and is signed by that key.
 *   - With RPKI_ASK_NAMES its issuer is the subject of the certificate that has that key (RFC 5280
 *     6.3.3 (b) (1)).
 *   - It has begun: its thisUpdate is neither after the time nor after its own nextUpdate. A CRL
 *     from the future, or one whose two times are exchanged, supersedes none.
 *   - Of these it has the greatest number (RFC 6487 5). Of several with one number, which RFC 5280
 *     5.2.3 forbids, one that revokes the certificate decides, then the one with the later
 *     thisUpdate, then the one with the later nextUpdate. So their order doesn't matter.
 * That CRL has to be current (its nextUpdate isn't before the time), and not to list the
 * certificate. If there is none, the certificate is rejected. A CRL of another name counts only for
 * RPKI_REVOCATION_WRONG_ISSUER, if names are checked:
 *   - RPKI_REVOCATION_BAD_SIGNATURE: a CRL names the key but isn't signed by it;
 *   - RPKI_REVOCATION_STALE: all such CRLs have not begun yet;
 *   - RPKI_REVOCATION_WRONG_ISSUER: the key signed a CRL that names it, but has another name;
 *   - RPKI_REVOCATION_NO_CRL: no CRL names the key. */
struct rpki_question {
    size_t size;                 /* is sizeof(struct rpki_question) */
    struct rpki_strings members; /* are certificates, the anchor first */
    struct rpki_strings lists;   /* are CRLs. If bytes follow a CRL in its string, such as a second
                                  * CRL, the error is RPKI_DECODE_TRAILING. They aren't read with
                                  * RPKI_ASK_NOBODY */
    const uint8_t *locator;      /* is the bytes of a TAL; not read with RPKI_AS_GIVEN */
    size_t locator_length;
    struct rpki_time moment;
    uint32_t last;       /* is the last certificate's enum rpki_kind. For the anchor alone it is
                          * RPKI_ANCHOR, or RPKI_AUTHORITY */
    uint32_t strict;     /* is as for rpki_certificate_inspect; if it is 0, the comments of a TAL
                          * may be any bytes, and else they have to be UTF-8 */
    uint32_t revocation; /* is an enum rpki_revocation */
    uint32_t anchor;     /* is an enum rpki_trust */
    uint32_t key;        /* is an enum rpki_last_key; RPKI_BAD_KEY comes after all other errors */
    uint32_t names;      /* is an enum rpki_names; RPKI_OTHER_NAME comes after all other errors but
                          * RPKI_BAD_KEY */
};

/* Has room for the ranges that are held. Each kind has as many as its number says; its pointer may be
 * NULL if that is 0. */
struct rpki_room {
    struct rpki_ip_range *v4;
    size_t v4_room;
    struct rpki_ip_range *v6;
    size_t v6_room;
    struct rpki_as_range *asn;
    size_t asn_room;
};

/* Holds the verdict on a path. A path that ends in a router's certificate has the ranges of the
 * certificate above it; rpki_certificate_as_numbers writes the router's own AS numbers. */
struct rpki_verdict {
    uint32_t fault; /* is what the function returns */
    uint32_t index; /* is the path index of the first wrong certificate; the anchor's is 0. For a
                     * CRL that can't be read it is the number of certificates plus the CRL's
                     * index: after 3 certificates, 5 is CRL 2. With RPKI_MEMORY, RPKI_BAD_CALL and
                     * an RPKI_LOCATOR_ error it means no certificate. An index above UINT32_MAX is
                     * written as that */
    uint64_t v4, v6, asn; /* count the ranges that the last certificate holds, if `fault` is 0 */
};

/* Validates a path. Signatures are checked as the RPKI has them (RFC 7935).
 *
 * Not checked: manifests.
 *
 * Writes the ranges that the path has, as many as there is room for, and into *out how many there
 * are: if there are more, call again with more room. *out is valid after an error, too.
 *
 * Returns RPKI_BAD_CALL if `size` is another, lengths don't add up, a number of the question is of
 * none of its enums, or the time doesn't exist; and if there are too few certificates (none, or the
 * trust anchor alone if the last is to be an end entity or a router), or certificates below an
 * RPKI_ANCHOR. If a TAL is required, it is checked first: its error, the error of the anchor's
 * bytes, RPKI_OTHER_KEY or RPKI_NO_RESOURCES, each with index 0. A CRL that can't be read is
 * reported next. */
uint32_t rpki_path_validate(const struct rpki_question *question, struct rpki_room *room,
                            struct rpki_verdict *out);

/* Returns RPKI_OK if the names of a path chain (RFC 6487 7.2, RFC 5280 6.1): the trust anchor's
 * issuer is its own subject, and that of each later certificate the subject of the one above it.
 * Nothing else is checked, so validate the path too. Names are compared byte by byte; RFC 5280 7.1
 * treats some as equal that differ here, in the case of letters, in spaces or in the type of a
 * string.
 * Otherwise *place is the path index of the first wrong certificate: RPKI_OTHER_NAME if its names
 * don't chain, or the error of reading. Returns RPKI_BAD_CALL if there are no certificates, or
 * lengths don't add up. */
uint32_t rpki_path_names(const struct rpki_strings *members, uint64_t *place);

/* ---- directories */

/* Describes a question about a directory: which of its certificates are valid below the trust anchor
 * of a TAL. The strings are certificates, CRLs and other bytes, in any order.
 *
 * The trust anchor is a string that starts with a certificate of the TAL's key and is valid (RFC 8630
 * 3). If several are, it is the one that is valid longest, then the one whose validity starts last,
 * then the one whose to-be-signed bytes are greatest, then the one whose signature is. Copies of a
 * certificate, also with other bytes behind it, have one line, and take the steps of one.
 *
 * Each certificate that an accepted CA signed is validated below it as the kind that it says: a
 * router's, a CA's, or else an end entity's. The CRLs among the strings are used for revocation, as
 * for struct rpki_question. A withheld file isn't detected: a caller who reads manifests leaves out
 * the files that they don't list. */
struct rpki_folder_question {
    size_t size;                 /* is sizeof(struct rpki_folder_question) */
    struct rpki_strings strings; /* are certificates, CRLs and other bytes */
    const uint8_t *locator;      /* is the bytes of a TAL */
    size_t locator_length;
    struct rpki_time moment;
    size_t depth;    /* is the most certificates that a path has below the anchor; 0 means 32 */
    size_t steps;    /* is the steps of the walk: a certificate that a CA signed takes one for each path
                      * that leads to it; they are divided evenly among the CAs below each CA; 0 means
                      * 10,000,000 */
    uint32_t strict; /* is as for struct rpki_question */
    uint32_t key;    /* is an enum rpki_last_key, for each certificate: one that is the last of a valid
                      * path, but has another key, is rejected with RPKI_BAD_KEY */
    uint32_t names;  /* is an enum rpki_names, for the anchor, each certificate and each CRL */
};

/* Numbers the results for a string. Number 0 and those above 5 are certificates without a verdict. For
 * those above 5 the certificate's issuer is the one among the strings whose key it names as its signer's,
 * and `issuer` of the line is that one's place. An issuer that is rejected with RPKI_BAD_KEY counts as
 * accepted here. */
enum rpki_fate {
    RPKI_LINE_NO_ISSUER = 0,      /* a certificate that names no key as its signer's, or a key that no
                                   * certificate among the strings has */
    RPKI_LINE_ANCHOR = 1,         /* the trust anchor, which is valid, or a copy of it */
    RPKI_LINE_ACCEPTED = 2,       /* the last certificate of a valid path */
    RPKI_LINE_REJECTED = 3,       /* a certificate that is wrong below each valid path that was tried */
    RPKI_LINE_LIST = 4,           /* a CRL, whether it was used or not */
    RPKI_LINE_NEITHER = 5,        /* bytes that are neither; also a CRL that other bytes follow */
    RPKI_LINE_NOT_ISSUED = 6,     /* its issuer is an accepted CA below which the walk looked, and didn't
                                   * issue it: the CA has another name, or its key didn't sign the
                                   * certificate */
    RPKI_LINE_ISSUER_NOT_CA = 7,  /* its issuer is accepted, and isn't a CA */
    RPKI_LINE_NOT_LOOKED_AT = 8,  /* the walk reached a limit at its issuer, on each path to it: the
                                   * issuer's line has `limits` and `needed` */
    RPKI_LINE_BELOW_REJECTED = 9, /* its issuer is rejected: the issuer's line has the error */
    RPKI_LINE_BELOW_UNSEEN = 10   /* there is no verdict on its issuer either, which may be the
                                   * certificate itself; several such may form a circle */
};

/* Says which of the ranges in a struct rpki_room a certificate holds. */
struct rpki_held {
    uint64_t v4, v6, asn;          /* count its ranges of each kind */
    uint64_t v4_at, v6_at, asn_at; /* count those before them in the room;
                                      certificates that hold the same may share them */
};

/* Numbers the limits that a walk reaches at a CA, as bits. None of the CA's children is validated on
 * the path on which it reaches one. */
enum rpki_limit {
    RPKI_LIMIT_DEPTH = 1, /* a path to the CA has `depth` certificates below the anchor, and the CA has
                           * a child */
    RPKI_LIMIT_STEPS = 2  /* on a path to the CA, its share of the steps is less than its children */
};

/* Says what became of a string. A number that its comment doesn't mention is 0. */
struct rpki_line {
    uint32_t what;   /* is an enum rpki_fate */
    uint32_t fault;  /* is the error of a rejected certificate on one of the longest paths to it */
    uint64_t step;   /* counts the certificates above it on that path, or on the accepted path */
    uint64_t issuer; /* is the place among the strings of the CA right above an accepted certificate
                      * (a CA that two paths lead to has a line for one of them), or of the issuer of a
                      * certificate without a verdict. Of several with the key that it names this is an
                      * accepted CA at which a limit was reached on each path to it, else an accepted
                      * CA below which the walk looked, else a rejected one, else an accepted one that
                      * isn't a CA, else one without a verdict; of equal ones the first */
    uint32_t kind;   /* is the kind as which an accepted or rejected certificate was validated: an
                      * enum rpki_kind, but for RPKI_ANCHOR */
    uint32_t limits; /* is the sum of the enum rpki_limit that the walk reached at a CA, or at the
                      * anchor */
    struct rpki_held held; /* is what an accepted certificate holds; for a router's certificate what
                            * the certificate above it holds */
    uint64_t needed; /* is, with RPKI_LIMIT_STEPS, the least `steps` with which the children are
                      * validated on such a path, at the same depth; 0 if no size_t is enough */
};

/* Numbers how a walk ended. */
enum rpki_ended {
    RPKI_NOT_BEGUN = 0,   /* there was an error */
    RPKI_WHOLE = 1,       /* every certificate was validated to which a valid path leads */
    RPKI_TOO_DEEP = 2,    /* every such one within the depth was validated, and more are below */
    RPKI_OUT_OF_STEPS = 3 /* a CA's share of the steps is less than its children, so none of these
                           * was validated; `limits` of the lines says at which CAs */
};

/* Holds how the walk ended. */
struct rpki_walk {
    uint32_t fault;  /* is what the function returns */
    uint32_t ended;  /* is an enum rpki_ended */
    uint64_t anchor; /* is the trust anchor's place among the strings, also if the error is its own */
    uint64_t v4, v6, asn; /* count the ranges that all accepted certificates hold; 0 after an error */
};

/* Validates all certificates of a directory, with signatures as for rpki_path_validate. Writes the
 * line of each string at its place, for as many as there is room for. If the walk ended RPKI_WHOLE,
 * a certificate whose line is neither RPKI_LINE_ANCHOR nor RPKI_LINE_ACCEPTED is valid by no path.
 *
 * Writes the ranges that the accepted certificates hold, as many as there is room for, and into *out
 * how many there are: if there are more, call again with more room. Each line says which are its own.
 *
 * Each accepted certificate is the last of a path of these strings that rpki_path_validate accepts
 * with the same choices, the TAL and the CRLs among the strings.
 *
 * After an error no line and no range is written, and *out is valid. The error is RPKI_BAD_CALL if
 * `size` is another, lengths don't add up, the time doesn't exist, or a number of the question is of
 * none of its enums; the TAL's; RPKI_OTHER_KEY if no string has its key; or, if no string is a valid
 * trust anchor, what is wrong with the first that has the TAL's key, as RPKI_NO_RESOURCES, or
 * RPKI_OTHER_NAME if it has two names. */
uint32_t rpki_folder_judge(const struct rpki_folder_question *question, struct rpki_line *lines,
                           size_t lines_room, struct rpki_room *room, struct rpki_walk *out);

/* ---- issuing */

/* Holds what a certificate is to list of a family of addresses. Ranges may be in any order, and may
 * overlap; each has min <= max. There are ranges if and only if `state` is RPKI_LISTED. */
struct rpki_addresses {
    const struct rpki_ip_range *ranges; /* of IPv4 only the first four bytes count */
    size_t count;
    uint32_t state; /* is an enum rpki_state */
};

/* Holds what a certificate is to list of AS numbers, as above. */
struct rpki_as_numbers {
    const struct rpki_as_range *ranges;
    size_t count;
    uint32_t state; /* is an enum rpki_state */
};

/* Holds URIs, of enum rpki_uri. One with length 0 is left out. */
struct rpki_uris {
    const uint8_t *ca_issuer;
    size_t ca_issuer_length;
    const uint8_t *crl;
    size_t crl_length;
    const uint8_t *repository;
    size_t repository_length;
    const uint8_t *manifest;
    size_t manifest_length;
    const uint8_t *signed_object;
    size_t signed_object_length;
    const uint8_t *notify;
    size_t notify_length;
};

/* Numbers what happens to resources that the issuer doesn't hold (RFC 8360). */
enum rpki_overclaim { RPKI_REFUSE = 0, RPKI_TRIM = 1 };

/* Describes a certificate that is to be issued. All other fields are set as RFC 6487 4 requires:
 * the issuer's name, the subject (by the key; of a router by its least AS number, RFC 8209 3.1.1),
 * key identifiers, key usage and policy. */
struct rpki_wanted {
    size_t size; /* is sizeof(struct rpki_wanted) */
    /* The issuer's path, which is validated at its `moment`; it ends in an RPKI_AUTHORITY, or is an
     * RPKI_ANCHOR alone. For a trust anchor it has no certificates, and then only `moment` and
     * `strict` count; the other numbers have to be of their enums. */
    struct rpki_question issuer;
    const uint8_t *key; /* is the subject's SubjectPublicKeyInfo in DER */
    size_t key_length;
    struct rpki_addresses v4, v6;
    struct rpki_as_numbers asn;
    struct rpki_uris uris;
    struct rpki_time not_before, not_after;
    uint8_t serial[20]; /* is above 0 and below 2^159, its most significant byte first */
    uint32_t kind;      /* is an enum rpki_kind */
    uint32_t overclaim; /* is an enum rpki_overclaim */
};

/* Holds the result of preparing or completing. */
struct rpki_issued {
    uint32_t fault; /* is what the function returns */
    uint32_t index; /* is the index of what is wrong: for the issuer's path as in struct
                     * rpki_verdict, or the number of its certificates if it is the certificate or
                     * the CRL itself */
    uint64_t count; /* is how many bytes there are, and 0 after an error */
};

/* Prepares a certificate for its signature: writes the TBSCertificate, which the issuer's key has
 * to sign (sha256WithRSAEncryption, RFC 7935 2), as many bytes as there is room for, and into *told
 * how many there are. The key may be elsewhere. No signature is spent on a certificate that would
 * be rejected: all but the signature is checked that rpki_path_validate checks below this issuer,
 * with the same CRLs, if they are checked. A CA may not have the key of a certificate above it.
 *
 * *told is valid after an error, too, and *out is then as it was. The error is RPKI_BAD_CALL if
 * `size` is another, a number is of none of its enums, a range, a serial number or a time doesn't
 * exist, or the path doesn't go with the kind; one of the issuer's path; an RPKI_ISSUING_ one; or
 * that of a certificate's profile, verification or revocation. */
uint32_t rpki_prepare(const struct rpki_wanted *wanted, uint8_t *out, size_t room,
                      struct rpki_issued *told);

/* Holds a prepared certificate with its signature. */
struct rpki_completion {
    size_t size;                 /* is sizeof(struct rpki_completion) */
    struct rpki_question issuer; /* is as in struct rpki_wanted; its time may be later */
    const uint8_t *prepared;     /* is what rpki_prepare wrote */
    size_t prepared_length;
    const uint8_t *signature; /* is the key's signature of it, without the BIT STRING around it */
    size_t signature_length;
    uint32_t kind; /* is an enum rpki_kind */
};

/* Completes a certificate: writes it if and only if the issuer's key (of a trust anchor its own)
 * signed what was prepared, which is checked again at this time; as many bytes as there is room
 * for, and into *told how many there are. It is valid below the issuer then.
 *
 * *told is valid after an error, too, and *out is then as it was. The error is as for rpki_prepare;
 * RPKI_OTHER_NAME if the issuer has another name than the one above;
 * RPKI_VERIFICATION_BAD_SIGNATURE if the signature isn't valid. */
uint32_t rpki_complete(const struct rpki_completion *completion, uint8_t *out, size_t room,
                       struct rpki_issued *told);

/* Holds what a CRL is to be: the issuer's next one, or its first. The issuer's name and key
 * identifier are set as RFC 6487 5 requires. */
struct rpki_wanted_list {
    size_t size;                 /* is sizeof(struct rpki_wanted_list) */
    struct rpki_question issuer; /* is as in struct rpki_wanted, and has certificates */
    const uint8_t *previous;     /* is the issuer's previous CRL, which the same key signed; no byte
                                  * may follow it. With length 0 there is none */
    size_t previous_length;
    const struct rpki_entry *revoked; /* are revoked now, beside all entries of the previous CRL */
    size_t revoked_count;
    struct rpki_time this_update, next_update;
    uint8_t number[20]; /* is greater than the previous one and below 2^159, its most significant
                         * byte first. Zeros mean one more than the previous one, and 1 for a
                         * first CRL */
};

/* Prepares the issuer's next CRL for its signature: writes the TBSCertList, which the issuer's key
 * has to sign, as rpki_prepare does. All entries of the previous CRL are kept, and those that are
 * revoked now follow, each serial number once. No signature is spent on a CRL that is stale at the
 * time, or that may not follow the previous one.
 *
 * *told is valid after an error, too, and *out is then as it was. The error is RPKI_BAD_CALL if
 * `size` is another, a time doesn't exist, or the path ends in no CA; one of the issuer's path; one
 * from RPKI_ISSUING_OTHER_LIST on; RPKI_ISSUING_TOO_LONG; or RPKI_REVOCATION_STALE if nextUpdate is
 * before the time. */
uint32_t rpki_prepare_list(const struct rpki_wanted_list *wanted, uint8_t *out, size_t room,
                           struct rpki_issued *told);

/* Holds a prepared CRL with its signature. */
struct rpki_list_completion {
    size_t size;                 /* is sizeof(struct rpki_list_completion) */
    struct rpki_question issuer; /* is as in struct rpki_wanted_list; its time may be later */
    const uint8_t *prepared;     /* is what rpki_prepare_list wrote */
    size_t prepared_length;
    const uint8_t *signature; /* is the key's signature of it, without the BIT STRING around it */
    size_t signature_length;
};

/* Completes a CRL: writes it if and only if the issuer's key signed what was prepared, which is
 * checked again at this time, as rpki_complete does. The previous CRL isn't compared again.
 *
 * *told is valid after an error, too, and *out is then as it was. The error is as for
 * rpki_prepare_list; RPKI_OTHER_NAME if the CRL has another name than its issuer;
 * RPKI_REVOCATION_BAD_SIGNATURE if the signature isn't valid. */
uint32_t rpki_complete_list(const struct rpki_list_completion *completion, uint8_t *out,
                            size_t room, struct rpki_issued *told);

#ifdef __cplusplus
}
#endif
#endif
