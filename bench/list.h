// What the measurements share: revocation lists that OpenSSL makes, of serial numbers of eight
// octets in a shuffled order.
#include <openssl/evp.h>
#include <openssl/x509.h>
#include <openssl/x509v3.h>

// the number in this place; the odd ones are on no list
static uint64_t serial(uint32_t place) {
    return 0x1B2C3D4E5F607182 + place * (uint64_t)0x8001;
}

static ASN1_INTEGER *integer(uint64_t n) {
    ASN1_INTEGER *it = ASN1_INTEGER_new();
    ASN1_INTEGER_set_uint64(it, n);
    return it;
}

// the places from 0 on in a shuffled order
static uint32_t *shuffled(uint32_t count) {
    uint32_t *order = malloc((count + 1) * sizeof *order);
    for (uint32_t i = 0; i < count; i++) order[i] = i;
    for (uint32_t i = count; i > 1; i--) {
        uint32_t j = (((uint32_t)rand() << 15) ^ rand()) % i, it = order[i - 1];
        order[i - 1] = order[j];
        order[j] = it;
    }
    return order;
}

// A list of so many entries that this key signs, of the issuer of this name and key identifier (20
// octets), from 2019 to 2034.
static int make_list(uint32_t entries, X509_NAME *name, const unsigned char *key_id, EVP_PKEY *key, unsigned char **octets) {
    X509_CRL *crl = X509_CRL_new();
    X509_CRL_set_version(crl, 1);
    X509_CRL_set_issuer_name(crl, name);
    ASN1_TIME *since = ASN1_TIME_set(NULL, 1556668800), *until = ASN1_TIME_set(NULL, 2019686400);
    X509_CRL_set1_lastUpdate(crl, since);
    X509_CRL_set1_nextUpdate(crl, until);
    uint32_t *order = shuffled(entries);
    for (uint32_t i = 0; i < entries; i++) {
        X509_REVOKED *revoked = X509_REVOKED_new();
        X509_REVOKED_set_serialNumber(revoked, integer(serial(2 * order[i])));
        X509_REVOKED_set_revocationDate(revoked, since);
        X509_CRL_add0_revoked(crl, revoked);
    }
    AUTHORITY_KEYID *id = AUTHORITY_KEYID_new();
    id->keyid = ASN1_OCTET_STRING_new();
    ASN1_OCTET_STRING_set(id->keyid, key_id, 20);
    X509_CRL_add1_ext_i2d(crl, NID_authority_key_identifier, id, 0, X509V3_ADD_APPEND);
    X509_CRL_add1_ext_i2d(crl, NID_crl_number, integer(12), 0, X509V3_ADD_APPEND);
    X509_CRL_sign(crl, key, EVP_sha256());
    return i2d_X509_CRL(crl, octets);
}
