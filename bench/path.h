// What the measurements share: a path of certificates as OpenSSL judges it.
#include <openssl/x509.h>
#include <openssl/x509v3.h>

// The certificate, with those of its extensions that OpenSSL keeps, and each other one.
static X509 *decoded(const unsigned char *octets, size_t len) {
    X509 *cert = d2i_X509(NULL, &octets, len);
    if (cert == NULL || X509_check_purpose(cert, -1, 0) != 1) return NULL;
    static const int others[] = {NID_sinfo_access, NID_info_access, NID_certificate_policies};
    for (size_t i = 0; i < sizeof others / sizeof *others; i++) {
        void *value = X509_get_ext_d2i(cert, others[i], NULL, NULL);
        const X509V3_EXT_METHOD *method = X509V3_EXT_get_nid(others[i]);
        if (value != NULL) ASN1_item_free(value, ASN1_ITEM_ptr(method->it));
    }
    return cert;
}

// The certificates, from the last one up to the anchor.
static STACK_OF(X509) *chain_of(const unsigned char *octets, const size_t *lengths, size_t count) {
    STACK_OF(X509) *chain = sk_X509_new_null();
    for (size_t i = 0; i < count; octets += lengths[i++]) {
        X509 *cert = decoded(octets, lengths[i]);
        if (cert == NULL) exit(2);
        sk_X509_unshift(chain, cert);
    }
    return chain;
}

// Whether the anchor signed itself, and each other certificate is signed by the one above it.
static int are_signed(STACK_OF(X509) *chain) {
    int count = sk_X509_num(chain);
    for (int i = 0; i < count; i++) {
        X509 *issuer = sk_X509_value(chain, i + 1 < count ? i + 1 : i);
        if (X509_verify(sk_X509_value(chain, i), X509_get0_pubkey(issuer)) != 1) return 0;
    }
    return 1;
}

// Whether no certificate lists addresses or AS numbers beyond those of the one above it. The chain
// goes with the call.
static int lists_no_more(STACK_OF(X509) *chain) {
    X509_STORE_CTX *context = X509_STORE_CTX_new();
    X509_STORE_CTX_init(context, NULL, sk_X509_value(chain, 0), NULL);
    X509_STORE_CTX_set0_verified_chain(context, chain);
    int ok = X509v3_addr_validate_path(context) == 1 && X509v3_asid_validate_path(context) == 1;
    X509_STORE_CTX_free(context);
    return ok;
}
