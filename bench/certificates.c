// Nanoseconds a call of reading, of validating and of writing a certificate, by this project and by
// OpenSSL. usage: certificates ANCHOR FILE
#include "measure.h"
#include <openssl/x509.h>
#include <openssl/x509v3.h>

// crates/rpki_bench
uint32_t rpki_decode(const unsigned char *octets, size_t len);
uint32_t rpki_validate(const unsigned char *anchor, size_t anchor_len, const unsigned char *octets, size_t len, uint32_t validates, uint32_t rounds);
uint32_t rpki_hash(const unsigned char *octets, size_t len, uint32_t rounds);
uint32_t rpki_write(const unsigned char *octets, size_t len, uint32_t rounds);
uint32_t rpki_rearrange(const unsigned char *octets, size_t len, uint32_t count, uint32_t rounds);

enum { HASHES = 5000 };

// the certificate with each of its extensions
static int openssl_decode(const unsigned char *octets, long len) {
    X509 *cert = d2i_X509(NULL, &octets, len);
    if (cert == NULL) return 0;
    int ok = 1;
    for (int i = 0; i < X509_get_ext_count(cert); i++) {
        X509_EXTENSION *extension = X509_get_ext(cert, i);
        const X509V3_EXT_METHOD *method = X509V3_EXT_get(extension);
        void *value = X509V3_EXT_d2i(extension);
        if (value == NULL) ok = 0;
        else if (method->it) ASN1_item_free(value, ASN1_ITEM_ptr(method->it));
        else method->ext_free(value);
    }
    X509_free(cert);
    return ok;
}

int main(int argc, char **argv) {
    if (argc != 3 || watch_openssl() != 1) return 2;
    static unsigned char octets[1 << 20], anchor[1 << 20];
    size_t anchor_len = contents(argv[1], anchor, sizeof anchor), len = contents(argv[2], octets, sizeof octets);
    if (rpki_decode(octets, len) != 1 || openssl_decode(octets, len) != 1) {
        puts("not read");
        return 1;
    }
    if (rpki_validate(anchor, anchor_len, octets, len, 1, 1) != 1) {
        puts("not valid");
        return 1;
    }

    uint32_t extensions = 0;
    while (extensions < 20 && rpki_rearrange(octets, len, extensions, 1) != 1) extensions++;

    size_t our_most, their_most;
    MOST(our_most, rpki_decode(octets, len));
    MOST(their_most, openssl_decode(octets, len));
    double ours = 0, theirs = 0, writing = 0, rearranging = 0, anchors = 0, shared = 0, valid = 0, read = 0, hash = 0;
    LEAST(ours, 1, rpki_decode(octets, len));
    LEAST(theirs, 1, openssl_decode(octets, len));
    uint32_t rounds = rounds_for(ours), their_rounds = rounds_for(theirs);
    for (int run = 0; run < 40; run++) {
        LEAST(ours, rounds, for (uint32_t i = 0; i < rounds; i++) rpki_decode(octets, len));
        LEAST(theirs, their_rounds, for (uint32_t i = 0; i < their_rounds; i++) openssl_decode(octets, len));
        LEAST(read, 1, rpki_hash(octets, len, 0));
        LEAST(hash, 1, rpki_hash(octets, len, HASHES));
        LEAST(writing, 1, rpki_write(octets, len, rounds));
        LEAST(rearranging, 1, rpki_rearrange(octets, len, extensions, rounds));
        LEAST(anchors, 1, rpki_validate(anchor, anchor_len, octets, len, 0, 0));
        LEAST(shared, 1, rpki_validate(anchor, anchor_len, octets, len, 0, rounds));
        LEAST(valid, 1, rpki_validate(anchor, anchor_len, octets, len, 1, rounds));
    }
    hash = (hash - read) / HASHES;
    writing = (writing - read) / rounds;
    rearranging /= rounds;
    valid = (valid - shared) / rounds;
    shared = (shared - anchors) / rounds;
    printf("%zu octets: Cert::decode %.0f ns, OpenSSL %.0f ns (%.1f times); memory %zu, OpenSSL %zu\n",
           len, ours, theirs, theirs / ours, our_most, their_most);
    printf("  TbsCert::encode_ref %.0f ns; Cert::decode_shared %.0f ns, validate_ca_at %.0f ns (%.2f of it), of which SHA-1 %.0f ns (%.2f without it)\n",
           writing, shared, valid, valid / shared, hash, (valid - hash) / shared);
    printf("  rearrange of %u extensions %.0f ns (%.2f of Cert::decode)\n", extensions, rearranging, rearranging / ours);
    return 0;
}
