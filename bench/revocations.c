// Nanoseconds of validating a path whose members are looked for on revocation lists, beside the
// path alone and beside OpenSSL. usage: revocations ENTRIES ANCHOR AUTHORITY.. LEAF Each of the
// names has the certificate NAME.cer and its key NAME.key; each member's list but the leaf's is
// made here, of so many entries.
#include "list.h"
#include "measure.h"
#include "path.h"
#include <openssl/pem.h>
#include <string.h>

// crates/rpki_bench
uint32_t rpki_path(const unsigned char *octets, size_t octets_len, const size_t *lengths, size_t count, uint32_t is_signed, uint32_t rounds);
uint32_t rpki_path_with(const unsigned char *octets, size_t octets_len, const size_t *lengths, size_t count, uint32_t caches, uint32_t is_signed,
                        uint32_t rounds);

static unsigned char octets[1 << 24];
static size_t lengths[64], members, count, members_len, len;

static void add(const unsigned char *from, size_t length) {
    if (length > sizeof octets - len) exit(2);
    memcpy(octets + len, from, length);
    lengths[count++] = length;
    len += length;
}

static void add_certificate(const char *name) {
    static unsigned char buffer[1 << 20];
    char file[4096];
    snprintf(file, sizeof file, "%s.cer", name);
    add(buffer, contents(file, buffer, sizeof buffer));
}

static void add_list(const char *name, const unsigned char *certificate, size_t length, uint32_t entries) {
    char file[4096];
    snprintf(file, sizeof file, "%s.key", name);
    FILE *pem = fopen(file, "r");
    EVP_PKEY *key = pem == NULL ? NULL : PEM_read_PrivateKey(pem, NULL, NULL, NULL);
    if (key == NULL) exit(2);
    X509 *issuer = d2i_X509(NULL, &certificate, length);
    unsigned char *list = NULL;
    int list_len = make_list(entries, X509_get_subject_name(issuer), ASN1_STRING_get0_data(X509_get0_subject_key_id(issuer)), key, &list);
    add(list, list_len);
    OPENSSL_free(list);
    X509_free(issuer);
    EVP_PKEY_free(key);
    fclose(pem);
}

// One round of the path, with the lists asked or not: the time of so many rounds, less that of
// making the store, which is done once.
struct measured {
    double all, store;
};

static void measure(struct measured *it, uint32_t caches, uint32_t rounds) {
    LEAST(it->store, 1, rpki_path_with(octets, len, lengths, count, caches, 0, 0));
    LEAST(it->all, 1, if (rpki_path_with(octets, len, lengths, count, caches, 0, rounds) != rounds) exit(3));
}

// Whether OpenSSL reads the path and the lists, all are signed, no member lists more than the one
// above it, and none is on its issuer's list.
static int openssl(void) {
    STACK_OF(X509) *chain = chain_of(octets, lengths, members);
    int ok = are_signed(chain);
    const unsigned char *at = octets + members_len;
    for (size_t i = 0; i + 1 < members; at += lengths[members + i++]) {
        const unsigned char *from = at;
        X509_CRL *list = d2i_X509_CRL(NULL, &from, lengths[members + i]);
        X509 *issuer = sk_X509_value(chain, members - 1 - i), *member = sk_X509_value(chain, members - 2 - i);
        X509_REVOKED *revoked;
        ok &= X509_CRL_verify(list, X509_get0_pubkey(issuer)) == 1;
        ok &= X509_CRL_get0_by_serial(list, &revoked, X509_get0_serialNumber(member)) == 0;
        X509_CRL_free(list);
    }
    return ok & lists_no_more(chain);
}

int main(int argc, char **argv) {
    if (argc < 4 || argc > 34) return 2;
    uint32_t entries = strtoul(argv[1], NULL, 10);
    for (int i = 2; i < argc; i++) add_certificate(argv[i]);
    members = count;
    members_len = len;
    const unsigned char *at = octets;
    for (size_t i = 0; i + 1 < members; at += lengths[i++]) add_list(argv[i + 2], at, lengths[i], entries);

    // by turns
    uint32_t walks = entries > 10000 ? 5 : 200, looks = 2000;
    struct measured without = {0}, with = {0};
    double alone = 0;
    for (int run = 0; run < 20; run++) {
        LEAST(alone, looks, if (rpki_path(octets, members_len, lengths, members, 0, looks) != looks) exit(3));
        measure(&with, 1, looks);
        measure(&without, 0, walks);
    }
    double walked = (without.all - without.store) / walks, cached = (with.all - with.store) / looks;
    printf("%zu members, lists of %u entries: alone %.2f us; with lists %.2f us (%.2f times), with cached lists %.2f us (%.2f times)\n",
           members, entries, alone / 1e3, walked / 1e3, walked / alone, cached / 1e3, cached / alone);

    double here = 0, there = 0;
    for (int run = 0; run < 20; run++) {
        LEAST(here, 1, if (rpki_path_with(octets, len, lengths, count, 0, 1, 1) != 1) exit(3));
        LEAST(there, 1, if (!openssl()) exit(3));
    }
    printf("  read and validated once with real signatures: %.2f us, OpenSSL %.2f us (%.1f times)\n", here / 1e3, there / 1e3, there / here);
    return 0;
}
