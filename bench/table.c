// Nanoseconds and memory of each operation of the table in README.md, by this project and by
// OpenSSL in turns: a line of fields with tabs between them. usage: table FOLDER, which has the
// certificates that table.sh makes
#include "list.h"
#include "measure.h"
#include "path.h"
#include <openssl/rsa.h>
#include <string.h>

// crates/rpki_bench
uint32_t rpki_decode(const unsigned char *octets, size_t len);
uint32_t rpki_write(const unsigned char *octets, size_t len, uint32_t rounds);
uint32_t rpki_list(const unsigned char *octets, size_t len, uint32_t rounds);
uint32_t rpki_look_up(const unsigned char *octets, size_t len, uint32_t caches, const uint64_t *serials, size_t count);
uint32_t rpki_path(const unsigned char *octets, size_t octets_len, const size_t *lengths, size_t count, uint32_t is_signed, uint32_t rounds);

enum { RUNS = 40, MANY = 100000, EXTENSIONS = 20 };

static unsigned char octets[1 << 24];
static size_t lengths[8], count, len;

// An operation: so many rounds of it, and whether all went well.
typedef int operation(uint32_t rounds);

static void line(const char *name, double here, double there, size_t our_most, size_t their_most) {
    printf("%s\t%.1f\t%.1f\t%zu\t%zu\n", name, here, there, our_most, their_most);
    fflush(stdout);
}

// Measures both by turns, and prints the least of each for one of so many parts.
static void measure(const char *name, operation *ours, operation *theirs, double parts) {
    if (!ours(1) || !theirs(1)) {
        fprintf(stderr, "table: %s went wrong\n", name);
        exit(1);
    }
    size_t our_most, their_most;
    MOST(our_most, ours(1));
    MOST(their_most, theirs(1));
    double here = 0, there = 0;
    LEAST(here, 1, ours(1));
    LEAST(there, 1, theirs(1));
    uint32_t rounds = rounds_for(here), their_rounds = rounds_for(there);
    for (int run = 0; run < RUNS; run++) {
        LEAST(here, rounds, ours(rounds));
        LEAST(there, their_rounds, theirs(their_rounds));
    }
    line(name, here / parts, there / parts, our_most, their_most);
}

// Reads the members NAME-MEMBER.cer of the folder, one behind the other.
static void load(const char *folder, const char *size, const char *const *members, size_t many) {
    char name[4096];
    for (len = count = 0; count < many; len += lengths[count++]) {
        snprintf(name, sizeof name, "%s/%s-%s.cer", folder, size, members[count]);
        lengths[count] = contents(name, octets + len, sizeof octets - len);
    }
}

// ---- certificates

static int our_decoding(uint32_t rounds) {
    int ok = 1;
    for (uint32_t i = 0; i < rounds; i++) ok &= rpki_decode(octets, len) == 1;
    return ok;
}

// the value of each extension, as OpenSSL reads it
static void *value_of(X509 *cert, int at) {
    return X509V3_EXT_d2i(X509_get_ext(cert, at));
}

static void let_go(X509 *cert, int at, void *value) {
    const X509V3_EXT_METHOD *method = X509V3_EXT_get(X509_get_ext(cert, at));
    if (method->it) ASN1_item_free(value, ASN1_ITEM_ptr(method->it));
    else method->ext_free(value);
}

static int their_decoding(uint32_t rounds) {
    int ok = 1;
    for (uint32_t i = 0; i < rounds; i++) {
        const unsigned char *at = octets;
        X509 *cert = d2i_X509(NULL, &at, len);
        for (int k = 0; k < X509_get_ext_count(cert); k++) {
            void *value = value_of(cert, k);
            ok &= value != NULL;
            let_go(cert, k, value);
        }
        X509_free(cert);
    }
    return ok;
}

// The certificate is read once, and its fields are encoded in each round.
static int our_encoding(uint32_t rounds) {
    return rpki_write(octets, len, rounds) == 1;
}

static int their_encoding(uint32_t rounds) {
    const unsigned char *at = octets;
    X509 *cert = d2i_X509(NULL, &at, len);
    void *values[EXTENSIONS];
    int many = X509_get_ext_count(cert), ok = 1;
    for (int k = 0; k < many; k++) values[k] = value_of(cert, k);
    for (uint32_t i = 0; i < rounds; i++) {
        for (int k = 0; k < many; k++) {
            X509_EXTENSION *extension = X509_get_ext(cert, k);
            int nid = OBJ_obj2nid(X509_EXTENSION_get_object(extension));
            X509_EXTENSION_free(X509V3_EXT_i2d(nid, X509_EXTENSION_get_critical(extension), values[k]));
        }
        unsigned char *made = NULL;
        ok &= i2d_re_X509_tbs(cert, &made) > 0;
        OPENSSL_free(made);
    }
    for (int k = 0; k < many; k++) let_go(cert, k, values[k]);
    X509_free(cert);
    return ok;
}

// The time of a round without the reading before the first, of both.
static void measure_encoding(const char *name) {
    if (!our_encoding(1) || !their_encoding(1)) exit(1);
    size_t our_most, their_most;
    MOST(our_most, our_encoding(1));
    MOST(their_most, their_encoding(1));
    double here = 0, there = 0, read = 0, their_read = 0;
    enum { ROUNDS = 200 };
    for (int run = 0; run < RUNS; run++) {
        LEAST(read, 1, our_encoding(0));
        LEAST(here, 1, our_encoding(ROUNDS));
        LEAST(their_read, 1, their_encoding(0));
        LEAST(there, 1, their_encoding(ROUNDS));
    }
    line(name, (here - read) / ROUNDS, (there - their_read) / ROUNDS, our_most, their_most);
}

// ---- paths

static int our_path(uint32_t rounds) {
    return rpki_path(octets, len, lengths, count, 0, rounds) == rounds;
}

static int their_path(uint32_t rounds) {
    int ok = 1;
    for (uint32_t i = 0; i < rounds; i++) ok &= lists_no_more(chain_of(octets, lengths, count));
    return ok;
}

// ---- lists

static unsigned char *list;
static int list_len;
static uint64_t serials[MANY];
static ASN1_INTEGER *integers[MANY];

static int our_list(uint32_t rounds) {
    return rpki_list(list, list_len, rounds) == 1;
}

// how many of so many numbers are on the list; with none, only reads it
static uint32_t their_look_ups(uint32_t many) {
    const unsigned char *at = list;
    X509_CRL *crl = d2i_X509_CRL(NULL, &at, list_len);
    uint32_t found = 0;
    for (uint32_t i = 0; i < many; i++) {
        X509_REVOKED *revoked;
        found += X509_CRL_get0_by_serial(crl, &revoked, integers[i]) == 1;
    }
    X509_CRL_free(crl);
    return found;
}

static int their_list(uint32_t rounds) {
    for (uint32_t i = 0; i < rounds; i++) their_look_ups(0);
    return 1;
}

static void make_numbers(void) {
    X509_NAME *name = X509_NAME_new();
    X509_NAME_add_entry_by_txt(name, "CN", MBSTRING_ASC, (const unsigned char *)"9B7E1F2A6C0D4E5F8A3B2C1D0E9F8A7B6C5D4E3F", -1, -1, 0);
    list_len = make_list(MANY, name, (const unsigned char *)"01234567890123456789", EVP_RSA_gen(2048), &list);
    uint32_t *order = shuffled(2 * MANY);
    for (uint32_t i = 0; i < MANY; i++) {
        serials[i] = serial(order[i]);
        integers[i] = integer(serials[i]);
    }
}

static void measure_look_ups(void) {
    if (rpki_look_up(list, list_len, 1, serials, MANY) != their_look_ups(MANY)) exit(1);
    size_t our_most, their_most;
    MOST(our_most, rpki_look_up(list, list_len, 1, serials, 1));
    MOST(their_most, their_look_ups(1));
    double read = 0, their_read = 0, first = 0, their_first = 0, all = 0, their_all = 0;
    for (int run = 0; run < RUNS; run++) {
        LEAST(read, 1, our_list(1));
        LEAST(their_read, 1, their_look_ups(0));
        LEAST(first, 1, rpki_look_up(list, list_len, 1, serials, 1));
        LEAST(their_first, 1, their_look_ups(1));
        LEAST(all, 1, rpki_look_up(list, list_len, 1, serials, MANY));
        LEAST(their_all, 1, their_look_ups(MANY));
    }
    line("first look-up in 100,000 shuffled entries", first - read, their_first - their_read, our_most, their_most);
    line("each further look-up there", (all - first) / MANY, (their_all - their_first) / MANY, our_most, their_most);
}

int main(int argc, char **argv) {
    if (argc != 2 || watch_openssl() != 1) return 2;
    static const char *const anchor[] = {"0"}, *const authority[] = {"1"}, *const leaf[] = {"leaf"}, *const path[] = {"0", "1", "2", "leaf"};
    load(argv[1], "usual", authority, 1);
    measure("decode a usual CA (33 blocks)", our_decoding, their_decoding, 1);
    measure_encoding("encode a usual CA");
    load(argv[1], "usual", leaf, 1);
    measure("decode an end entity", our_decoding, their_decoding, 1);
    load(argv[1], "usual", anchor, 1);
    measure("decode a trust anchor", our_decoding, their_decoding, 1);
    load(argv[1], "large", authority, 1);
    measure("decode 10,000 address and 5,000 AS blocks", our_decoding, their_decoding, 1);
    measure_encoding("encode 10,000 address and 5,000 AS blocks");
    load(argv[1], "usual", path, 4);
    measure("a usual path of four, without signatures", our_path, their_path, 1);
    load(argv[1], "large", path, 4);
    measure("a large path of four, without signatures", our_path, their_path, 1);
    make_numbers();
    measure("an entry of a list of 100,000", our_list, their_list, MANY);
    measure_look_ups();
    return 0;
}
