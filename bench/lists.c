// Nanoseconds of reading revocation lists and of looking serial numbers up in them, by this project
// and by OpenSSL, which makes the lists: serial numbers of eight octets in a shuffled order. usage:
// lists ENTRIES
#include "list.h"
#include "measure.h"
#include <openssl/rsa.h>

// crates/rpki_bench
uint32_t rpki_list(const unsigned char *octets, size_t len, uint32_t rounds);
uint32_t rpki_look_up(const unsigned char *octets, size_t len, uint32_t caches, const uint64_t *serials, size_t count);

// The numbers that are asked, of which half are on the list: in a shuffled order, which isn't that
// of the list, and in ascending order.
enum { MANY = 100000, FEW = 10 };
static struct asked {
    uint64_t ours[MANY];
    ASN1_INTEGER *theirs[MANY];
} mixed, ascending;
static const uint64_t ABSENT[FEW];

static int make(uint32_t entries, unsigned char **octets) {
    X509_NAME *name = X509_NAME_new();
    X509_NAME_add_entry_by_txt(name, "CN", MBSTRING_ASC, (const unsigned char *)"9B7E1F2A6C0D4E5F8A3B2C1D0E9F8A7B6C5D4E3F", -1, -1, 0);
    return make_list(entries, name, (const unsigned char *)"01234567890123456789", EVP_RSA_gen(2048), octets);
}

static void choose(struct asked *asked, uint32_t place, uint32_t at) {
    asked->ours[at] = serial(place);
    asked->theirs[at] = integer(serial(place));
}

static void choose_all(uint32_t entries) {
    uint32_t places = entries > 0 ? 2 * entries : 1, *order = shuffled(places);
    for (uint32_t i = 0; i < MANY; i++) {
        choose(&mixed, order[i % places], i);
        choose(&ascending, i % places, i);
    }
}

// how many of so many numbers are on the list; with none, only reads it
static uint32_t openssl_look_up(const unsigned char *octets, long len, const struct asked *asked, uint32_t count) {
    X509_CRL *crl = d2i_X509_CRL(NULL, &octets, len);
    uint32_t found = 0;
    for (uint32_t i = 0; i < count; i++) {
        X509_REVOKED *revoked;
        found += X509_CRL_get0_by_serial(crl, &revoked, asked->theirs[i]) == 1;
    }
    X509_CRL_free(crl);
    return found;
}

int main(int argc, char **argv) {
    if (argc != 2 || watch_openssl() != 1) return 2;
    uint32_t entries = strtoul(argv[1], NULL, 10);
    unsigned char *octets = NULL;
    int len = make(entries, &octets);
    choose_all(entries);
    if (rpki_list(octets, len, 1) != 1) {
        puts("not read");
        return 1;
    }
    if (rpki_look_up(octets, len, 1, mixed.ours, MANY) != openssl_look_up(octets, len, &mixed, MANY)
        || rpki_look_up(octets, len, 0, mixed.ours, FEW) != openssl_look_up(octets, len, &mixed, FEW)) {
        puts("not found");
        return 1;
    }

    size_t our_most, cached_most, their_most;
    MOST(our_most, rpki_list(octets, len, 1));
    MOST(cached_most, rpki_look_up(octets, len, 1, mixed.ours, 1));
    MOST(their_most, openssl_look_up(octets, len, &mixed, 1));

    double ours = 0, theirs = 0, walk = 0, first = 0, their_first = 0, warm = 0, their_warm = 0, warm_up = 0, their_warm_up = 0;
    LEAST(ours, 1, rpki_list(octets, len, 1));
    LEAST(theirs, 1, openssl_look_up(octets, len, &mixed, 0));
    uint32_t rounds = rounds_for(ours), their_rounds = rounds_for(theirs);
    for (int run = 0; run < 40; run++) {
        LEAST(ours, rounds, rpki_list(octets, len, rounds));
        LEAST(theirs, their_rounds, for (uint32_t i = 0; i < their_rounds; i++) openssl_look_up(octets, len, &mixed, 0));
        LEAST(walk, rounds, for (uint32_t i = 0; i < rounds; i++) rpki_look_up(octets, len, 0, ABSENT, FEW));
        LEAST(first, rounds, for (uint32_t i = 0; i < rounds; i++) rpki_look_up(octets, len, 1, mixed.ours, 1));
        LEAST(their_first, their_rounds, for (uint32_t i = 0; i < their_rounds; i++) openssl_look_up(octets, len, &mixed, 1));
        LEAST(warm, 1, rpki_look_up(octets, len, 1, mixed.ours, MANY));
        LEAST(their_warm, 1, openssl_look_up(octets, len, &mixed, MANY));
        LEAST(warm_up, 1, rpki_look_up(octets, len, 1, ascending.ours, MANY));
        LEAST(their_warm_up, 1, openssl_look_up(octets, len, &ascending, MANY));
    }
    double each = entries > 0 ? entries : 1;
    printf("%u entries, %d octets: Crl::decode %.0f ns, OpenSSL %.0f ns; an entry %.1f, OpenSSL %.1f (%.1f times)\n",
           entries, len, ours, theirs, ours / each, theirs / each, theirs / ours);
    printf("  uncached look-up %.0f ns, an entry %.1f; first cached one %.0f ns, OpenSSL %.0f (%.2f of it)\n",
           (walk - ours) / FEW, (walk - ours) / FEW / each, first - ours, their_first - theirs, (first - ours) / (their_first - theirs));
    printf("  each further one, of numbers in a shuffled order %.0f ns, OpenSSL %.0f, in ascending order %.0f ns, OpenSSL %.0f\n",
           (warm - first) / MANY, (their_warm - their_first) / MANY, (warm_up - first) / MANY, (their_warm_up - their_first) / MANY);
    printf("  memory %zu, with the cache %zu, OpenSSL %zu\n", our_most, cached_most, their_most);
    return 0;
}
