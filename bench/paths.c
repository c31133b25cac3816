// Nanoseconds and memory of validating a path by this project and by OpenSSL, without the
// signatures and with them. usage: paths ANCHOR AUTHORITY.. LEAF
#include "measure.h"
#include "path.h"

// crates/rpki_bench
uint32_t rpki_path(const unsigned char *octets, size_t octets_len, const size_t *lengths, size_t count, uint32_t is_signed, uint32_t rounds);

static unsigned char octets[1 << 24];
static size_t lengths[64], count, len;

static int ours(int is_signed, uint32_t rounds) {
    return rpki_path(octets, len, lengths, count, is_signed, rounds) == rounds;
}

static int openssl(int is_signed, uint32_t rounds) {
    int ok = 1;
    for (uint32_t i = 0; i < rounds; i++) {
        STACK_OF(X509) *chain = chain_of(octets, lengths, count);
        ok &= (!is_signed || are_signed(chain)) & lists_no_more(chain);
    }
    return ok;
}

static void measure(int is_signed) {
    if (!ours(is_signed, 1) || !openssl(is_signed, 1)) {
        puts("not valid");
        exit(1);
    }
    size_t our_most, their_most;
    MOST(our_most, ours(is_signed, 1));
    MOST(their_most, openssl(is_signed, 1));
    double here = 0, there = 0;
    LEAST(here, 1, ours(is_signed, 1));
    LEAST(there, 1, openssl(is_signed, 1));
    uint32_t our_rounds = rounds_for(here), their_rounds = rounds_for(there);
    for (int run = 0; run < 40; run++) {
        LEAST(here, our_rounds, ours(is_signed, our_rounds));
        LEAST(there, their_rounds, openssl(is_signed, their_rounds));
    }
    printf("%2zu members, %8zu octets, %s signatures: %9.2f us, OpenSSL %9.2f us (%.1f times); memory %9zu, OpenSSL %9zu\n",
           count, len, is_signed ? "with   " : "without", here / 1e3, there / 1e3, there / here, our_most, their_most);
}

int main(int argc, char **argv) {
    if (argc < 3 || argc > 65 || watch_openssl() != 1) return 2;
    count = argc - 1;
    for (size_t i = 0; i < count; len += lengths[i++]) lengths[i] = contents(argv[i + 1], octets + len, sizeof octets - len);
    measure(0);
    measure(1);
    return 0;
}
