// Nanoseconds an octet and octets of memory of `Cert::decode` over one file, beside OpenSSL's
// d2i_X509 of it. usage: hostile FILE
#include "measure.h"
#include <openssl/x509.h>

// crates/rpki_bench
uint32_t rpki_decode(const unsigned char *octets, size_t len);

static unsigned char octets[1 << 26];

static void openssl(size_t len) {
    const unsigned char *at = octets;
    X509_free(d2i_X509(NULL, &at, len));
}

int main(int argc, char **argv) {
    if (argc != 2 || watch_openssl() != 1) return 2;
    size_t len = contents(argv[1], octets, sizeof octets), before = held, our_most, their_most;
    uint32_t answer;
    MOST(our_most, answer = rpki_decode(octets, len));
    if (held != before || answer == 2) {
        puts("memory isn't given back");
        return 1;
    }
    openssl(len);
    MOST(their_most, openssl(len));
    double here = 0, there = 0;
    for (int run = 0; run < 5; run++) {
        LEAST(here, 1, rpki_decode(octets, len));
        LEAST(there, 1, openssl(len));
    }
    printf("%8zu octets, %s: %6.2f ns an octet, OpenSSL %6.2f; memory %5.2f times the input, OpenSSL %5.2f\n", len, answer == 1 ? "read    " : "rejected",
           here / len, there / len, (double)our_most / len, (double)their_most / len);
    return 0;
}
