// Nanoseconds of calls through include/rpki.h beside the library's own calls: a certificate read
// beside its decoding, and a path validated beside `validate_path`. usage: callers ANCHOR AUTHORITY.. LEAF
#include "measure.h"
#include "rpki.h"

// crates/rpki_bench
uint32_t rpki_decode(const unsigned char *octets, size_t octets_len);
uint32_t rpki_path(const unsigned char *octets, size_t octets_len, const size_t *lengths, size_t count, uint32_t is_signed, uint32_t rounds);

static unsigned char octets[1 << 20];
static size_t lengths[64], count, len;
static struct rpki_ip_range v4[64], v6[64];
static struct rpki_as_range asn[64];

static void read_all(const unsigned char *from, size_t length, uint32_t rounds) {
    struct rpki_certificate out;
    for (uint32_t i = 0; i < rounds; i++)
        if (rpki_certificate_read(from, length, &out) != RPKI_OK) exit(1);
}

static void decode_all(const unsigned char *from, size_t length, uint32_t rounds) {
    for (uint32_t i = 0; i < rounds; i++)
        if (rpki_decode(from, length) != 1) exit(1);
}

static void path_asked(uint32_t rounds) {
    const struct rpki_question question = {
        .size = sizeof question,
        .members = {octets, len, lengths, count},
        .moment = {.year = 2027, .month = 1, .day = 1},
        .last = RPKI_END_ENTITY,
        .strict = 1,
        .revocation = RPKI_ASK_NOBODY,
        .anchor = RPKI_AS_GIVEN,
        .key = RPKI_ANY_KEY, /* `validate_path` asks neither the last key nor names */
        .names = RPKI_ANY_NAMES,
    };
    struct rpki_room room = {v4, 64, v6, 64, asn, 64};
    struct rpki_verdict out;
    for (uint32_t i = 0; i < rounds; i++)
        if (rpki_path_validate(&question, &room, &out) != RPKI_OK) exit(1);
}

static void path_alone(uint32_t rounds) {
    if (rpki_path(octets, len, lengths, count, 1, rounds) != rounds) exit(1);
}

static void show(const char *what, double there, double here) {
    printf("%-46s %9.2f us, through the header %9.2f us (%.2f times)\n", what, there / 1e3, here / 1e3, here / there);
}

int main(int argc, char **argv) {
    if (argc < 3 || argc > 65) return 2;
    count = argc - 1;
    for (size_t i = 0; i < count; len += lengths[i++])
        lengths[i] = contents(argv[i + 1], octets + len, sizeof octets - len);
    // the authority below the anchor
    const unsigned char *usual = octets + lengths[0];
    double here = 0, there = 0, path_here = 0, path_there = 0;
    for (int run = 0; run < 200; run++) {
        LEAST(there, 300, decode_all(usual, lengths[1], 300));
        LEAST(here, 300, read_all(usual, lengths[1], 300));
        LEAST(path_there, 60, path_alone(60));
        LEAST(path_here, 60, path_asked(60));
    }
    show("a usual certificate decoded", there, here);
    show("a path validated", path_there, path_here);
    return 0;
}
