// Microseconds of `rpki_path_validate` of a path of two, with its own CRL and beside one of another CA
// with so many entries; and of `rpki_list_read` of that one. usage: foreign EXAMPLES ENTRIES
#include "list.h"
#include "measure.h"
#include "rpki.h"
#include <openssl/rsa.h>
#include <string.h>

static unsigned char members[1 << 14], *lists;
static size_t lengths[2], list_lengths[2];

static size_t example(const char *folder, const char *name, unsigned char *octets, size_t room) {
    char path[4096];
    snprintf(path, sizeof path, "%s/%s", folder, name);
    return contents(path, octets, room);
}

// the path is validated by so many of the lists
static void validate(size_t count) {
    const size_t length = list_lengths[0] + (count > 1 ? list_lengths[1] : 0);
    const struct rpki_question question = {
        .size = sizeof question,
        .members = {members, lengths[0] + lengths[1], lengths, 2},
        .lists = {lists, length, list_lengths, count},
        .moment = {.year = 2026, .month = 6, .day = 1},
        .last = RPKI_AUTHORITY,
        .strict = 1,
        .anchor = RPKI_AS_GIVEN,
    };
    struct rpki_ip_range v4[64], v6[64];
    struct rpki_as_range asn[64];
    struct rpki_room room = {v4, 64, v6, 64, asn, 64};
    struct rpki_verdict out;
    if (rpki_path_validate(&question, &room, &out) != RPKI_OK) exit(1);
}

static void read_list(void) {
    struct rpki_list out;
    if (rpki_list_read(lists + list_lengths[0], list_lengths[1], &out) != RPKI_OK) exit(1);
}

int main(int argc, char **argv) {
    if (argc != 3) return 2;
    unsigned char own[4096], *other = NULL;
    X509_NAME *name = X509_NAME_new();
    X509_NAME_add_entry_by_txt(name, "CN", MBSTRING_ASC, (const unsigned char *)"another CA", -1, -1, 0);
    list_lengths[1] = make_list(strtoul(argv[2], NULL, 10), name, (const unsigned char *)"01234567890123456789", EVP_RSA_gen(2048), &other);
    lengths[0] = example(argv[1], "anchor.cer", members, sizeof members);
    lengths[1] = example(argv[1], "first.cer", members + lengths[0], sizeof members - lengths[0]);
    list_lengths[0] = example(argv[1], "first.crl", own, sizeof own);
    lists = malloc(list_lengths[0] + list_lengths[1]);
    memcpy(lists, own, list_lengths[0]);
    memcpy(lists + list_lengths[0], other, list_lengths[1]);
    double alone = 0, beside = 0, read = 0;
    for (int run = 0; run < 40; run++) {
        LEAST(alone, 1, validate(1));
        LEAST(beside, 1, validate(2));
        LEAST(read, 1, read_list());
    }
    printf("a path of two: %.0f us, beside a CRL of another CA: %.0f us; that CRL decoded: %.0f us\n", alone / 1e3, beside / 1e3, read / 1e3);
    return 0;
}
