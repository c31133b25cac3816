/* Shows calls of the library, one in each function, over the files anchor.cer,
 * first.cer, first.crl, revoked.crl and anchor.tal. The page of each call has
 * its function. */
#include <rpki.h>
#include <stdio.h>
#include <stdlib.h>

static void check_version(void) {
    if (rpki_abi_version() == RPKI_ABI) return;
    fprintf(stderr, "librpki isn't that of rpki.h\n");
    exit(2);
}

/* The texts have no 0 at their end. */
static void print_name(uint32_t fault) {
    uint8_t name[100];
    uint64_t length;
    if (rpki_fault_name(fault, name, sizeof name, &length) == RPKI_OK)
        printf("fault %d: %.*s\n", (int)fault, (int)length, (const char *)name);
}

static void print_sentence(uint32_t fault) {
    uint8_t sentence[256];
    uint64_t length;
    uint32_t answer =
        rpki_fault_sentence(fault, sentence, sizeof sentence, &length);
    if (answer == RPKI_OK)
        printf("%.*s\n", (int)length, (const char *)sentence);
}

static void print_end(const uint8_t *octets, size_t length) {
    struct rpki_certificate it;
    if (rpki_certificate_read(octets, length, &it) != RPKI_OK) return;
    struct rpki_time end = it.not_after;
    printf("valid until %04d-%02d-%02d\n", end.year, end.month, end.day);
}

static void print_profile(const uint8_t *octets, size_t length) {
    uint32_t strict = 1;
    uint32_t fault =
        rpki_certificate_inspect(octets, length, RPKI_END_ENTITY, strict);
    if (fault == RPKI_OK)
        printf("the profile of an end entity is met\n");
    else
        print_sentence(fault);
}

/* A first call counts, and a second one writes. At a fault the count is 0. */
static void print_addresses(const uint8_t *octets, size_t length) {
    uint64_t count;
    rpki_certificate_addresses(octets, length, 4, NULL, 0, &count);
    struct rpki_ip_range *v4 = calloc(count, sizeof *v4);
    if (v4 == NULL) return;
    rpki_certificate_addresses(octets, length, 4, v4, count, &count);
    for (uint64_t i = 0; i < count; i++) {
        const uint8_t *min = v4[i].min;
        printf("from %d.%d.%d.%d\n", min[0], min[1], min[2], min[3]);
    }
    free(v4);
}

static void print_as_numbers(const uint8_t *octets, size_t length) {
    struct rpki_as_range asn[100];
    uint64_t count;
    rpki_certificate_as_numbers(octets, length, asn, 100, &count);
    for (uint64_t i = 0; i < count && i < 100; i++)
        printf("AS%lu to AS%lu\n", (unsigned long)asn[i].min,
               (unsigned long)asn[i].max);
}

static void print_list_uri(const uint8_t *octets, size_t length) {
    uint8_t uri[200];
    uint64_t count;
    rpki_certificate_uri(octets, length, RPKI_URI_CRL, uri, sizeof uri, &count);
    if (count > 0 && count <= sizeof uri)
        printf("its list is at %.*s\n", (int)count, (const char *)uri);
}

static void print_subject_length(const uint8_t *octets, size_t length) {
    uint8_t name[128];
    uint64_t count;
    uint32_t which = RPKI_SUBJECT_TEXT, fault;
    fault = rpki_certificate_name(octets, length, which, name, sizeof name, &count);
    if (fault == RPKI_OK && count <= sizeof name)
        printf("its subject is %.*s\n", (int)count, name);
}

/* All fields at once: a first call tells how much memory they take. */
static void print_all(const uint8_t *octets, size_t length) {
    struct rpki_fields it;
    if (rpki_fields_of_certificate(octets, length, NULL, 0, &it) != RPKI_OK)
        return;
    size_t size = it.size;
    void *memory = malloc(size);
    if (memory == NULL) return;
    rpki_fields_of_certificate(octets, length, memory, size, &it);
    struct rpki_octets issuer = it.issuer_text;
    printf("its issuer is %.*s\n", (int)issuer.length, issuer.octets);
    printf("it lists %d ranges of IPv4\n", (int)it.v4_count);
    free(memory);
}

static void print_list(const uint8_t *octets, size_t length) {
    struct rpki_list it;
    if (rpki_list_read(octets, length, &it) != RPKI_OK) return;
    printf("a list of %d entries\n", (int)it.entries);
}

static void print_entries(const uint8_t *octets, size_t length) {
    struct rpki_entry entries[100];
    uint64_t count;
    rpki_list_entries(octets, length, entries, 100, &count);
    for (uint64_t i = 0; i < count && i < 100; i++)
        printf("revoked in %d: .. %02x\n", entries[i].date.year,
               entries[i].serial[19]);
}

static void print_issuer_length(const uint8_t *octets, size_t length) {
    uint64_t count;
    if (rpki_list_issuer(octets, length, NULL, 0, &count) == RPKI_OK)
        printf("its issuer has %d octets\n", (int)count);
}

/* Whether two serial numbers, of 20 octets each, are on the list. */
static void print_answers(const uint8_t *octets, size_t length) {
    uint8_t serials[2 * 20] = {[19] = 2, [39] = 3}, answers[2];
    uint32_t fault =
        rpki_list_ask(octets, length, serials, sizeof serials, answers, 2);
    if (fault == RPKI_OK)
        printf("of 2 and 3 revoked: %d, %d\n", answers[0], answers[1]);
}

/* Where the octets are no certificate. */
static void print_stop(const uint8_t *octets, size_t length) {
    struct rpki_stop stop;
    uint8_t wanted[200];
    uint64_t count;
    uint32_t is_list = 0;
    uint32_t answer = rpki_stop_text(octets, length, is_list, RPKI_PART_WANTED,
                                     &stop, wanted, sizeof wanted, &count);
    if (answer != RPKI_OK || stop.fault == RPKI_OK) return;
    printf("reading stops at octet %d, where is wanted\n", (int)stop.octet);
    printf("%.*s\n", (int)count, (const char *)wanted);
}

/* A locator says which of the strings is the trust anchor. */
static void print_lines(struct rpki_strings strings, const uint8_t *locator,
                        size_t length) {
    static const char *const fates[] = {
        [RPKI_LINE_NO_ISSUER] = "no issuer here",
        [RPKI_LINE_ANCHOR] = "the trust anchor",
        [RPKI_LINE_ACCEPTED] = "accepted",
        [RPKI_LINE_REJECTED] = "rejected",
        [RPKI_LINE_LIST] = "a revocation list",
        [RPKI_LINE_NEITHER] = "neither",
        [RPKI_LINE_NOT_ISSUED] = "not issued by a CA here",
        [RPKI_LINE_ISSUER_NOT_CA] = "issuer isn't a CA",
        [RPKI_LINE_NOT_LOOKED_AT] = "not looked at",
        [RPKI_LINE_BELOW_REJECTED] = "below a rejected CA",
        [RPKI_LINE_BELOW_UNSEEN] = "below an unjudged CA",
    };
    struct rpki_line lines[100];
    struct rpki_ip_range v4[100];
    struct rpki_room room = {.v4 = v4, .v4_room = 100};
    struct rpki_walk walk;
    struct rpki_folder_question question = {
        .size = sizeof question,
        .strings = strings,
        .locator = locator,
        .locator_length = length,
        .moment = {.year = 2026, .month = 6, .day = 1},
        .strict = 1,
    };
    if (rpki_folder_judge(&question, lines, 100, &room, &walk) != RPKI_OK) {
        print_sentence(walk.fault);
        return;
    }
    for (size_t i = 0; i < strings.count && i < 100; i++) {
        uint32_t what = lines[i].what;
        printf("%d: %s", (int)i, fates[what]);
        if (what == RPKI_LINE_ACCEPTED || what >= RPKI_LINE_NOT_ISSUED)
            printf(", issuer %d", (int)lines[i].issuer);
        printf("\n");
    }
    for (size_t i = 0; i < strings.count && i < 100; i++) {
        size_t at = lines[i].held.v4_at;
        for (size_t end = at + lines[i].held.v4; at < end && at < 100; at++)
            printf("%d holds %d.%d.%d.%d and on\n", (int)i, v4[at].min[0],
                   v4[at].min[1], v4[at].min[2], v4[at].min[3]);
    }
}

static size_t read_file(const char *name, uint8_t *to, size_t room) {
    FILE *file = fopen(name, "rb");
    if (file == NULL) {
        perror(name);
        exit(2);
    }
    size_t length = fread(to, 1, room, file);
    /* what fills the room may be a part of the file */
    if (ferror(file) || length == room) {
        fprintf(stderr, "%s: not read, or there is no room for it\n", name);
        exit(2);
    }
    fclose(file);
    return length;
}

int main(void) {
    static uint8_t octets[1 << 16], locator[1 << 12], list[1 << 12];
    size_t room = sizeof octets;
    check_version();
    print_name(408);
    print_sentence(408);
    size_t anchor = read_file("anchor.cer", octets, room);
    size_t first = read_file("first.cer", octets + anchor, room - anchor);
    const uint8_t *certificate = octets + anchor;
    room -= anchor + first;
    size_t crl = read_file("first.crl", octets + anchor + first, room);
    print_end(certificate, first);
    print_profile(certificate, first);
    print_addresses(certificate, first);
    print_as_numbers(certificate, first);
    print_list_uri(certificate, first);
    print_subject_length(certificate, first);
    print_all(certificate, first);
    size_t length = read_file("revoked.crl", list, sizeof list);
    print_list(list, length);
    print_entries(list, length);
    print_issuer_length(list, length);
    print_answers(list, length);
    print_stop(list, length);
    size_t lengths[] = {anchor, first, crl};
    struct rpki_strings strings = {octets, anchor + first + crl, lengths, 3};
    length = read_file("anchor.tal", locator, sizeof locator);
    print_lines(strings, locator, length);
    return 0;
}
