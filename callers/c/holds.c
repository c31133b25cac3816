/* Prints the IPv4 addresses that a path of certificates holds, or why it is
 * rejected. A TAL says which trust anchor is trusted, and each issuer's CRL
 * whether a certificate is revoked. */
#include <rpki.h>
#include <stdio.h>
#include <stdlib.h>

/* Files one behind the other, and the length of each. */
struct files {
    uint8_t octets[1 << 16];
    size_t length, lengths[8], count;
};

static void append(struct files *to, const char *name) {
    FILE *file = fopen(name, "rb");
    if (file == NULL) {
        perror(name);
        exit(2);
    }
    uint8_t *end = to->octets + to->length;
    size_t room = sizeof to->octets - to->length;
    size_t length = fread(end, 1, room, file);
    /* what fills the room may be a part of the file */
    if (ferror(file) || length == room || to->count == 8) {
        fprintf(stderr, "%s: not read, or there is no room for it\n", name);
        exit(2);
    }
    fclose(file);
    to->length += length;
    to->lengths[to->count++] = length;
}

static struct rpki_strings strings_of(const struct files *it) {
    return (struct rpki_strings){
        .octets = it->octets,
        .length = it->length,
        .lengths = it->lengths,
        .count = it->count,
    };
}

/* Prints which file is wrong, and why. */
static int reject(uint32_t fault, uint64_t index, size_t certificates) {
    if (fault == RPKI_MEMORY || fault == RPKI_BAD_CALL)
        printf("no verdict: "); /* no file is wrong */
    else if (fault >= RPKI_LOCATOR_NO_TEXT && fault <= RPKI_LOCATOR_BAD_KEY)
        printf("TAL: ");
    else if (index < certificates)
        printf("certificate %d: ", (int)index);
    else
        printf("CRL %d: ", (int)(index - certificates));
    printf("%s (%d, %s)\n", rpki_sentence_of_fault(fault), (int)fault,
           rpki_name_of_fault(fault));
    return 1;
}

int main(void) {
    static struct files path, crls, tal;
    static struct rpki_ip_range v4[100]; /* verdict.v4 may count more */
    append(&path, "anchor.cer");
    append(&path, "first.cer");
    append(&path, "second.cer");
    append(&crls, "first.crl");
    append(&crls, "second.crl");
    append(&tal, "anchor.tal");
    struct rpki_question question = {
        .size = sizeof question,
        .members = strings_of(&path),
        .lists = strings_of(&crls),
        .locator = tal.octets,
        .locator_length = tal.length,
        .moment = {.year = 2026, .month = 6, .day = 1},
        .last = RPKI_AUTHORITY,
        .strict = 1,
        .revocation = RPKI_ASK_LISTS,
        .anchor = RPKI_ASK_LOCATOR,
    };
    struct rpki_room room = {.v4 = v4, .v4_room = 100};
    struct rpki_verdict verdict;
    if (rpki_path_validate(&question, &room, &verdict) != RPKI_OK)
        return reject(verdict.fault, verdict.index, path.count);
    for (size_t i = 0; i < verdict.v4 && i < 100; i++) {
        const uint8_t *min = v4[i].min, *max = v4[i].max;
        printf("%d.%d.%d.%d to ", min[0], min[1], min[2], min[3]);
        printf("%d.%d.%d.%d\n", max[0], max[1], max[2], max[3]);
    }
    return 0;
}
