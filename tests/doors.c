/* One question of tests/doors, asked of the library for C: what is checked stands in the words, and
 * prints `accepted`, or the place, a space and the fault's name.
 *
 * usage: doors LAST YEAR MONTH DAY WAIVED LISTS TAL [FILE.crl].. [FILE.tal] MEMBER.cer..
 *
 * LAST is a number of enum rpki_kind. WAIVED has n if names needn't chain, k if the RPKI needn't use the
 * last key, and l for the lenient mode. LISTS counts the lists, and is -1 if none are checked; TAL is 1
 * if there is a TAL. */
#include "rpki.h"
#include <stdio.h>
#include <stdlib.h>
#include <string.h>

static uint8_t octets[3][1 << 20]; /* of members, lists and the TAL */
static size_t used[3], lengths[3][64], counts[3];

static void append(int to, const char *name) {
    FILE *file = fopen(name, "rb");
    if (file == NULL) {
        perror(name);
        exit(2);
    }
    size_t length = fread(octets[to] + used[to], 1, sizeof octets[to] - used[to], file);
    fclose(file);
    lengths[to][counts[to]++] = length;
    used[to] += length;
}

static struct rpki_strings strings(int of) {
    return (struct rpki_strings){octets[of], used[of], lengths[of], counts[of]};
}

static int tell(uint32_t fault, uint64_t index) {
    uint8_t name[64];
    uint64_t length;
    if (rpki_fault_name(fault, name, sizeof name, &length) != RPKI_OK) return 2;
    printf("%llu %u %.*s\n", (unsigned long long)index, fault, (int)length, (const char *)name);
    return 1;
}

int main(int count, char **words) {
    if (count < 9 || count > 64 || rpki_abi_version() != RPKI_ABI) return 2;
    int lists = atoi(words[6]), next = 8;
    for (int i = 0; i < lists; i++) append(1, words[next++]);
    if (atoi(words[7])) append(2, words[next++]);
    while (next < count) append(0, words[next++]);
    struct rpki_question question = {
        .size = sizeof question,
        .members = strings(0),
        .lists = strings(1),
        .locator = octets[2],
        .locator_length = used[2],
        .moment = {(uint16_t)atoi(words[2]), (uint8_t)atoi(words[3]), (uint8_t)atoi(words[4]), 0, 0, 0, 0},
        .last = (uint32_t)atoi(words[1]),
        .strict = strchr(words[5], 'l') == NULL,
        .revocation = lists < 0 ? RPKI_ASK_NOBODY : RPKI_ASK_LISTS,
        .anchor = counts[2] == 0 ? RPKI_AS_GIVEN : RPKI_ASK_LOCATOR,
#if RPKI_ABI > 3
        .key = strchr(words[5], 'k') == NULL ? RPKI_ASK_KEY : RPKI_ANY_KEY,
        .names = strchr(words[5], 'n') == NULL ? RPKI_ASK_NAMES : RPKI_ANY_NAMES,
#endif
    };
    static struct rpki_room room;
    struct rpki_verdict verdict;
    if (rpki_path_validate(&question, &room, &verdict) != RPKI_OK) return tell(verdict.fault, verdict.index);
#if RPKI_ABI < 4
    uint64_t place;
    uint32_t fault = rpki_path_names(&question.members, &place);
    if (strchr(words[5], 'n') == NULL && fault != RPKI_OK) return tell(fault, place);
#endif
    puts("accepted");
    return 0;
}
