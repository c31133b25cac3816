/* Validates a path of files, from the trust anchor down.
 *
 * usage: validate [-l LIST.crl].. [-t LOCATOR.tal] YYYY-MM-DD LAST MEMBER.cer..
 *        LAST: authority, ee, detached or router
 *
 * Names have to chain. Revocation lists are asked where some are given, and the anchor's key is
 * compared with a locator's where one is. Compiled with -DLIBCRYPTO it has libcrypto check each
 * signature of an accepted path too. Ends with 0 where the path is accepted, with 1 where it is
 * rejected, and with 2 where the words or a file are not as above, the verdict can't be written, or
 * libcrypto finds a signature of an accepted path wrong. */
#include "rpki.h"
#include <arpa/inet.h>
#include <ctype.h>
#include <errno.h>
#include <stdio.h>
#include <stdlib.h>
#include <string.h>

#define MEBIBYTES 64 /* of a file, at most */

/* Octets that stand one behind the other, and their lengths. */
struct strings {
    uint8_t *octets;
    size_t length, *lengths, count;
};

/* What is asked. */
struct request {
    struct strings path, lists, locator;
    uint32_t last;
    struct rpki_time now;
};

static void fail(const char *of, const char *why) {
    fprintf(stderr, "validate: %s: %s\n", of, why);
    exit(2);
}

/* ---- words and files */

static void *resized(void *block, size_t size) {
    block = realloc(block, size > 0 ? size : 1);
    if (block == NULL) fail("memory", "there is no more");
    return block;
}

static void *room_for(uint64_t count, size_t size) {
    if (count > SIZE_MAX / size) fail("memory", "there is no more");
    return resized(NULL, (size_t)count * size);
}

static void append(struct strings *to, const uint8_t *octets, size_t length) {
    to->octets = resized(to->octets, to->length + length);
    to->lengths = resized(to->lengths, (to->count + 1) * sizeof *to->lengths);
    memcpy(to->octets + to->length, octets, length);
    to->length += length;
    to->lengths[to->count++] = length;
}

static void append_file(struct strings *to, const char *name) {
    static uint8_t octets[(MEBIBYTES << 20) + 1];
    FILE *file = fopen(name, "rb");
    if (file == NULL) fail(name, strerror(errno));
    size_t length = fread(octets, 1, sizeof octets, file);
    if (ferror(file)) fail(name, strerror(errno)); /* of a folder too */
    if (length == 0) fail(name, "the file is empty");
    if (length == sizeof octets) fail(name, "the file has more than 64 MiB");
    fclose(file);
    append(to, octets, length);
}

/* The kind of the last member, as enum rpki_kind numbers it. */
static uint32_t kind(const char *word) {
    static const char *const words[] = {"authority", "ee", "detached", "router"};
    for (uint32_t i = 0; i < 4; i++)
        if (strcmp(word, words[i]) == 0) return RPKI_AUTHORITY + i;
    fail(word, "the last member is authority, ee, detached or router");
    return 0;
}

/* The beginning of a day. Whether the calendar has it is left to the library. */
static struct rpki_time moment(const char *text) {
    static const char form[] = "dddd-dd-dd";
    struct rpki_time now = {0};
    for (size_t i = 0; i < sizeof form; i++)
        if (form[i] == 'd' ? !isdigit((unsigned char)text[i]) : text[i] != form[i])
            fail(text, "the day isn't YYYY-MM-DD");
    now.year = (uint16_t)atoi(text);
    now.month = (uint8_t)atoi(text + 5);
    now.day = (uint8_t)atoi(text + 8);
    return now;
}

/* ---- the library */

static struct rpki_strings strings_of(const struct strings *it) {
    return (struct rpki_strings){it->octets, it->length, it->lengths, it->count};
}

/* What a request asks: lists and a locator where there are some. */
static struct rpki_question question_of(const struct request *it) {
    struct rpki_question question = {
        .size = sizeof question,
        .members = strings_of(&it->path),
        .lists = strings_of(&it->lists),
        .locator = it->locator.octets,
        .locator_length = it->locator.length,
        .moment = it->now,
        .last = it->last,
        .strict = 1,
        .revocation = it->lists.count > 0 ? RPKI_ASK_LISTS : RPKI_ASK_NOBODY,
        .anchor = it->locator.count > 0 ? RPKI_ASK_LOCATOR : RPKI_AS_GIVEN,
    };
    return question;
}

#ifdef LIBCRYPTO
#include <openssl/evp.h>
#include <openssl/x509.h>

/* Whether the key of one certificate signed the other, says libcrypto. */
static int is_signed(const uint8_t *issuer, const struct rpki_places *by, const uint8_t *octets,
                     const struct rpki_places *it) {
    const uint8_t *key_at = issuer + by->key_at;
    EVP_PKEY *key = d2i_PUBKEY(NULL, &key_at, (long)by->key_length);
    EVP_MD_CTX *context = EVP_MD_CTX_new();
    int good = key != NULL && context != NULL
        && EVP_DigestVerifyInit(context, NULL, EVP_sha256(), NULL, key) == 1
        && EVP_DigestVerify(context, octets + it->signature_at, it->signature_length,
                            octets + it->message_at, it->message_length) == 1;
    EVP_MD_CTX_free(context);
    EVP_PKEY_free(key);
    return good;
}

/* Has libcrypto check each signature of an accepted path: the anchor's by its own key, each later one
 * by the key above it. */
static void check_signatures(const struct strings *path) {
    const uint8_t *issuer = path->octets, *octets = path->octets;
    struct rpki_places above, here;
    for (size_t i = 0; i < path->count; octets += path->lengths[i++]) {
        if (rpki_certificate_places(octets, path->lengths[i], &here) != RPKI_OK)
            fail("the path", "no certificate is accepted");
        if (i == 0) above = here;
        if (!is_signed(issuer, &above, octets, &here)) fail("the path", "libcrypto rejects it");
        issuer = octets;
        above = here;
    }
}
#else
static void check_signatures(const struct strings *path) { (void)path; }
#endif

/* The verdict, which accepts or rejects the path. */
static struct rpki_verdict verdict_on(const struct request *it, struct rpki_room *out) {
    const struct rpki_question question = question_of(it);
    struct rpki_verdict verdict;
    rpki_path_validate(&question, out, &verdict);
    if (verdict.fault == RPKI_MEMORY) fail("memory", "there is no more");
    if (verdict.fault == RPKI_BAD_CALL) fail("words", "no such day, or too few members");
    return verdict;
}

/* A first call counts the ranges that are held, and a second one writes them. */
static struct rpki_verdict judge(const struct request *it, struct rpki_room *out) {
    struct rpki_verdict verdict = verdict_on(it, out);
    if (verdict.fault != RPKI_OK) return verdict;
    out->v4 = room_for(out->v4_room = verdict.v4, sizeof *out->v4);
    out->v6 = room_for(out->v6_room = verdict.v6, sizeof *out->v6);
    out->asn = room_for(out->asn_room = verdict.asn, sizeof *out->asn);
    return verdict_on(it, out);
}

/* ---- what is printed */

static void print_addresses(int family, const struct rpki_ip_range *ranges, size_t count) {
    char min[INET6_ADDRSTRLEN], max[INET6_ADDRSTRLEN];
    for (size_t i = 0; i < count; i++)
        printf("  %s-%s\n", inet_ntop(family, ranges[i].min, min, sizeof min),
               inet_ntop(family, ranges[i].max, max, sizeof max));
}

static void print_held(const struct rpki_room *it) {
    printf("accepted; held are\n");
    print_addresses(AF_INET, it->v4, it->v4_room);
    print_addresses(AF_INET6, it->v6, it->v6_room);
    for (size_t i = 0; i < it->asn_room; i++)
        printf("  AS%u-AS%u\n", it->asn[i].min, it->asn[i].max);
}

/* Names what is at fault: the locator, a list or a member of the path. */
static void print_place(const struct request *it, const struct rpki_verdict *verdict) {
    if (verdict->fault >= RPKI_LOCATOR_NO_TEXT && verdict->fault <= RPKI_LOCATOR_BAD_KEY)
        printf("locator");
    else if (verdict->index >= it->path.count)
        printf("list %zu", verdict->index - it->path.count);
    else
        printf("member %u", verdict->index);
}

static void print_fault(const struct request *it, const struct rpki_verdict *verdict) {
    uint8_t name[64], sentence[256];
    uint64_t name_length, sentence_length;
    rpki_fault_name(verdict->fault, name, sizeof name, &name_length);
    rpki_fault_sentence(verdict->fault, sentence, sizeof sentence, &sentence_length);
    printf("refused: ");
    print_place(it, verdict);
    printf(", fault %u, %.*s: %.*s\n", verdict->fault, (int)name_length, (const char *)name,
           (int)sentence_length, (const char *)sentence);
}

static void let_go(struct strings *it) {
    free(it->octets);
    free(it->lengths);
}

int main(int count, char **words) {
    struct request it = {0};
    struct rpki_room held = {0};
    int first = 1;
    if (rpki_abi_version() != RPKI_ABI) fail("librpki", "isn't of the version of rpki.h");
    for (; first + 1 < count && strcmp(words[first], "-l") == 0; first += 2)
        append_file(&it.lists, words[first + 1]);
    if (first + 1 < count && strcmp(words[first], "-t") == 0) {
        append_file(&it.locator, words[first + 1]);
        first += 2;
    }
    if (count < first + 3)
        fail("usage", "validate [-l LIST.crl].. [-t LOCATOR.tal] YYYY-MM-DD LAST MEMBER.cer..");
    it.now = moment(words[first]);
    it.last = kind(words[first + 1]);
    for (int i = first + 2; i < count; i++) append_file(&it.path, words[i]);
    struct rpki_verdict verdict = judge(&it, &held);
    if (verdict.fault == RPKI_OK) {
        check_signatures(&it.path);
        print_held(&held);
    } else {
        print_fault(&it, &verdict);
    }
    if (fflush(stdout) != 0 || ferror(stdout)) fail("output", strerror(errno));
    let_go(&it.path);
    let_go(&it.lists);
    let_go(&it.locator);
    free(held.v4);
    free(held.v6);
    free(held.asn);
    return verdict.fault != RPKI_OK;
}
