/* Calls the library at its edges: lengths cut short or that don't add up, no room, room one too
 * small, NULL beside the length 0, numbers behind the last, moments at the ends, no members and
 * many. usage: edges EXAMPLES FILES, which are the folders examples/ and tests/files/; it also reads
 * tests/added/ and tests/anchors/ beside these. What is wanted follows from include/rpki.h, and from what
 * examples/make.sh, tests/files/make.py, reference/added.py and reference/anchors.py write into the files.
 * Prints what isn't so, and a last line `N passed, M failed`. tests/callers runs it, under valgrind where
 * that is there. */
#include "rpki.h"
#include <stdio.h>
#include <stdlib.h>
#include <string.h>
#include <time.h>

static unsigned passed, failed;

static void check(int holds, const char *what) {
    if (holds) {
        passed++;
    } else {
        failed++;
        printf("not so: %s\n", what);
    }
}

struct file {
    uint8_t *octets;
    size_t length;
};

/* A file in a block of exactly its length, so that valgrind sees each octet that is read behind it. */
static struct file contents(const char *folder, const char *name) {
    static uint8_t octets[1 << 20];
    char path[4096];
    struct file it;
    snprintf(path, sizeof path, "%s/%s", folder, name);
    FILE *from = fopen(path, "rb");
    if (from == NULL) {
        perror(path);
        exit(2);
    }
    it.length = fread(octets, 1, sizeof octets, from);
    it.octets = malloc(it.length + 1);
    memcpy(it.octets, octets, it.length);
    it.octets = realloc(it.octets, it.length);
    fclose(from);
    return it;
}

static int is_decoding(uint32_t fault) { return fault >= 100 && fault < 300; }

static const struct rpki_time now = {2026, 6, 1, 0, 0, 0, 0};

/* every beginning of a certificate and of a list is rejected, in a block of just that length */
static void cut_short(struct file cert, struct file list) {
    struct rpki_certificate certificate;
    struct rpki_list head;
    uint8_t answer;
    uint64_t count;
    uint8_t serial[20] = {0};
    for (size_t length = 0; length < cert.length; length++) {
        uint8_t *octets = malloc(length > 0 ? length : 1);
        memcpy(octets, cert.octets, length);
        check(is_decoding(rpki_certificate_read(octets, length, &certificate)), "a cut certificate is rejected");
        check(is_decoding(rpki_certificate_uri(octets, length, 1, NULL, 0, &count)) && count == 0, "a cut certificate has no URI");
        free(octets);
    }
    for (size_t length = 0; length < list.length; length++) {
        uint8_t *octets = malloc(length > 0 ? length : 1);
        memcpy(octets, list.octets, length);
        check(is_decoding(rpki_list_read(octets, length, &head)), "a cut list is rejected");
        check(is_decoding(rpki_list_ask(octets, length, serial, 20, &answer, 1)), "a cut list answers nothing");
        free(octets);
    }
    check(is_decoding(rpki_certificate_read(NULL, 0, &certificate)), "NULL of no octets is no certificate");
    check(is_decoding(rpki_list_read(NULL, 0, &head)), "NULL of no octets is no list");
}

/* what follows a certificate is ignored */
static void more(struct file cert) {
    struct rpki_certificate alone, followed;
    uint8_t *octets = malloc(cert.length + 7);
    memcpy(octets, cert.octets, cert.length);
    memset(octets + cert.length, 0xa5, 7);
    memset(&alone, 0, sizeof alone);
    memset(&followed, 0, sizeof followed);
    check(rpki_certificate_read(cert.octets, cert.length, &alone) == RPKI_OK, "the certificate is read");
    check(rpki_certificate_inspect(cert.octets, cert.length, 5, 1) == RPKI_BAD_CALL, "there is no kind 5");
    check(rpki_certificate_read(octets, cert.length + 7, &followed) == RPKI_OK, "it is read where octets follow");
    check(memcmp(&alone, &followed, sizeof alone) == 0, "it is the same where octets follow");
    free(octets);
}

/* room 0, one too small, and enough */
static void rooms(struct file cert, struct file list) {
    uint64_t count, again;
    check(rpki_certificate_addresses(cert.octets, cert.length, 4, NULL, 0, &count) == RPKI_OK && count == 2, "two ranges of IPv4");
    struct rpki_ip_range *ranges = malloc((count - 1) * sizeof *ranges);
    check(rpki_certificate_addresses(cert.octets, cert.length, 4, ranges, count - 1, &again) == RPKI_OK && again == count,
          "the count doesn't depend on the room");
    check(ranges[0].min[0] == 10 && ranges[0].min[1] == 0 && ranges[0].max[1] == 15, "the first range is 10.0.0.0/12");
    free(ranges);
    check(rpki_certificate_as_numbers(cert.octets, cert.length, NULL, 0, &count) == RPKI_OK && count == 2, "two ranges of AS numbers");
    struct rpki_as_range asn[3] = {{0, 0}, {0, 0}, {7, 7}};
    check(rpki_certificate_as_numbers(cert.octets, cert.length, asn, 3, &count) == RPKI_OK && asn[1].min == 64510 && asn[2].min == 7,
          "nothing is written behind the last range");
    check(rpki_certificate_uri(cert.octets, cert.length, RPKI_URI_CRL, NULL, 0, &count) == RPKI_OK && count > 0, "there is a URI of the list");
    uint8_t *uri = malloc(count - 1);
    check(rpki_certificate_uri(cert.octets, cert.length, RPKI_URI_CRL, uri, count - 1, &again) == RPKI_OK && again == count,
          "the URI is cut where there is one octet too little");
    check(memcmp(uri, "rsync://", 8) == 0, "its beginning is there");
    free(uri);
    check(rpki_certificate_uri(cert.octets, cert.length, 99, NULL, 0, &count) == RPKI_BAD_CALL && count == 0, "there is no URI 99");
    check(rpki_list_entries(list.octets, list.length, NULL, 0, &count) == RPKI_OK && count == 1, "one entry");
    struct rpki_entry entry;
    check(rpki_list_entries(list.octets, list.length, &entry, 1, &count) == RPKI_OK && entry.serial[19] == 3, "it is 3");
    uint8_t serials[60] = {0}, answers[3] = {7, 7, 7};
    serials[19] = 2, serials[39] = 3, serials[59] = 4;
    check(rpki_list_ask(list.octets, list.length, serials, 60, answers, 3) == RPKI_OK && !answers[0] && answers[1] == 1 && !answers[2],
          "3 alone is on the list");
    check(rpki_list_ask(list.octets, list.length, serials, 59, answers, 3) == RPKI_BAD_CALL, "an octet of the serials is missing");
    check(rpki_list_ask(list.octets, list.length, NULL, 0, NULL, 0) == RPKI_OK, "no serials, no answers");
    uint8_t name[4];
    check(rpki_fault_name(RPKI_VERIFICATION_EXPIRED, name, 4, &count) == RPKI_OK && count == 7 && memcmp(name, "Expi", 4) == 0,
          "a name is cut");
    check(rpki_fault_name(99, name, 4, &count) == RPKI_BAD_CALL && count == 0, "99 is no fault");
    check(rpki_fault_sentence(RPKI_OK, NULL, 0, &count) == RPKI_OK && count > 0, "0 has a sentence");
}

/* what is told of octets that are read so: the fault, the octet and a text, which has this much room */
static struct rpki_stop stop_of(const uint8_t *octets, size_t length, uint32_t is_list, uint32_t which,
                                char *text, size_t room) {
    struct rpki_stop stop = {7, 7};
    uint64_t count = 7;
    check(rpki_stop_text(octets, length, is_list, which, &stop, NULL, 0, &count) == RPKI_OK, "the text is counted");
    uint64_t again = 7;
    uint8_t *out = malloc(room > 0 ? room : 1);
    memset(out, '.', room);
    check(rpki_stop_text(octets, length, is_list, which, &stop, out, room, &again) == RPKI_OK && again == count,
          "the count of a text doesn't depend on the room");
    snprintf(text, 100, "%.*s", (int)room, (const char *)out);
    check(count >= room || text[count] == '.', "nothing is written behind a text");
    if (count < room) text[count] = 0;
    free(out);
    return stop;
}

/* where the reading of octets stops, by the form of a certificate (RFC 5280 4.1) and its lengths */
static void stops(struct file cert, struct file list) {
    char text[100];
    struct rpki_stop it = stop_of(cert.octets, cert.length, 0, RPKI_PART_NAME, text, 90);
    check(it.fault == RPKI_OK && it.octet == 0 && text[0] == 0, "a certificate that is read has no stop");
    it = stop_of(list.octets, list.length, 7, RPKI_PART_WANTED, text, 90);
    check(it.fault == RPKI_OK && it.octet == 0 && text[0] == 0, "a list that is read has no stop");
    struct rpki_certificate read;
    for (size_t length = 0; length < cert.length; length += length < 8 ? 1 : 97) {
        uint8_t *octets = malloc(length > 0 ? length : 1);
        memcpy(octets, cert.octets, length);
        it = stop_of(octets, length, 0, RPKI_PART_NAME, text, 90);
        check(it.fault == rpki_certificate_read(octets, length, &read) && it.octet == 0, "a cut certificate stops at 0");
        check(strcmp(text, "the outer SEQUENCE") == 0, "its outer SEQUENCE is none");
        free(octets);
    }
    it = stop_of(NULL, 0, 1, RPKI_PART_WANTED, text, 90);
    check(is_decoding(it.fault) && it.octet == 0, "no octets are no list");
    check(strcmp(text, "a SEQUENCE that ends within the file (RFC 5280 4.1, 5.1)") == 0, "a SEQUENCE is wanted");
    /* 30 82 .. 30 82 .. a0 03 02 01 02, and then the serial number */
    uint8_t *damaged = malloc(cert.length);
    memcpy(damaged, cert.octets, cert.length);
    check(damaged[13] == 2 && damaged[14] == 1, "the serial number is the INTEGER at 13");
    damaged[15] = 0x80;
    it = stop_of(damaged, cert.length, 0, RPKI_PART_NAME, text, 90);
    check(it.fault == RPKI_DECODE_BAD_VALUE && it.octet == 13, "a negative serial number is none");
    check(strcmp(text, "the serial number") == 0, "it is named");
    it = stop_of(damaged, cert.length, 0, RPKI_PART_WANTED, text, 10);
    check(it.octet == 13 && strcmp(text, "an INTEGER") == 0, "a text is cut");
    it = stop_of(damaged, cert.length, 1, RPKI_PART_NAME, text, 90);
    check(is_decoding(it.fault) && it.octet == 8 && strcmp(text, "the version") == 0, "a certificate is no list");
    uint64_t count = 7;
    it = stop_of(damaged, cert.length, 0, RPKI_PART_FOUND, text, 90);
    check(it.octet == 13 && strcmp(text, "a negative number") == 0, "it is told to be negative");
    it = stop_of(cert.octets, cert.length, 0, RPKI_PART_FOUND, text, 90);
    check(it.fault == RPKI_OK && text[0] == 0, "nothing is found of a certificate that is read");
    it = stop_of(NULL, 0, 0, RPKI_PART_FOUND, text, 90);
    check(strcmp(text, "nothing: the file ends there") == 0, "nothing stands where there are no octets");
    check(rpki_stop_text(damaged, cert.length, 0, 3, &it, NULL, 0, &count) == RPKI_BAD_CALL && count == 0, "there is no text 3");
    check(rpki_stop_text(cert.octets, cert.length, 0, UINT32_MAX, &it, NULL, 0, &count) == RPKI_BAD_CALL && count == 0,
          "nor the last number");
    free(damaged);
}

static struct rpki_strings strings(const uint8_t *octets, size_t length, const size_t *lengths, size_t count) {
    return (struct rpki_strings){octets, length, lengths, count};
}

/* a question that asks no lists and no locator */
static struct rpki_question about(struct rpki_strings members, uint32_t last, const struct rpki_time *at) {
    return (struct rpki_question){.size = sizeof(struct rpki_question), .members = members, .moment = *at,
                                  .last = last, .strict = 1, .revocation = RPKI_ASK_NOBODY, .anchor = RPKI_AS_GIVEN};
}

static uint32_t answer(const struct rpki_question *question, struct rpki_verdict *out) {
    struct rpki_room room = {0};
    return rpki_path_validate(question, &room, out);
}

static uint32_t judge(const uint8_t *octets, size_t length, const size_t *lengths, size_t members, uint32_t last,
                      const struct rpki_time *at, struct rpki_verdict *out) {
    const struct rpki_question question = about(strings(octets, length, lengths, members), last, at);
    return answer(&question, out);
}

/* the same, with lists */
static uint32_t judge_with(struct rpki_strings lists, struct rpki_strings members, uint32_t last,
                           const struct rpki_time *at, struct rpki_verdict *out) {
    struct rpki_question question = about(members, last, at);
    question.lists = lists;
    question.revocation = RPKI_ASK_LISTS;
    return answer(&question, out);
}

/* no members, one, and 4,000 */
static void members(struct file anchor) {
    struct rpki_verdict out;
    size_t length = anchor.length;
    const struct rpki_time none = {2026, 2, 30, 0, 0, 0, 0};
    check(judge(NULL, 0, NULL, 0, RPKI_AUTHORITY, &now, &out) == RPKI_BAD_CALL && out.fault == RPKI_BAD_CALL, "no members are no path");
    check(judge(anchor.octets, length, &length, 1, RPKI_AUTHORITY, &now, &out) == RPKI_OK && out.v4 == 1 && out.v6 == 1 && out.asn == 1,
          "the anchor alone is a path");
    check(judge(anchor.octets, length, &length, 1, RPKI_END_ENTITY, &now, &out) == RPKI_BAD_CALL, "the anchor alone is no end entity");
    check(judge(anchor.octets, length, &length, 1, 9, &now, &out) == RPKI_BAD_CALL, "9 is no kind");
    check(judge(anchor.octets, length, &length, 1, RPKI_AUTHORITY, &none, &out) == RPKI_BAD_CALL, "there is no 30th of February");
    size_t wrong = length + 1;
    check(judge(anchor.octets, length, &wrong, 1, RPKI_AUTHORITY, &now, &out) == RPKI_BAD_CALL, "a length behind the octets");
    wrong = SIZE_MAX;
    check(judge(anchor.octets, length, &wrong, 1, RPKI_AUTHORITY, &now, &out) == RPKI_BAD_CALL, "the greatest length");
    wrong = length - 1;
    check(judge(anchor.octets, length, &wrong, 1, RPKI_AUTHORITY, &now, &out) == RPKI_BAD_CALL, "octets behind the lengths");
    size_t *lengths = malloc(4000 * sizeof *lengths);
    uint8_t *octets = malloc(4000 * length);
    for (size_t i = 0; i < 4000; i++) {
        memcpy(octets + i * length, anchor.octets, length);
        lengths[i] = length;
    }
    check(judge(octets, 4000 * length, lengths, 4000, RPKI_AUTHORITY, &now, &out) == RPKI_INSPECTION_MISSING_CRL_URI && out.index == 1,
          "of 4,000 anchors the second is no authority");
    free(octets);
    free(lengths);
}

/* ---- numbers */

/* numbers that no fault has: just before, between and just behind those that are faults */
static void numbers(void) {
    static const uint32_t none[] = {3,   99,  109, 119, 133, 139, 153, 159, 173, 179,  193,
                                    199, 213, 219, 220, 299, 327, 399, 412, 499, 506,  599,
                                    604, 699, 705, 1000, 0x80000000, UINT32_MAX};
    static const uint32_t some[] = {0,   1,   2,   100, 108, 120, 132, 140, 152, 160, 172,
                                    180, 192, 200, 212, 300, 326, 400, 411, 500, 505, 600, 603,
                                    700, 704};
    uint64_t count;
    uint8_t octet = 7;
    for (size_t i = 0; i < sizeof none / sizeof *none; i++) {
        count = 9;
        check(rpki_fault_name(none[i], &octet, 1, &count) == RPKI_BAD_CALL && count == 0,
              "a number that no fault has has no name");
        count = 9;
        check(rpki_fault_sentence(none[i], &octet, 1, &count) == RPKI_BAD_CALL && count == 0,
              "a number that no fault has has no sentence");
    }
    check(octet == 7, "nothing is written of a number that no fault has");
    for (size_t i = 0; i < sizeof some / sizeof *some; i++) {
        check(rpki_fault_name(some[i], NULL, 0, &count) == RPKI_OK && count > 0, "a fault has a name");
        check(rpki_fault_sentence(some[i], NULL, 0, &count) == RPKI_OK && count > 0,
              "a fault has a sentence");
    }
    uint8_t name[9];
    check(rpki_fault_name(RPKI_OTHER_NAME, name, 9, &count) == RPKI_OK && count == 9
              && memcmp(name, "OtherName", 9) == 0,
          "the fault of names has a name");
    check(rpki_fault_name(RPKI_OTHER_KEY, name, 9, &count) == RPKI_OK && count == 8
              && memcmp(name, "OtherKey", 8) == 0,
          "the fault of an anchor's key has a name");
    memset(name, 7, sizeof name);
    check(rpki_fault_name(RPKI_VERIFICATION_EXPIRED, name, 8, &count) == RPKI_OK && count == 7
              && memcmp(name, "Expired\7\7", 9) == 0,
          "a name has no 0 at its end, and nothing is written behind it");
}

/* the header's texts of faults are the library's, and its version */
static void texts(void) {
    for (uint32_t number = 0; number < 1000; number++) {
        uint8_t name[100], sentence[100];
        uint64_t named = 0, said = 0;
        uint32_t fault = rpki_fault_name(number, name, 100, &named);
        rpki_fault_sentence(number, sentence, 100, &said);
        const char *its_name = rpki_name_of_fault(number), *its_sentence = rpki_sentence_of_fault(number);
        if (fault != RPKI_OK) {
            check(its_name == NULL && its_sentence == NULL, "no fault has the number, and the header no text");
            continue;
        }
        check(its_name != NULL && strlen(its_name) == named && memcmp(its_name, name, named) == 0,
              "the header's name of a fault is the library's");
        check(its_sentence != NULL && strlen(its_sentence) == said && memcmp(its_sentence, sentence, said) == 0,
              "the header's sentence of a fault is the library's");
    }
    check(rpki_name_of_fault(UINT32_MAX) == NULL && rpki_sentence_of_fault(UINT32_MAX) == NULL, "the last number is none");
    struct rpki_text version = {NULL, 0};
    check(rpki_version(&version) == RPKI_OK && strcmp(version.text, RPKI_VERSION) == 0
              && version.size == strlen(RPKI_VERSION) + 1,
          "the library's version is the header's");
}

/* whether a struct's memory is its size and zeros behind it */
static int is_sized(const void *it, size_t size) {
    static const uint8_t zeros[1024];
    size_t first;
    memcpy(&first, it, sizeof first);
    return first == size && memcmp((const uint8_t *)it + sizeof first, zeros, size - sizeof first) == 0;
}

/* an initialiser sets the size, and that of the question in it */
static void initialisers(void) {
    const struct rpki_question question = RPKI_QUESTION_INIT;
    const struct rpki_folder_question folder = RPKI_FOLDER_QUESTION_INIT;
    struct rpki_wanted wanted = RPKI_WANTED_INIT;
    struct rpki_completion completion = RPKI_COMPLETION_INIT;
    struct rpki_wanted_list list = RPKI_WANTED_LIST_INIT;
    struct rpki_list_completion ended = RPKI_LIST_COMPLETION_INIT;
    check(is_sized(&question, sizeof question) && is_sized(&folder, sizeof folder), "a question is initialised");
    check(is_sized(&wanted.issuer, sizeof question) && is_sized(&completion.issuer, sizeof question)
              && is_sized(&list.issuer, sizeof question) && is_sized(&ended.issuer, sizeof question),
          "so is the issuer's");
    wanted.issuer.size = completion.issuer.size = list.issuer.size = ended.issuer.size = 0;
    check(is_sized(&wanted, sizeof wanted) && is_sized(&completion, sizeof completion) && is_sized(&list, sizeof list)
              && is_sized(&ended, sizeof ended),
          "what holds an issuer is initialised");
}

/* ---- certificates */

/* each certificate as each kind, in both modes, and as no kind */
static void kinds(struct file anchor, struct file first, struct file object) {
    const struct file certificates[] = {anchor, first, object};
    static const uint32_t wanted[3][5] = {
        {RPKI_OK, RPKI_INSPECTION_MISSING_CRL_URI, RPKI_INSPECTION_MISSING_CRL_URI,
         RPKI_INSPECTION_MISSING_CRL_URI, RPKI_INSPECTION_KEY_ALGORITHM},
        {RPKI_INSPECTION_AUTHORITY_KEY_IDENTIFIER, RPKI_OK,
         RPKI_INSPECTION_BASIC_CONSTRAINTS_PRESENT, RPKI_INSPECTION_BASIC_CONSTRAINTS_PRESENT,
         RPKI_INSPECTION_KEY_ALGORITHM},
        {RPKI_INSPECTION_MISSING_BASIC_CONSTRAINTS, RPKI_INSPECTION_MISSING_BASIC_CONSTRAINTS,
         RPKI_OK, RPKI_OK, RPKI_INSPECTION_KEY_ALGORITHM}};
    static const uint32_t no_kinds[] = {5, 6, 255, 256, 0x80000000, UINT32_MAX};
    for (size_t i = 0; i < 3; i++) {
        const struct file it = certificates[i];
        for (uint32_t kind = 0; kind < 5; kind++)
            for (uint32_t strict = 0; strict < 2; strict++)
                check(rpki_certificate_inspect(it.octets, it.length, kind, strict)
                          == wanted[i][kind],
                      "a certificate is of its kind alone");
    }
    for (size_t i = 0; i < sizeof no_kinds / sizeof *no_kinds; i++) {
        check(rpki_certificate_inspect(anchor.octets, anchor.length, no_kinds[i], 0)
                  == RPKI_BAD_CALL,
              "there is no such kind");
        check(rpki_certificate_inspect(NULL, 0, no_kinds[i], 1) == RPKI_BAD_CALL,
              "there is no such kind, whatever the octets");
    }
    check(is_decoding(rpki_certificate_inspect(NULL, 0, RPKI_ANCHOR, 1)),
          "no octets are of no kind");
}

/* the fields, as examples/make.sh writes them */
static void fields(struct file anchor, struct file second, struct file object) {
    struct rpki_certificate above, inheriting, last;
    static const uint8_t nothing[20] = {0};
    check(rpki_certificate_read(anchor.octets, anchor.length, &above) == RPKI_OK
              && above.serial[19] == 1 && above.is_authority == 1 && above.key_usage == 0
              && above.has_authority_key == 0 && memcmp(above.authority_key, nothing, 20) == 0
              && above.overclaim == 0 && above.v4 == RPKI_LISTED && above.v6 == RPKI_LISTED
              && above.asn == RPKI_LISTED,
          "the anchor lists its resources, and names no authority's key");
    check(rpki_certificate_read(second.octets, second.length, &inheriting) == RPKI_OK
              && inheriting.serial[19] == 3 && inheriting.v4 == RPKI_INHERITED
              && inheriting.v6 == RPKI_INHERITED && inheriting.asn == RPKI_INHERITED,
          "the second authority inherits");
    check(rpki_certificate_read(object.octets, object.length, &last) == RPKI_OK
              && last.serial[19] == 4 && last.is_authority == 0 && last.key_usage == 1
              && last.has_authority_key == 1
              && memcmp(last.authority_key, inheriting.subject_key, 20) == 0
              && last.v4 == RPKI_LISTED && last.v6 == RPKI_MISSING && last.asn == RPKI_MISSING,
          "the end entity's authority is the second, and it lists IPv4 alone");
    check(above.not_before.year == 2026 && above.not_before.month == 1 && above.not_before.day == 1
              && above.not_after.year == 2036 && above.not_after.hour == 0
              && above.not_after.minute == 0 && above.not_after.second == 0
              && above.not_before.unused == 0 && above.not_after.unused == 0,
          "the anchor is valid from 2026 to 2036");
}

/* room for exactly all, one less, one more; what is inherited or missing has no ranges */
static void ranges(struct file anchor, struct file second, struct file object) {
    struct rpki_ip_range out[2];
    struct rpki_as_range asn[2];
    uint64_t count;
    memset(out, 0xa5, sizeof out);
    memset(asn, 0xa5, sizeof asn);
    check(rpki_certificate_addresses(anchor.octets, anchor.length, 6, out, 1, &count) == RPKI_OK
              && count == 1 && memcmp(out[0].min, "\x20\x01\x0d\xb8\0\0\0\0\0\0\0\0\0\0\0\0", 16) == 0
              && memcmp(out[0].max, "\x20\x01\x0d\xb8\xff\xff\xff\xff\xff\xff\xff\xff\xff\xff\xff\xff", 16) == 0,
          "the anchor lists 2001:db8::/32");
    check(out[1].min[0] == 0xa5 && out[1].max[15] == 0xa5, "nothing is written behind the room");
    static const uint32_t no_families[] = {0, 1, 2, 3, 5, 7, 8, 10, 260, UINT32_MAX};
    for (size_t i = 0; i < sizeof no_families / sizeof *no_families; i++) {
        count = 9;
        check(rpki_certificate_addresses(anchor.octets, anchor.length, no_families[i], out + 1, 1,
                                         &count)
                      == RPKI_BAD_CALL
                  && count == 0 && out[1].min[0] == 0xa5,
              "a family is 4 or 6");
        check(rpki_certificate_addresses(NULL, 0, no_families[i], NULL, 0, &count)
                  == RPKI_BAD_CALL,
              "a family is 4 or 6, whatever the octets");
    }
    check(rpki_certificate_addresses(anchor.octets, anchor.length, 4, out, 2, &count) == RPKI_OK
              && count == 1 && out[0].min[0] == 10 && out[0].max[0] == 10 && out[0].max[3] == 255
              && out[1].min[0] == 0xa5,
          "the anchor lists 10.0.0.0/8, and nothing is written behind it");
    check(rpki_certificate_as_numbers(anchor.octets, anchor.length, asn, 2, &count) == RPKI_OK
              && count == 1 && asn[0].min == 64496 && asn[0].max == 64511
              && asn[1].min == 0xa5a5a5a5,
          "the anchor lists AS64496 to AS64511");
    for (uint32_t family = 4; family < 7; family += 2)
        check(rpki_certificate_addresses(second.octets, second.length, family, out, 2, &count)
                      == RPKI_OK
                  && count == 0,
              "what is inherited isn't listed");
    check(rpki_certificate_as_numbers(second.octets, second.length, asn, 2, &count) == RPKI_OK
              && count == 0,
          "AS numbers that are inherited aren't listed");
    check(rpki_certificate_addresses(object.octets, object.length, 6, NULL, 0, &count) == RPKI_OK
              && count == 0,
          "what is missing isn't listed");
    check(rpki_certificate_as_numbers(object.octets, object.length, NULL, 0, &count) == RPKI_OK
              && count == 0,
          "AS numbers that are missing aren't listed");
    count = 9;
    check(is_decoding(rpki_certificate_addresses(NULL, 0, 4, NULL, 0, &count)) && count == 0,
          "no octets list no addresses");
    count = 9;
    check(is_decoding(rpki_certificate_as_numbers(NULL, 0, NULL, 0, &count)) && count == 0,
          "no octets list no AS numbers");
}

/* one URI of a certificate: all of it, its beginning, and its length alone */
static void uri(struct file it, uint32_t which, const char *wanted) {
    uint8_t out[128];
    uint64_t count = 0, length = strlen(wanted);
    memset(out, 0xa5, sizeof out);
    check(rpki_certificate_uri(it.octets, it.length, which, out, sizeof out, &count) == RPKI_OK
              && count == length && memcmp(out, wanted, length) == 0 && out[length] == 0xa5,
          wanted);
    count = 9;
    check(rpki_certificate_uri(it.octets, it.length, which, NULL, 0, &count) == RPKI_OK
              && count == length,
          "room 0 counts a URI");
    memset(out, 0xa5, sizeof out);
    check(rpki_certificate_uri(it.octets, it.length, which, out, 1, &count) == RPKI_OK
              && count == length && out[0] == (length > 0 ? 'r' : 0xa5) && out[1] == 0xa5,
          "room 1 takes one octet of a URI");
}

#define SITE "rsync://rpki.example.net/repo/"

static void uris(struct file anchor, struct file first, struct file object) {
    uri(first, RPKI_URI_CA_ISSUER, SITE "anchor.cer");
    uri(first, RPKI_URI_CRL, SITE "anchor/anchor.crl");
    uri(first, RPKI_URI_REPOSITORY, SITE "first/");
    uri(first, RPKI_URI_MANIFEST, SITE "first/first.mft");
    uri(first, RPKI_URI_SIGNED_OBJECT, "");
    uri(object, RPKI_URI_SIGNED_OBJECT, SITE "second/object.roa");
    uri(object, RPKI_URI_REPOSITORY, "");
    uri(object, RPKI_URI_MANIFEST, "");
    uri(object, RPKI_URI_NOTIFY, "");
    uri(anchor, RPKI_URI_CA_ISSUER, "");
    uri(anchor, RPKI_URI_CRL, "");
    static const uint32_t no_uris[] = {6, 7, 99, 256, 0x80000000, UINT32_MAX};
    uint8_t out[64] = {7};
    uint64_t count;
    for (size_t i = 0; i < sizeof no_uris / sizeof *no_uris; i++) {
        count = 9;
        check(rpki_certificate_uri(first.octets, first.length, no_uris[i], out, 64, &count)
                      == RPKI_BAD_CALL
                  && count == 0 && out[0] == 7,
              "there is no such URI");
        check(rpki_certificate_uri(NULL, 0, no_uris[i], NULL, 0, &count) == RPKI_BAD_CALL,
              "there is no such URI, whatever the octets");
    }
    check(rpki_certificate_uri(anchor.octets, anchor.length, RPKI_URI_NOTIFY, out, 64, &count)
                  == RPKI_OK
              && count == 41 && memcmp(out, "https://rpki.example.net/notification.xml", 41) == 0,
          "the anchor's notification file");
    count = 9;
    check(is_decoding(rpki_certificate_uri(NULL, 0, RPKI_URI_CRL, NULL, 0, &count)) && count == 0,
          "no octets have no URI");
}

/* names: the issuer of a certificate and of a list is the subject of the one above */
static void names(struct file anchor, struct file first, struct file list) {
    uint8_t above[128], issuer[128], other[128];
    uint64_t count, again, listed;
    memset(above, 1, sizeof above);
    memset(issuer, 2, sizeof issuer);
    memset(other, 3, sizeof other);
    check(rpki_certificate_name(anchor.octets, anchor.length, RPKI_SUBJECT_NAME, above, 128, &count) == RPKI_OK
              && rpki_certificate_name(first.octets, first.length, RPKI_ISSUER_NAME, issuer, 128, &again)
                      == RPKI_OK
              && rpki_list_issuer(list.octets, list.length, other, 128, &listed) == RPKI_OK
              && count < 128 && count == again && count == listed
              && memcmp(above, issuer, count) == 0 && memcmp(above, other, count) == 0,
          "the anchor issued the first authority and the list");
    check(above[0] == 0x30 && (uint64_t)above[1] + 2 == count, "a name is one SEQUENCE");
    check(above[count] == 1 && issuer[count] == 2 && other[count] == 3,
          "nothing is written behind a name");
    check(rpki_certificate_name(first.octets, first.length, 1, other, 128, &listed) == RPKI_OK
              && listed < 128 && memcmp(other, above, count) != 0,
          "the first authority's own name is another");
    /* openssl x509 -nameopt RFC2253 prints these names as CN= and the key identifier in hexadecimal */
    char anchor_text[44] = "CN=", first_text[44] = "CN=";
    struct rpki_certificate anchor_read, first_read;
    check(rpki_certificate_read(anchor.octets, anchor.length, &anchor_read) == RPKI_OK
              && rpki_certificate_read(first.octets, first.length, &first_read) == RPKI_OK,
          "both are read");
    for (size_t i = 0; i < 20; i++) {
        snprintf(anchor_text + 3 + 2 * i, 3, "%02X", anchor_read.subject_key[i]);
        snprintf(first_text + 3 + 2 * i, 3, "%02X", first_read.subject_key[i]);
    }
    memset(other, 3, sizeof other);
    check(rpki_certificate_name(first.octets, first.length, RPKI_ISSUER_TEXT, other, 128, &listed) == RPKI_OK
              && listed == 43 && memcmp(other, anchor_text, 43) == 0 && other[listed] == 3,
          "the issuer's name as text");
    check(rpki_certificate_name(first.octets, first.length, RPKI_SUBJECT_TEXT, other, 128, &listed) == RPKI_OK
              && listed == 43 && memcmp(other, first_text, 43) == 0,
          "the subject's name as text");
    memset(other, 3, sizeof other);
    check(rpki_certificate_name(first.octets, first.length, RPKI_SUBJECT_TEXT, other, 2, &listed) == RPKI_OK
              && listed == 43 && other[0] == 'C' && other[1] == 'N' && other[2] == 3,
          "a text is written as far as there is room");
    static const uint32_t no_names[] = {4, 5, 256, 0x80000000, UINT32_MAX};
    for (size_t i = 0; i < sizeof no_names / sizeof *no_names; i++) {
        again = 9, issuer[0] = 7;
        check(rpki_certificate_name(first.octets, first.length, no_names[i], issuer, 128, &again)
                      == RPKI_BAD_CALL
                  && again == 0 && issuer[0] == 7,
              "there is no such name");
        check(rpki_certificate_name(NULL, 0, no_names[i], NULL, 0, &again) == RPKI_BAD_CALL,
              "there is no such name, whatever the octets");
    }
    check(rpki_certificate_name(first.octets, first.length, 0, NULL, 0, &again) == RPKI_OK
              && again == count,
          "room 0 counts a name");
    check(rpki_list_issuer(list.octets, list.length, NULL, 0, &again) == RPKI_OK && again == count,
          "room 0 counts a list's name");
    count = 9, again = 9;
    check(is_decoding(rpki_certificate_name(NULL, 0, RPKI_SUBJECT_TEXT, NULL, 0, &count)) && count == 0,
          "no octets have no text of a name");
    count = 9;
    check(is_decoding(rpki_certificate_name(NULL, 0, 0, NULL, 0, &count)) && count == 0
              && is_decoding(rpki_list_issuer(NULL, 0, NULL, 0, &again)) && again == 0,
          "no octets have no name");
}

/* ---- lists */

static void lists(struct file empty, struct file list, struct file cert) {
    struct rpki_list head;
    struct rpki_entry entries[2];
    uint64_t count;
    uint8_t serials[41] = {0}, answers[2] = {7, 7};
    check(rpki_list_read(empty.octets, empty.length, &head) == RPKI_OK && head.entries == 0
              && head.number[19] == 1,
          "a list without entries");
    check(rpki_list_read(list.octets, list.length, &head) == RPKI_OK && head.entries == 1
              && head.number[19] == 2 && head.this_update.year == 2026
              && head.next_update.year == 2036 && head.this_update.unused == 0,
          "a list with one entry");
    memset(entries, 0xa5, sizeof entries);
    check(rpki_list_entries(empty.octets, empty.length, entries, 2, &count) == RPKI_OK && count == 0
              && entries[0].serial[0] == 0xa5,
          "no entries, and nothing is written");
    check(rpki_list_entries(list.octets, list.length, entries, 2, &count) == RPKI_OK && count == 1
              && entries[0].serial[19] == 3 && entries[0].date.year == 2026
              && entries[0].date.month == 2 && entries[0].date.day == 1
              && entries[1].serial[0] == 0xa5,
          "3 was revoked on 2026-02-01, and nothing is written behind it");
    serials[19] = 3, serials[39] = 3;
    check(rpki_list_ask(list.octets, list.length, serials, 40, answers, 2) == RPKI_OK
              && answers[0] == 1 && answers[1] == 1,
          "3 is on the list, twice asked");
    check(rpki_list_ask(empty.octets, empty.length, serials, 40, answers, 2) == RPKI_OK
              && answers[0] == 0 && answers[1] == 0,
          "nothing is on a list without entries");
    check(rpki_list_ask(list.octets, list.length, serials, 20, answers, 1) == RPKI_OK
              && answers[0] == 1 && answers[1] == 0,
          "no answer is written behind the last");
    memset(serials, 0xff, 20);
    check(rpki_list_ask(list.octets, list.length, serials, 20, answers, 1) == RPKI_OK
              && answers[0] == 0,
          "the greatest serial number isn't on the list");
    static const size_t wrong[] = {0, 1, 19, 21, 39, 40, 41};
    for (size_t i = 0; i < sizeof wrong / sizeof *wrong; i++)
        check(rpki_list_ask(list.octets, list.length, serials, wrong[i], answers, 1)
                  == RPKI_BAD_CALL,
              "one serial number has 20 octets");
    check(rpki_list_ask(list.octets, list.length, serials, 20, NULL, 0) == RPKI_BAD_CALL,
          "a serial number without an answer");
    check(is_decoding(rpki_list_ask(NULL, 0, NULL, 0, NULL, 0)), "no octets are asked");
    count = 9;
    check(is_decoding(rpki_list_entries(NULL, 0, NULL, 0, &count)) && count == 0,
          "no octets have no entries");
    count = 9;
    check(is_decoding(rpki_list_entries(cert.octets, cert.length, entries, 2, &count)) && count == 0
              && is_decoding(rpki_list_read(cert.octets, cert.length, &head)),
          "a certificate is no list");
    struct rpki_certificate certificate;
    check(is_decoding(rpki_certificate_read(list.octets, list.length, &certificate))
              && is_decoding(rpki_certificate_inspect(list.octets, list.length, RPKI_ANCHOR, 1)),
          "a list is no certificate");
}

/* ---- moments */

/* the ends of the anchor's validity, which belong to it, and those of the calendar and the clock */
static void moments(struct file anchor) {
    static const struct {
        struct rpki_time at;
        uint32_t wanted;
    } cases[] = {
        {{2025, 12, 31, 23, 59, 59, 0}, RPKI_VERIFICATION_NOT_YET_VALID},
        {{2026, 1, 1, 0, 0, 0, 0}, RPKI_OK},
        {{2036, 1, 1, 0, 0, 0, 0}, RPKI_OK},
        {{2036, 1, 1, 0, 0, 1, 0}, RPKI_VERIFICATION_EXPIRED},
        {{2026, 6, 1, 23, 59, 59, 255}, RPKI_OK},
        {{2028, 2, 29, 0, 0, 0, 0}, RPKI_OK},
        {{0, 1, 1, 0, 0, 0, 0}, RPKI_VERIFICATION_NOT_YET_VALID},
        {{0, 2, 29, 0, 0, 0, 0}, RPKI_VERIFICATION_NOT_YET_VALID},
        {{2000, 2, 29, 0, 0, 0, 0}, RPKI_VERIFICATION_NOT_YET_VALID},
        {{9999, 12, 31, 23, 59, 59, 0}, RPKI_VERIFICATION_EXPIRED},
        {{10000, 1, 1, 0, 0, 0, 0}, RPKI_BAD_CALL},
        {{65535, 1, 1, 0, 0, 0, 0}, RPKI_BAD_CALL},
        {{2026, 0, 1, 0, 0, 0, 0}, RPKI_BAD_CALL},
        {{2026, 13, 1, 0, 0, 0, 0}, RPKI_BAD_CALL},
        {{2026, 255, 1, 0, 0, 0, 0}, RPKI_BAD_CALL},
        {{2026, 6, 0, 0, 0, 0, 0}, RPKI_BAD_CALL},
        {{2026, 6, 31, 0, 0, 0, 0}, RPKI_BAD_CALL},
        {{2026, 7, 32, 0, 0, 0, 0}, RPKI_BAD_CALL},
        {{2026, 2, 29, 0, 0, 0, 0}, RPKI_BAD_CALL},
        {{2100, 2, 29, 0, 0, 0, 0}, RPKI_BAD_CALL},
        {{2026, 6, 1, 24, 0, 0, 0}, RPKI_BAD_CALL},
        {{2026, 6, 1, 0, 60, 0, 0}, RPKI_BAD_CALL},
        {{2026, 6, 1, 23, 59, 60, 0}, RPKI_BAD_CALL},
    };
    for (size_t i = 0; i < sizeof cases / sizeof *cases; i++) {
        struct rpki_verdict out = {7, 7, 7, 7, 7};
        size_t length = anchor.length;
        const struct rpki_time *at = &cases[i].at;
        check(judge(anchor.octets, length, &length, 1, RPKI_AUTHORITY, at, &out) == cases[i].wanted
                  && out.fault == cases[i].wanted && out.index == 0
                  && out.v4 == (cases[i].wanted == RPKI_OK),
              "a moment at an end");
        const struct rpki_strings alone = strings(anchor.octets, length, &length, 1);
        check(judge_with(strings(NULL, 0, NULL, 0), alone, RPKI_AUTHORITY, at, &out)
                  == cases[i].wanted,
              "a moment at an end, with lists");
    }
}

/* ---- paths */

/* a file's octets, of which there may be none at NULL */
static void put(uint8_t *to, struct file from) {
    if (from.length > 0) memcpy(to, from.octets, from.length);
}

/* two files, one behind the other */
static struct file both(struct file one, struct file two) {
    struct file it = {malloc(one.length + two.length), one.length + two.length};
    put(it.octets, one);
    put(it.octets + one.length, two);
    return it;
}

/* lengths that add up, also where some are 0, and lengths that don't; kinds that are none */
static void lengths(struct file anchor, struct file first) {
    struct rpki_verdict out;
    struct file path = both(anchor, first);
    const size_t a = anchor.length, f = first.length, all = path.length;
    static const uint32_t no_kinds[] = {5, 6, 255, 256, 0x80000000, UINT32_MAX};
    for (size_t i = 0; i < sizeof no_kinds / sizeof *no_kinds; i++)
        check(judge(path.octets, all, (size_t[]){a, f}, 2, no_kinds[i], &now, &out) == RPKI_BAD_CALL,
              "the last member is of no such kind");
    check(judge(anchor.octets, a, &a, 1, RPKI_ANCHOR, &now, &out) == RPKI_OK && out.v4 == 1,
          "the last one is the anchor, alone");
    check(judge(path.octets, all, (size_t[]){a, f}, 2, RPKI_ANCHOR, &now, &out) == RPKI_BAD_CALL
              && judge(NULL, 0, NULL, 0, RPKI_ANCHOR, &now, &out) == RPKI_BAD_CALL,
          "the anchor stands alone");
    for (uint32_t last = 1; last < 5; last++) {
        check(judge(NULL, 0, NULL, 0, last, &now, &out) == RPKI_BAD_CALL, "no members");
        check(judge(anchor.octets, a, (size_t[]){a}, 1, last, &now, &out)
                  == (last == RPKI_AUTHORITY ? RPKI_OK : RPKI_BAD_CALL),
              "the anchor alone is an authority, and no leaf");
        check(judge(path.octets, all, (size_t[]){a, f + 1}, 2, last, &now, &out) == RPKI_BAD_CALL
                  && judge(path.octets, all, (size_t[]){a, f - 1}, 2, last, &now, &out)
                      == RPKI_BAD_CALL
                  && judge(path.octets, all, (size_t[]){SIZE_MAX, all + 1}, 2, last, &now, &out)
                      == RPKI_BAD_CALL
                  && judge(path.octets, all, (size_t[]){all, SIZE_MAX}, 2, last, &now, &out)
                      == RPKI_BAD_CALL
                  && judge(path.octets, all, NULL, 0, last, &now, &out) == RPKI_BAD_CALL
                  && judge(NULL, 0, (size_t[]){1}, 1, last, &now, &out) == RPKI_BAD_CALL,
              "lengths that don't add up");
        check(is_decoding(judge(path.octets, a, (size_t[]){a, 0}, 2, last, &now, &out))
                  && out.index == 1 && is_decoding(out.fault),
              "an empty last member");
        check(is_decoding(judge(path.octets, a, (size_t[]){0, a}, 2, last, &now, &out))
                  && out.index == 0,
              "an empty anchor");
        check(is_decoding(judge(path.octets, all, (size_t[]){a, 0, f}, 3, last, &now, &out))
                  && out.index == 1,
              "an empty member between two others");
    }
    check(is_decoding(judge(NULL, 0, (size_t[]){0}, 1, RPKI_AUTHORITY, &now, &out)) && out.index == 0,
          "an empty anchor alone");
    check(judge(path.octets, all, (size_t[]){a, f}, 2, RPKI_AUTHORITY, &now, &out) == RPKI_OK
              && out.index == 0 && out.v4 == 2 && out.v6 == 1 && out.asn == 2,
          "two members");
    check(judge(path.octets, all, (size_t[]){all}, 1, RPKI_AUTHORITY, &now, &out) == RPKI_OK
              && out.v4 == 1,
          "what follows a member is ignored");
    check(judge(path.octets, all, (size_t[]){a, f}, 2, RPKI_END_ENTITY, &now, &out)
                  == RPKI_INSPECTION_BASIC_CONSTRAINTS_PRESENT
              && out.index == 1 && out.v4 == 0 && out.v6 == 0 && out.asn == 0,
          "an authority is no end entity");
    free(path.octets);
}

/* ranges that are held: no room, less than all, more than all */
static void held(struct file anchor, struct file first) {
    struct file path = both(anchor, first);
    const size_t parts[] = {anchor.length, first.length};
    struct rpki_ip_range v4[3], v6[1];
    struct rpki_as_range asn[1];
    struct rpki_verdict out;
    memset(v4, 0xa5, sizeof v4);
    memset(v6, 0xa5, sizeof v6);
    memset(asn, 0xa5, sizeof asn);
    const struct rpki_question question =
        about(strings(path.octets, path.length, parts, 2), RPKI_AUTHORITY, &now);
    struct rpki_room room = {v4, 3, v6, 0, asn, 1};
    check(rpki_path_validate(&question, &room, &out) == RPKI_OK
              && out.v4 == 2 && out.v6 == 1 && out.asn == 2,
          "the counts don't depend on the room");
    check(v4[1].min[0] == 10 && v4[1].min[1] == 32 && v4[1].max[1] == 40 && v4[2].min[0] == 0xa5,
          "two ranges of IPv4, and nothing behind them");
    check(v6[0].min[0] == 0xa5, "nothing is written without room");
    check(asn[0].min == 64500 && asn[0].max == 64503, "the first range of AS numbers");
    check(room.v4 == v4 && room.v4_room == 3 && room.v6 == v6 && room.v6_room == 0 && room.asn == asn
              && room.asn_room == 1,
          "the room is where it was");
    free(path.octets);
}

/* the places of a certificate's key, signed part and signature, which this program finds on its own: a
 * certificate is 30 82 .., and so is its TBSCertificate; its signature has the last 256 octets */
static void places(struct file it, struct file list) {
    struct rpki_places out, before;
    memset(&out, 0xa5, sizeof out);
    before = out;
    uint64_t count;
    uint8_t key[1024], used;
    check(rpki_certificate_key(it.octets, it.length, key, sizeof key, &count, &used) == RPKI_OK && count < sizeof key,
          "a certificate has a key");
    check(rpki_certificate_places(it.octets, it.length, &out) == RPKI_OK, "a certificate has places");
    check(out.key_length == count && out.key_at + count <= it.length
              && memcmp(it.octets + out.key_at, key, (size_t)count) == 0,
          "the key is at its place");
    check(out.message_at == 4 && it.octets[4] == 0x30 && it.octets[5] == 0x82
              && out.message_length == 4u + 256u * it.octets[6] + it.octets[7],
          "the signed part is at its place");
    check(out.signature_length == 256 && out.signature_at + 256 == it.length
              && it.octets[out.signature_at - 5] == 3 && it.octets[out.signature_at - 1] == 0,
          "the signature is at its place");
    struct file longer = {malloc(it.length + 3), it.length + 3};
    memcpy(longer.octets, it.octets, it.length);
    struct rpki_places again;
    check(rpki_certificate_places(longer.octets, longer.length, &again) == RPKI_OK
              && memcmp(&again, &out, sizeof out) == 0,
          "octets behind a certificate change no place");
    free(longer.octets);
    for (size_t length = 0; length < it.length; length += 1 + length / 8) {
        out = before;
        check(is_decoding(rpki_certificate_places(length > 0 ? it.octets : NULL, length, &out))
                  && memcmp(&out, &before, sizeof out) == 0,
              "a cut certificate has no places");
    }
    check(is_decoding(rpki_certificate_places(list.octets, list.length, &out)) && memcmp(&out, &before, sizeof out) == 0,
          "a list has no places");
}

/* parts that stand apart, as a question takes them */
static void joins(struct file anchor, struct file first) {
    const struct rpki_octets parts[] = {{anchor.octets, anchor.length}, {NULL, 0}, {first.octets, first.length}};
    const struct rpki_octets long_parts[] = {{anchor.octets, SIZE_MAX - 1}, {first.octets, 1}, {first.octets, 0}};
    size_t lengths[] = {7, 7, 7, 7};
    const size_t all = anchor.length + first.length;
    check(rpki_joined_length(parts, 0) == 0 && rpki_joined_length(parts, 1) == anchor.length
              && rpki_joined_length(parts, 3) == all,
          "parts have the octets of all");
    check(rpki_joined_length(long_parts, 1) == SIZE_MAX - 1 && rpki_joined_length(long_parts, 2) == SIZE_MAX
              && rpki_joined_length(long_parts, 3) == SIZE_MAX,
          "parts that are too long");
    uint8_t *octets = malloc(all);
    struct rpki_strings joined = rpki_join(parts, 3, octets, lengths);
    check(joined.octets == octets && joined.length == all && joined.lengths == lengths && joined.count == 3
              && lengths[0] == anchor.length && lengths[1] == 0 && lengths[2] == first.length && lengths[3] == 7
              && memcmp(octets, anchor.octets, anchor.length) == 0
              && memcmp(octets + anchor.length, first.octets, first.length) == 0,
          "parts stand one behind the other");
    const struct rpki_octets pair[] = {parts[0], parts[2]};
    const struct rpki_question question = about(rpki_join(pair, 2, octets, lengths), RPKI_AUTHORITY, &now);
    struct rpki_verdict out;
    check(answer(&question, &out) == RPKI_OK, "parts are a path");
    joined = rpki_join(NULL, 0, NULL, NULL);
    check(joined.length == 0 && joined.count == 0, "no parts are no strings");
    free(octets);
}

static int are_octets(struct rpki_octets it, const uint8_t *octets, uint64_t length) {
    return it.length == length && (length == 0 || memcmp(it.octets, octets, length) == 0);
}

/* All fields of a certificate at once are those that each call writes. */
static void all_fields(struct file it) {
    enum { ROOM = 4200 };
    static uint8_t memory[1 << 19], octets[11][1 << 12];
    static struct rpki_ip_range ranges[2][ROOM];
    static struct rpki_as_range systems[ROOM];
    uint64_t counts[14];
    struct rpki_certificate fixed;
    struct rpki_fields out, none;
    uint8_t is_used;
    memset(&none, 0, sizeof none);
    check(rpki_certificate_read(it.octets, it.length, &fixed) == RPKI_OK, "the certificate is read");
    for (uint32_t i = 0; i < 4; i++)
        rpki_certificate_name(it.octets, it.length, i, octets[i], sizeof octets[i], &counts[i]);
    for (uint32_t i = 0; i < 6; i++)
        rpki_certificate_uri(it.octets, it.length, i, octets[4 + i], sizeof octets[i], &counts[4 + i]);
    rpki_certificate_key(it.octets, it.length, octets[10], sizeof octets[10], &counts[10], &is_used);
    for (uint32_t i = 0; i < 2; i++)
        rpki_certificate_addresses(it.octets, it.length, 4 + 2 * i, ranges[i], ROOM, &counts[11 + i]);
    rpki_certificate_as_numbers(it.octets, it.length, systems, ROOM, &counts[13]);
    check(rpki_fields_of_certificate(it.octets, it.length, NULL, 0, &out) == RPKI_OK, "fields are counted");
    const size_t size = out.size;
    check(size <= sizeof memory - 4 && out.issuer.length == 0 && out.v4_count == 0 && out.asn == NULL
              && memcmp(&out.fixed.serial, &fixed.serial, 20) == 0 && out.has_usable_key == is_used,
          "without memory there are the fields of a fixed size");
    for (size_t i = 0; i < 18; i++) {
        const size_t room = i < 5 ? i : i < 14 ? size / 10 * (i - 4) : size - (18 - i);
        memset(memory, 0x5a, size + 4);
        check(rpki_fields_of_certificate(it.octets, it.length, memory, room, &out) == RPKI_OK && out.size == size
                  && out.subject.octets == NULL && out.v6 == NULL && memory[room] == 0x5a,
              "too little memory");
    }
    /* at each alignment */
    for (size_t at = 0; at < 4; at++) {
        memset(memory, 0x5a, size + 4);
        check(rpki_fields_of_certificate(it.octets, it.length, memory + at, size, &out) == RPKI_OK
                  && out.size == size && (at == 0 || memory[at - 1] == 0x5a) && memory[at + size] == 0x5a,
              "all fields are written");
        check(memcmp(&out.fixed.serial, &fixed.serial, 20) == 0
                  && memcmp(&out.fixed.not_after, &fixed.not_after, sizeof fixed.not_after) == 0
                  && out.fixed.v4 == fixed.v4 && out.has_usable_key == is_used,
              "fields of a fixed size");
        const struct rpki_octets told[] = {out.issuer, out.subject, out.issuer_text, out.subject_text};
        for (size_t i = 0; i < 4; i++) check(are_octets(told[i], octets[i], counts[i]), "a name among all fields");
        for (size_t i = 0; i < 6; i++)
            check(are_octets(out.uris[i], octets[4 + i], counts[4 + i]), "a URI among all fields");
        check(are_octets(out.key, octets[10], counts[10]), "the key among all fields");
        check(out.v4_count == counts[11] && out.v6_count == counts[12] && out.asn_count == counts[13],
              "the numbers of ranges");
        check((counts[11] == 0 || memcmp(out.v4, ranges[0], counts[11] * sizeof *out.v4) == 0)
                  && (counts[12] == 0 || memcmp(out.v6, ranges[1], counts[12] * sizeof *out.v6) == 0),
              "the ranges of addresses");
        for (size_t i = 0; i < out.asn_count; i++)
            check(out.asn[i].min == systems[i].min && out.asn[i].max == systems[i].max, "the ranges of AS numbers");
    }
    memset(&out, 0x5a, sizeof out);
    check(rpki_fields_of_certificate(it.octets, it.length - 1, memory, sizeof memory, &out) == RPKI_DECODE_TRUNCATED
              && memcmp(&out, &none, sizeof out) == 0,
          "a cut certificate has no fields");
    check(rpki_fields_of_certificate(NULL, 0, NULL, 0, &out) == RPKI_DECODE_TRUNCATED, "no octets have no fields");
}

static void all_fields_of(const char *folder, const char *name) {
    struct file it = contents(folder, name);
    all_fields(it);
    free(it.octets);
}

/* numbers of a question that say nothing, and another size */
static void choices(struct file anchor, struct file list) {
    const size_t length = anchor.length, l = list.length;
    const struct rpki_strings alone = strings(anchor.octets, length, &length, 1);
    static const uint32_t none[] = {2, 3, 255, 256, 0x80000000, UINT32_MAX};
    struct rpki_verdict out;
    struct rpki_question question = about(alone, RPKI_AUTHORITY, &now);
    check(answer(&question, &out) == RPKI_OK, "the question is answered");
    for (size_t i = 0; i < sizeof none / sizeof *none; i++) {
        question.revocation = none[i];
        check(answer(&question, &out) == RPKI_BAD_CALL, "lists are asked, or nobody is");
        question.revocation = RPKI_ASK_NOBODY, question.anchor = none[i];
        check(answer(&question, &out) == RPKI_BAD_CALL, "a locator is asked, or the anchor is as given");
        question.anchor = RPKI_AS_GIVEN, question.key = none[i];
        check(answer(&question, &out) == RPKI_BAD_CALL, "the last key is asked, or any may stand there");
        question.key = RPKI_ASK_KEY, question.names = none[i];
        check(answer(&question, &out) == RPKI_BAD_CALL, "names are asked, or any may stand there");
        question.names = RPKI_ASK_NAMES;
    }
    static const size_t sizes[] = {0, 1, sizeof question - 8, sizeof question - 1, sizeof question + 1,
                                   sizeof question + 8, SIZE_MAX};
    for (size_t i = 0; i < sizeof sizes / sizeof *sizes; i++) {
        question.size = sizes[i];
        check(answer(&question, &out) == RPKI_BAD_CALL && out.fault == RPKI_BAD_CALL && out.index == 0,
              "a question of another size");
    }
    question.size = sizeof question;
    question.lists = strings(list.octets, l, (size_t[]){l - 1}, 1);
    question.locator = list.octets, question.locator_length = l;
    check(answer(&question, &out) == RPKI_OK, "what isn't asked isn't read");
    question.revocation = RPKI_ASK_LISTS;
    memset(&question, 0, sizeof question);
    check(answer(&question, &out) == RPKI_BAD_CALL, "a question of zeros");
    question.size = sizeof question, question.members = alone, question.moment = now, question.last = RPKI_ANCHOR;
    check(answer(&question, &out) == RPKI_LOCATOR_NO_KEY && out.index == 0, "a locator is asked, and there is none");
    question.anchor = RPKI_AS_GIVEN;
    check(answer(&question, &out) == RPKI_OK, "an anchor has no list to ask");
}

/* files one behind the other, and their lengths */
static struct file joined(const struct file *files, size_t count, size_t *lengths) {
    struct file it = {malloc(1), 0};
    for (size_t i = 0; i < count; i++) {
        it.octets = realloc(it.octets, it.length + files[i].length + 1);
        put(it.octets + it.length, files[i]);
        lengths[i] = files[i].length;
        it.length += files[i].length;
    }
    return it;
}

/* asks these lists about these members */
static uint32_t listed(const struct file *lists, size_t list_count, const struct file *members,
                       size_t count, uint32_t last, const struct rpki_time *at,
                       struct rpki_verdict *out) {
    size_t list_lengths[8], lengths[20];
    struct file all = joined(lists, list_count, list_lengths), path = joined(members, count, lengths);
    uint32_t fault = judge_with(strings(all.octets, all.length, list_lengths, list_count),
                                strings(path.octets, path.length, lengths, count), last, at, out);
    free(all.octets);
    free(path.octets);
    return fault;
}

/* a list with octets behind it, which may be another one that revokes, is none (RFC 6487 5) */
static void behind(struct file anchor, struct file first, struct file own, struct file other) {
    const struct file path[] = {anchor, first}, zero = {(uint8_t[]){0}, 1};
    const struct file pairs[][2] = {{own, other}, {other, own}, {own, own}, {own, zero}, {own, first}};
    struct rpki_verdict out;
    for (size_t i = 0; i < sizeof pairs / sizeof *pairs; i++) {
        size_t parts[2];
        struct file both = joined(pairs[i], 2, parts);
        check(listed(&both, 1, path, 2, RPKI_AUTHORITY, &now, &out) == RPKI_DECODE_TRAILING && out.index == 2,
              "octets stand behind a list");
        check(listed(&both, 1, path, 1, RPKI_AUTHORITY, &now, &out) == RPKI_DECODE_TRAILING && out.index == 1,
              "octets stand behind a list that nobody asks");
        check(listed((struct file[]){own, both}, 2, path, 2, RPKI_AUTHORITY, &now, &out) == RPKI_DECODE_TRAILING
                  && out.index == 3,
              "octets stand behind the second list");
        struct rpki_list read;
        check(rpki_list_read(both.octets, both.length, &read) == RPKI_OK, "octets begin with a list");
        free(both.octets);
    }
}

/* lists that are none, that nobody asks, and whose lengths don't add up */
static void asked(struct file anchor, struct file first, struct file own, struct file other) {
    const struct file path[] = {anchor, first}, both_lists[] = {own, other};
    const struct file cut = {own.octets, own.length - 1}, nothing = {own.octets, 0};
    const size_t a = anchor.length, l = own.length;
    struct rpki_verdict out;
    check(listed(NULL, 0, path, 1, RPKI_AUTHORITY, &now, &out) == RPKI_OK,
          "an anchor needs no list");
    check(listed(&other, 1, path, 1, RPKI_AUTHORITY, &now, &out) == RPKI_OK,
          "a list that nobody asks");
    check(listed(&own, 1, path, 2, RPKI_AUTHORITY, &now, &out) == RPKI_OK && out.v4 == 2,
          "the list leaves the first authority unrevoked");
    check(listed(both_lists, 2, path, 2, RPKI_AUTHORITY, &now, &out) == RPKI_OK && out.v4 == 2,
          "a further list of another authority");
    check(listed(NULL, 0, path, 2, RPKI_AUTHORITY, &now, &out) == RPKI_REVOCATION_NO_CRL
              && out.index == 1,
          "no lists, where one is asked");
    check(listed(&other, 1, path, 2, RPKI_AUTHORITY, &now, &out) == RPKI_REVOCATION_NO_CRL
              && out.index == 1,
          "the list of another authority alone");
    check(is_decoding(listed(&cut, 1, path, 1, RPKI_AUTHORITY, &now, &out)) && out.index == 1,
          "a cut list");
    check(is_decoding(listed((struct file[]){own, nothing}, 2, path, 2, RPKI_AUTHORITY, &now, &out))
              && out.index == 3,
          "the second list is empty");
    check(is_decoding(listed(&first, 1, path, 2, RPKI_AUTHORITY, &now, &out)) && out.index == 2,
          "a certificate in place of a list");
    const struct rpki_strings alone = strings(anchor.octets, a, &a, 1);
    check(judge_with(strings(own.octets, l, (size_t[]){l - 1}, 1), alone, RPKI_AUTHORITY, &now, &out)
                  == RPKI_BAD_CALL
              && judge_with(strings(own.octets, l, (size_t[]){l + 1}, 1), alone, RPKI_AUTHORITY, &now, &out)
                  == RPKI_BAD_CALL
              && judge_with(strings(own.octets, l, NULL, 0), alone, RPKI_AUTHORITY, &now, &out)
                  == RPKI_BAD_CALL
              && judge_with(strings(NULL, 0, (size_t[]){1}, 1), alone, RPKI_AUTHORITY, &now, &out)
                  == RPKI_BAD_CALL,
          "lengths of lists that don't add up");
}

/* ---- several lists of one issuer */

/* a path of tests/files, lists, and what is wanted of it at `then`, in each order of the lists */
struct given {
    const char *members[3], *lists[5];
    uint32_t last, wanted, index;
    const char *what;
};

/* ca1 has lists of the numbers 3225 (stale), 3226, 3227 (revokes ca2), 3228 (of 2040), 3229 (revokes
 * others) and 3230 (signed by nobody). Of sharing/ both members below the anchor name one URI. */
static const struct given given[] = {
    {{"ta.cer", "ca1.cer", "ca2.cer"}, {"ta.crl", "ca1.crl"}, RPKI_AUTHORITY, RPKI_OK, 0,
     "a list of each issuer"},
    {{"ta.cer", "ca1.cer", "ca2.cer"}, {"ta.crl", "ca1.crl", "ca1_revoking_ca2.crl"},
     RPKI_AUTHORITY, RPKI_REVOCATION_REVOKED, 2, "the later list revokes"},
    {{"ta.cer", "ca1.cer", "ca2.cer"}, {"ta.crl", "ca1_revoking_ca2.crl", "ca1_seven.crl"},
     RPKI_AUTHORITY, RPKI_OK, 0, "the earlier list revoked"},
    {{"ta.cer", "ca1.cer", "ca2.cer"}, {"ta.crl", "ca1.crl", "ca1_stale.crl"},
     RPKI_AUTHORITY, RPKI_OK, 0, "the earlier list is stale"},
    {{"ta.cer", "ca1.cer", "ca2.cer"}, {"ta.crl", "ca1_stale.crl"}, RPKI_AUTHORITY,
     RPKI_REVOCATION_STALE, 2, "the one list is stale"},
    {{"ta.cer", "ca1.cer", "ca2.cer"}, {"ta.crl", "ca1.crl", "ca1_not_yet.crl"},
     RPKI_AUTHORITY, RPKI_OK, 0, "a list of the future supersedes none"},
    {{"ta.cer", "ca1.cer", "ca2.cer"},
     {"ta.crl", "ca1.crl", "ca1_revoking_ca2.crl", "ca1_not_yet.crl"},
     RPKI_AUTHORITY, RPKI_REVOCATION_REVOKED, 2, "a list of the future hides none"},
    {{"ta.cer", "ca1.cer", "ca2.cer"}, {"ta.crl", "ca1_not_yet.crl"}, RPKI_AUTHORITY,
     RPKI_REVOCATION_STALE, 2, "a list of the future alone"},
    {{"ta.cer", "ca1.cer", "ca2.cer"},
     {"ta.crl", "ca1.crl", "ca1_revoking_ca2.crl", "ca1_bad_signature.crl"},
     RPKI_AUTHORITY, RPKI_REVOCATION_REVOKED, 2, "a list that the issuer didn't sign hides none"},
    {{"ta.cer", "ca1.cer", "ca2.cer"}, {"ta.crl", "ca1_bad_signature.crl"}, RPKI_AUTHORITY,
     RPKI_REVOCATION_BAD_SIGNATURE, 2, "a list that the issuer didn't sign"},
    {{"ta.cer", "ca1.cer", "ca2.cer"}, {"ta.crl", "ca2.crl"}, RPKI_AUTHORITY,
     RPKI_REVOCATION_NO_CRL, 2, "no list of the last one's issuer"},
    {{"ta.cer", "ca1.cer", "ca2.cer"}, {"ca1.crl", "ca2.crl"}, RPKI_AUTHORITY,
     RPKI_REVOCATION_NO_CRL, 1, "no list of the anchor"},
    {{"sharing/ta.cer", "sharing/ca.cer", "sharing/ee.cer"}, {"sharing/ta.crl", "sharing/ca.crl"},
     RPKI_END_ENTITY, RPKI_OK, 0, "two members name one URI"},
    {{"sharing/ta.cer", "sharing/ca.cer", "sharing/ee.cer"},
     {"sharing/ta.crl", "sharing/ca.crl", "sharing/ca_revoking.crl"},
     RPKI_DETACHED, RPKI_REVOCATION_REVOKED, 2, "two members name one URI, and one is revoked"},
    {{"sharing/ta.cer", "sharing/ca.cer", "sharing/ee.cer"},
     {"sharing/ta.crl", "sharing/ta_exchanged.crl", "sharing/ca.crl"},
     RPKI_END_ENTITY, RPKI_OK, 0, "a list with exchanged times supersedes none"},
    {{"sharing/ta.cer", "sharing/ca.cer", "sharing/ee.cer"},
     {"sharing/ta_exchanged.crl", "sharing/ca.crl"},
     RPKI_END_ENTITY, RPKI_REVOCATION_STALE, 1, "a list with exchanged times alone"},
    {{"ta.cer", "ca1.cer", "ca2.cer"}, {NULL}, RPKI_AUTHORITY, RPKI_REVOCATION_NO_CRL, 1,
     "no list"},
};

/* each order of the lists from the place `from` on */
static void each_order(const struct given *it, const struct file *members, struct file *lists,
                       size_t count, size_t from) {
    static const struct rpki_time then = {2025, 6, 1, 0, 0, 0, 0};
    struct rpki_verdict out;
    if (from == count)
        check(listed(lists, count, members, 3, it->last, &then, &out) == it->wanted
                  && out.index == it->index,
              it->what);
    for (size_t i = from; i < count; i++) {
        struct file one = lists[from];
        lists[from] = lists[i], lists[i] = one;
        each_order(it, members, lists, count, from + 1);
        one = lists[from], lists[from] = lists[i], lists[i] = one;
    }
}

static void orders(const char *folder) {
    for (size_t i = 0; i < sizeof given / sizeof *given; i++) {
        struct file members[3], lists[5];
        size_t count = 0;
        for (size_t m = 0; m < 3; m++) members[m] = contents(folder, given[i].members[m]);
        for (; count < 5 && given[i].lists[count] != NULL; count++)
            lists[count] = contents(folder, given[i].lists[count]);
        each_order(&given[i], members, lists, count, 0);
        for (size_t m = 0; m < 3; m++) free(members[m].octets);
        for (size_t l = 0; l < count; l++) free(lists[l].octets);
    }
}

/* ---- routers */

/* a router below two authorities: the verdict has the ranges of the one above it */
static void routers(const char *folder) {
    static const char *const names[] = {"ta.cer", "ca1.cer", "ca2.cer", "router.cer"};
    static const struct rpki_time at = {2025, 6, 1, 0, 0, 0, 0};
    struct file files[4];
    size_t parts[4];
    for (size_t i = 0; i < 4; i++) files[i] = contents(folder, names[i]);
    struct file path = joined(files, 4, parts);
    const size_t front = path.length - parts[3];
    struct rpki_verdict above, out;
    check(judge(path.octets, front, parts, 3, RPKI_AUTHORITY, &at, &above) == RPKI_OK && above.asn > 0,
          "the authorities are a path");
    check(judge(path.octets, path.length, parts, 4, RPKI_ROUTER, &at, &out) == RPKI_OK
              && memcmp(&above, &out, sizeof out) == 0,
          "a router is valid, and the ranges are those of the member above it");
    check(judge(path.octets, path.length, parts, 4, RPKI_END_ENTITY, &at, &out) == RPKI_INSPECTION_KEY_ALGORITHM
              && out.index == 3,
          "a router is no end entity");
    check(judge(path.octets, parts[0], parts, 1, RPKI_ROUTER, &at, &out) == RPKI_BAD_CALL,
          "a router has a member above it");
    path.octets[path.length - 1] ^= 1;
    check(judge(path.octets, path.length, parts, 4, RPKI_ROUTER, &at, &out) == RPKI_VERIFICATION_BAD_SIGNATURE
              && out.index == 3 && out.asn == 0,
          "a router's signature that isn't good");
    parts[3] = 0;
    check(is_decoding(judge(path.octets, front, parts, 4, RPKI_ROUTER, &at, &out)) && out.index == 3,
          "no octets are no router");
    for (size_t i = 0; i < 4; i++) free(files[i].octets);
    free(path.octets);
}

/* an authority as a router below authorities with real signatures, with lists and without */
static void no_router(struct file anchor, struct file first, struct file second, struct file list) {
    struct file above = both(anchor, first), path = both(above, second);
    const size_t parts[] = {anchor.length, first.length, second.length};
    struct rpki_verdict out;
    check(judge(path.octets, path.length, parts, 3, RPKI_ROUTER, &now, &out)
                  == RPKI_INSPECTION_KEY_ALGORITHM
              && out.index == 2,
          "an authority is no router");
    const struct rpki_strings members = strings(path.octets, path.length, parts, 3);
    check(judge_with(strings(list.octets, list.length, &list.length, 1), members, RPKI_ROUTER, &now, &out)
                  == RPKI_INSPECTION_KEY_ALGORITHM
              && out.index == 2,
          "an authority is no router, where lists are asked");
    check(judge_with(strings(NULL, 0, NULL, 0), members, RPKI_ROUTER, &now, &out)
                  == RPKI_REVOCATION_NO_CRL
              && out.index == 1,
          "a member above the router has no list");
    free(above.octets);
    free(path.octets);
}

static uint32_t names_in(const uint8_t *octets, size_t length, const size_t *lengths, size_t count, uint64_t *place) {
    const struct rpki_strings members = strings(octets, length, lengths, count);
    return rpki_path_names(&members, place);
}

/* the names of two or three files, one behind the other */
static uint32_t names_of(struct file one, struct file two, struct file three, uint64_t *place) {
    struct file front = both(one, two), path = both(front, three);
    const size_t parts[] = {one.length, two.length, three.length};
    uint32_t fault = names_in(path.octets, path.length, parts, three.length > 0 ? 3 : 2, place);
    free(front.octets);
    free(path.octets);
    return fault;
}

/* names that chain, and members whose names don't; the files' names are in tests/files/make.py */
static void chains(const char *folder, struct file list) {
    static const char *const wrong[] = {"named/ca_exchanged.cer", "named/ca_cut.cer",
                                        "named/ca_other_case.cer", "named/below.cer"};
    struct file ta = contents(folder, "named/ta.cer"), ca = contents(folder, "named/ca.cer");
    struct file below = contents(folder, "named/below.cer");
    struct file two = contents(folder, "named/ta_of_two_names.cer"), none = {NULL, 0};
    uint64_t place = 9;
    check(names_in(NULL, 0, NULL, 0, &place) == RPKI_BAD_CALL, "no members have no names");
    check(names_in(ta.octets, ta.length, &ta.length, 1, &place) == RPKI_OK,
          "the anchor's two names are one");
    check(names_in(two.octets, two.length, &two.length, 1, &place) == RPKI_OTHER_NAME && place == 0,
          "an anchor of two names");
    check(names_of(ta, ca, below, &place) == RPKI_OK, "names that chain");
    check(names_of(ta, ca, ta, &place) == RPKI_OTHER_NAME && place == 2, "the anchor isn't issued by an authority");
    for (size_t i = 0; i < sizeof wrong / sizeof *wrong; i++) {
        struct file other = contents(folder, wrong[i]);
        place = 9;
        check(names_of(ta, other, none, &place) == RPKI_OTHER_NAME && place == 1, wrong[i]);
        place = 9;
        check(names_of(ta, other, list, &place) == RPKI_OTHER_NAME && place == 1, "the first that is wrong");
        free(other.octets);
    }
    place = 9;
    check(is_decoding(names_of(ta, ca, list, &place)) && place == 2, "a list is no member");
    check(is_decoding(names_of(list, ca, below, &place)) && place == 0, "a list is no anchor");
    size_t parts[] = {ta.length, 1};
    check(names_in(ta.octets, ta.length, parts, 2, &place) == RPKI_BAD_CALL, "lengths behind the octets");
    parts[1] = 0;
    check(is_decoding(names_in(ta.octets, ta.length, parts, 2, &place)) && place == 1, "no octets are no member");
    free(ta.octets);
    free(ca.octets);
    free(below.octets);
    free(two.octets);
}

/* a path of two files, and whether its names are asked */
static uint32_t named(struct file anchor, struct file below, uint32_t names, struct rpki_verdict *out) {
    static const struct rpki_time at = {2025, 6, 1, 0, 0, 0, 0};
    const struct file pair[] = {anchor, below};
    size_t parts[2];
    struct file path = joined(pair, 2, parts);
    struct rpki_question question = about(strings(path.octets, path.length, parts, 2), RPKI_AUTHORITY, &at);
    question.names = names;
    uint32_t fault = answer(&question, out);
    free(path.octets);
    return fault;
}

/* names of a path that is judged: they are asked behind all else but the last key, unless waived */
static void judged_names(const char *folder) {
    struct file ta = contents(folder, "named/ta.cer"), ca = contents(folder, "named/ca.cer");
    struct file case_of = contents(folder, "named/ca_other_case.cer"), two = contents(folder, "named/ta_of_two_names.cer");
    struct file expired = contents(folder, "expired.cer");
    struct rpki_verdict out;
    check(named(ta, ca, RPKI_ASK_NAMES, &out) == RPKI_OK && out.index == 0 && out.v4 > 0, "names that chain");
    check(named(ta, case_of, RPKI_ASK_NAMES, &out) == RPKI_OTHER_NAME && out.index == 1 && out.v4 == 0,
          "an issuer that isn't the anchor's subject");
    check(named(ta, case_of, RPKI_ANY_NAMES, &out) == RPKI_OK && out.index == 0 && out.v4 > 0, "that issuer, waived");
    check(named(two, ca, RPKI_ASK_NAMES, &out) == RPKI_OTHER_NAME && out.index == 0, "an anchor of two names");
    check(named(two, ca, RPKI_ANY_NAMES, &out) == RPKI_OK, "that anchor, waived");
    check(named(two, expired, RPKI_ASK_NAMES, &out) / 100 == 4 && out.index == 1, "names are asked behind the path");
    const struct file files[] = {ta, ca, case_of, two, expired};
    for (size_t i = 0; i < sizeof files / sizeof *files; i++) free(files[i].octets);
}

/* lists of another name, though the anchor's key signed them; tests/files/make.py says of each what it
 * is. The verdict is as in tests/command, which asks rpki validate of them */
static void named_lists(const char *folder) {
    static const struct {
        const char *lists[2];
        uint32_t asked, waived;
    } rows[] = {{{"newer.crl", NULL}, RPKI_REVOCATION_WRONG_ISSUER, RPKI_OK},
                {{"newer_revoking.crl", NULL}, RPKI_REVOCATION_WRONG_ISSUER, RPKI_REVOCATION_REVOKED},
                {{"newer_stale.crl", NULL}, RPKI_REVOCATION_WRONG_ISSUER, RPKI_REVOCATION_STALE},
                {{"newer_forged.crl", NULL}, RPKI_REVOCATION_NO_CRL, RPKI_REVOCATION_BAD_SIGNATURE},
                {{"newer.crl", "plain.crl"}, RPKI_OK, RPKI_OK},
                {{"newer.crl", "revoking.crl"}, RPKI_REVOCATION_REVOKED, RPKI_OK},
                {{"older.crl", "revoking.crl"}, RPKI_REVOCATION_REVOKED, RPKI_REVOCATION_REVOKED},
                {{"newer_revoking.crl", "plain.crl"}, RPKI_OK, RPKI_REVOCATION_REVOKED},
                {{"newer.crl", "not_yet.crl"}, RPKI_REVOCATION_STALE, RPKI_OK},
                {{"newer.crl", "forged.crl"}, RPKI_REVOCATION_BAD_SIGNATURE, RPKI_OK}};
    static const struct rpki_time at = {2025, 6, 1, 0, 0, 0, 0};
    const struct file members[] = {contents(folder, "nobody/ta.cer"), contents(folder, "nobody/ca.cer")};
    size_t parts[2], list_parts[2];
    struct file path = joined(members, 2, parts);
    struct rpki_question question = about(strings(path.octets, path.length, parts, 2), RPKI_AUTHORITY, &at);
    struct rpki_verdict out;
    question.revocation = RPKI_ASK_LISTS;
    for (size_t i = 0; i < sizeof rows / sizeof *rows; i++) {
        for (size_t first = 0; first < 2; first++) {
            struct file lists[2];
            size_t count = 0;
            for (size_t j = 0; j < 2; j++) {
                const char *name = rows[i].lists[(first + j) % 2];
                char file[64];
                if (name == NULL) continue;
                snprintf(file, sizeof file, "nobody/%s", name);
                lists[count++] = contents(folder, file);
            }
            struct file all = joined(lists, count, list_parts);
            question.lists = strings(all.octets, all.length, list_parts, count);
            question.names = RPKI_ASK_NAMES;
            check(answer(&question, &out) == rows[i].asked && out.index == (rows[i].asked != RPKI_OK),
                  "a list of another name is none");
            question.names = RPKI_ANY_NAMES;
            check(answer(&question, &out) == rows[i].waived && out.index == (rows[i].waived != RPKI_OK),
                  "a list of any name, waived");
            for (size_t j = 0; j < count; j++) free(lists[j].octets);
            free(all.octets);
        }
    }
    free(members[0].octets);
    free(members[1].octets);
    free(path.octets);
}

/* an anchor that stands alone and has to have a locator's key, at a moment when it is valid */
static uint32_t locate(struct file anchor, const void *locator, size_t length, uint32_t strict) {
    static const struct rpki_time at = {2025, 6, 1, 0, 0, 0, 0};
    struct rpki_question question = about(strings(anchor.octets, anchor.length, &anchor.length, 1), RPKI_ANCHOR, &at);
    struct rpki_verdict out;
    question.locator = locator, question.locator_length = length;
    question.anchor = RPKI_ASK_LOCATOR, question.strict = strict;
    uint32_t fault = answer(&question, &out);
    check(out.fault == fault && out.index == 0, "what is wrong of a locator is wrong of the anchor");
    return fault;
}

/* the anchor's own locator, another one, parts of it, and octets that are none */
static void locators(const char *folder, struct file list) {
    struct file ta = contents(folder, "named/ta.cer"), ca = contents(folder, "named/ca.cer");
    struct file own = contents(folder, "named/ta.tal"), other = contents(folder, "named/ca.tal");
    struct file none = {NULL, 0};
    static const char odd[] = "# \xff\n", http[] = "http://rpki.example.net/ta.cer\n\nMII=\n";
    check(locate(ta, own.octets, own.length, 1) == RPKI_OK, "the anchor has the locator's key");
    check(locate(ca, other.octets, other.length, 1) >= RPKI_INSPECTION_ALGORITHM_MISMATCH
              && locate(ca, other.octets, other.length, 1) < RPKI_OTHER_NAME,
          "an authority has its own key, and is no anchor");
    check(locate(ta, other.octets, other.length, 1) == RPKI_OTHER_KEY && locate(ca, own.octets, own.length, 0) == RPKI_OTHER_KEY,
          "an anchor has another key");
    for (size_t length = 0; length + 1 < own.length; length++) {
        uint32_t fault = locate(ta, own.octets, length, 1);
        check(fault >= RPKI_LOCATOR_BAD_URI && fault <= RPKI_LOCATOR_BAD_KEY, "a part of a locator is none");
    }
    check(locate(ta, own.octets, own.length - 1, 1) == RPKI_OK, "the last line ends with the file");
    check(locate(ta, NULL, 0, 1) == RPKI_LOCATOR_NO_KEY, "no octets are no locator");
    check(locate(ta, "\n", 1, 1) == RPKI_LOCATOR_NO_URI, "a locator without a URI");
    check(locate(ta, http, sizeof http - 1, 1) == RPKI_LOCATOR_BAD_URI, "a locator with another URI");
    struct file text = {malloc(own.length + 4), own.length + 4};
    memcpy(text.octets, odd, 4);
    memcpy(text.octets + 4, own.octets, own.length);
    check(locate(ta, text.octets, text.length, 1) == RPKI_LOCATOR_NO_TEXT, "a comment that isn't UTF-8");
    check(locate(ta, text.octets, text.length, 0) == RPKI_OK && locate(ta, text.octets, text.length, 7) == RPKI_LOCATOR_NO_TEXT,
          "where it needn't be");
    check(is_decoding(locate(none, own.octets, own.length, 1)) && is_decoding(locate(list, own.octets, own.length, 1)),
          "no anchor");
    check(locate(none, NULL, 0, 1) == RPKI_LOCATOR_NO_KEY, "the locator is read first");
    free(ta.octets);
    free(ca.octets);
    free(own.octets);
    free(other.octets);
    free(text.octets);
}

/* ---- folders */

/* A folder, and what is told of it. */
struct folder {
    struct file files[16], locator;
    size_t count;
    struct rpki_line lines[17];
    size_t ranges; /* is the room for ranges of each kind, at most 63 */
    struct rpki_ip_range v4[64], v6[64];
    struct rpki_as_range asn[64];
    struct rpki_walk walk;
};

/* the fault of a folder, with a line of a pattern behind those that there is room for */
static uint32_t judge_folder(struct folder *it, struct rpki_folder_question question, size_t room) {
    size_t lengths[16];
    struct file all = joined(it->files, it->count, lengths);
    question.strings = strings(all.octets, all.length, lengths, it->count);
    memset(it->lines, 0xa5, sizeof it->lines);
    memset(&it->walk, 0xa5, sizeof it->walk);
    memset(it->v4, 0xa5, sizeof it->v4);
    memset(it->v6, 0xa5, sizeof it->v6);
    memset(it->asn, 0xa5, sizeof it->asn);
    const size_t n = it->ranges;
    struct rpki_room held = {n > 0 ? it->v4 : NULL, n, n > 0 ? it->v6 : NULL, n, n > 0 ? it->asn : NULL, n};
    uint32_t fault = rpki_folder_judge(&question, room > 0 ? it->lines : NULL, room, &held, &it->walk);
    const size_t v4 = it->walk.v4 < n ? it->walk.v4 : n, v6 = it->walk.v6 < n ? it->walk.v6 : n;
    const size_t asn = it->walk.asn < n ? it->walk.asn : n;
    check(fault == RPKI_OK || it->walk.v4 + it->walk.v6 + it->walk.asn == 0, "nothing is held at a fault");
    check(it->v4[v4].min[0] == 0xa5 && it->v6[v6].min[0] == 0xa5 && it->asn[asn].min == 0xa5a5a5a5,
          "nothing is written behind the ranges that there are");
    check(it->walk.fault == fault && (it->walk.ended == RPKI_NOT_BEGUN) == (fault != RPKI_OK),
          "a folder's answer is its fault");
    size_t written = fault != RPKI_OK ? 0 : room < it->count ? room : it->count;
    for (size_t i = written; i < 17; i++)
        check(it->lines[i].what == 0xa5a5a5a5, "nothing is written behind the lines that there are");
    free(all.octets);
    return fault;
}

static struct rpki_folder_question in_folder(const struct folder *it, const struct rpki_time *at) {
    return (struct rpki_folder_question){.size = sizeof(struct rpki_folder_question),
                                         .locator = it->locator.octets,
                                         .locator_length = it->locator.length,
                                         .moment = *at,
                                         .strict = 1};
}

static int is_line(struct rpki_line it, uint32_t what, uint32_t fault, uint64_t step, uint64_t issuer) {
    const int is_judged = what == RPKI_LINE_ACCEPTED || what == RPKI_LINE_REJECTED;
    const struct rpki_held nothing = {0};
    return it.what == what && it.fault == fault && it.step == step && it.issuer == issuer
        && (it.kind >= RPKI_AUTHORITY) == is_judged && it.kind <= RPKI_ROUTER
        && (what == RPKI_LINE_ACCEPTED || memcmp(&it.held, &nothing, sizeof nothing) == 0);
}

/* the lines of the files of examples/, which stand from the place `from` on in this order: the
 * object, second.cer, first.cer, the anchor, their lists, octets that are neither, and none */
static void lines_from(struct folder *it, size_t from) {
    const struct rpki_line *lines = it->lines;
    size_t at[9];
    for (size_t i = 0; i < 9; i++) at[i] = (from + i) % 9;
    check(it->walk.ended == RPKI_WHOLE && it->walk.anchor == at[3], "the anchor's place is told");
    check(is_line(lines[at[0]], RPKI_LINE_ACCEPTED, 0, 3, at[1]), "the object is accepted");
    check(is_line(lines[at[1]], RPKI_LINE_ACCEPTED, 0, 2, at[2]), "second.cer is accepted");
    check(is_line(lines[at[2]], RPKI_LINE_ACCEPTED, 0, 1, at[3]), "first.cer is accepted");
    check(lines[at[0]].kind == RPKI_END_ENTITY && lines[at[1]].kind == RPKI_AUTHORITY
              && lines[at[2]].kind == RPKI_AUTHORITY,
          "each is judged as what it says that it is");
    check(is_line(lines[at[3]], RPKI_LINE_ANCHOR, 0, 0, 0), "the anchor is one");
    for (size_t i = 4; i < 7; i++) check(is_line(lines[at[i]], RPKI_LINE_LIST, 0, 0, 0), "a list is one");
    for (size_t i = 7; i < 9; i++) check(is_line(lines[at[i]], RPKI_LINE_NEITHER, 0, 0, 0), "other octets are neither");
}

/* what a line's certificate holds is what a path to it holds */
static void same_held(const struct folder *it, const struct rpki_line *line, const struct file *files, size_t count,
                      const struct rpki_time *at) {
    struct rpki_ip_range v4[64], v6[64];
    struct rpki_as_range asn[64];
    size_t parts[8];
    struct file path = joined(files, count, parts);
    const struct rpki_question question = about(strings(path.octets, path.length, parts, count), line->kind, at);
    struct rpki_room room = {v4, 64, v6, 64, asn, 64};
    struct rpki_verdict out;
    const struct rpki_held *held = &line->held;
    check(rpki_path_validate(&question, &room, &out) == RPKI_OK && out.v4 == held->v4 && out.v6 == held->v6
              && out.asn == held->asn && out.v4 + out.v6 + out.asn > 0,
          "as much is held as on the path");
    check(held->v4_at + held->v4 <= it->walk.v4 && held->v6_at + held->v6 <= it->walk.v6
              && held->asn_at + held->asn <= it->walk.asn,
          "it is among the ranges");
    check(memcmp(v4, it->v4 + held->v4_at, out.v4 * sizeof *v4) == 0
              && memcmp(v6, it->v6 + held->v6_at, out.v6 * sizeof *v6) == 0
              && memcmp(asn, it->asn + held->asn_at, out.asn * sizeof *asn) == 0,
          "and the same");
    free(path.octets);
}

/* the ranges of a folder, with each room */
static void held_in(struct folder *it, struct rpki_folder_question question) {
    struct folder all = *it;
    all.ranges = 63;
    check(judge_folder(&all, question, 9) == RPKI_OK && all.walk.v4 < 63 && all.walk.v6 < 63 && all.walk.asn < 63,
          "there is room for all");
    const struct file path[] = {it->files[3], it->files[2], it->files[1], it->files[0]};
    for (size_t i = 0; i < 3; i++) same_held(&all, &all.lines[i], path, 4 - i, &question.moment);
    for (size_t room = 0; room < 63; room++) {
        it->ranges = room;
        check(judge_folder(it, question, 9) == RPKI_OK && memcmp(&it->walk, &all.walk, sizeof it->walk) == 0
                  && memcmp(it->lines, all.lines, sizeof it->lines) == 0,
              "the lines don't depend on the room for ranges");
        const size_t v4 = room < all.walk.v4 ? room : all.walk.v4, v6 = room < all.walk.v6 ? room : all.walk.v6;
        const size_t asn = room < all.walk.asn ? room : all.walk.asn;
        check(memcmp(it->v4, all.v4, v4 * sizeof *all.v4) == 0 && memcmp(it->v6, all.v6, v6 * sizeof *all.v6) == 0
                  && memcmp(it->asn, all.asn, asn * sizeof *all.asn) == 0,
              "as many ranges are written as there is room for");
    }
    it->ranges = 0;
}

/* names in a folder: asked as of a path (tests/files/make.py says whose names they are), or waived */
static void folder_names(const char *files) {
    static const struct rpki_time at = {2025, 6, 1, 0, 0, 0, 0};
    struct file ta = contents(files, "named/ta.cer"), list = contents(files, "named/ta.crl");
    struct file two = contents(files, "named/ta_of_two_names.cer");
    struct folder it = {.files = {ta, list, contents(files, "named/ca.cer"), contents(files, "named/ca_other_case.cer")},
                        .count = 4, .locator = contents(files, "named/ta.tal")};
    struct rpki_folder_question question = in_folder(&it, &at);
    check(judge_folder(&it, question, 4) == RPKI_OK && is_line(it.lines[2], RPKI_LINE_ACCEPTED, 0, 1, 0)
              && is_line(it.lines[3], RPKI_LINE_NOT_ISSUED, 0, 0, 0),
          "a certificate of another issuer's name isn't issued by it");
    question.names = RPKI_ANY_NAMES;
    check(judge_folder(&it, question, 4) == RPKI_OK && is_line(it.lines[2], RPKI_LINE_ACCEPTED, 0, 1, 0)
              && is_line(it.lines[3], RPKI_LINE_ACCEPTED, 0, 1, 0),
          "unless names are waived");
    it.files[0] = two;
    check(judge_folder(&it, question, 4) == RPKI_OK && it.walk.anchor == 0, "an anchor of two names, with names waived");
    question.names = RPKI_ASK_NAMES;
    it.files[0] = it.files[3], it.files[3] = two;
    check(judge_folder(&it, question, 4) == RPKI_OTHER_NAME && it.walk.anchor == 3, "an anchor of two names");
    question.names = 2;
    check(judge_folder(&it, question, 4) == RPKI_BAD_CALL, "names are asked, or any may stand there");
    for (size_t i = 0; i < 4; i++) free(it.files[i].octets);
    free(ta.octets);
    free(it.locator.octets);
}

/* whether limits were reached at the certificate of one line, and at no other's */
static int has_limits(const struct folder *it, size_t at, uint32_t limits, uint64_t needed) {
    for (size_t i = 0; i < it->count; i++) {
        const struct rpki_line line = it->lines[i];
        if (line.limits != (i == at ? limits : 0) || line.needed != (i == at ? needed : 0)) return 0;
    }
    return 1;
}

/* of the path's certificates at the first places, from below, the limit was reached at this one */
static int are_below_limit(const struct folder *it, size_t at) {
    for (size_t i = 0; i < at; i++) {
        const uint32_t what = i + 1 < at ? RPKI_LINE_BELOW_UNSEEN : RPKI_LINE_NOT_LOOKED_AT;
        if (!is_line(it->lines[i], what, 0, 0, i + 1)) return 0;
    }
    return 1;
}

static void folders(const char *examples) {
    static const char *const names[] = {"object.cer", "second.cer", "first.cer", "anchor.cer", "object.crl",
                                        "second.crl", "first.crl", "make.sh"};
    struct folder it = {.count = 9, .locator = contents(examples, "anchor.tal")};
    for (size_t i = 0; i < 8; i++) it.files[i] = contents(examples, names[i]);
    const struct rpki_folder_question question = in_folder(&it, &now);
    for (size_t turn = 0; turn < 9; turn++) {
        check(judge_folder(&it, question, 17) == RPKI_OK, "a folder is judged");
        lines_from(&it, (9 - turn) % 9);
        struct file first = it.files[0];
        memmove(it.files, it.files + 1, 8 * sizeof *it.files);
        it.files[8] = first;
    }
    for (size_t room = 0; room <= 9; room++)
        check(judge_folder(&it, question, room) == RPKI_OK && it.walk.anchor == 3
                  && (room == 0 || is_line(it.lines[0], RPKI_LINE_ACCEPTED, 0, 3, 1)),
              "the verdict doesn't depend on the room");
    held_in(&it, question);
    struct rpki_folder_question other = question;
    for (size_t depth = 1; depth <= 3; depth++) {
        other.depth = depth;
        check(judge_folder(&it, other, 9) == RPKI_OK && it.walk.ended == (depth < 3 ? RPKI_TOO_DEEP : RPKI_WHOLE)
                  && it.lines[3 - depth].what == RPKI_LINE_ACCEPTED && are_below_limit(&it, 3 - depth),
              "a walk ends at its depth");
        check(has_limits(&it, 3 - depth, depth < 3 ? RPKI_LIMIT_DEPTH : 0, 0), "the CA at the depth is told");
    }
    other = question;
    for (size_t steps = 1; steps <= 3; steps++) {
        other.steps = steps;
        check(judge_folder(&it, other, 9) == RPKI_OK && it.walk.ended == (steps < 3 ? RPKI_OUT_OF_STEPS : RPKI_WHOLE)
                  && it.lines[3 - steps].what == RPKI_LINE_ACCEPTED && are_below_limit(&it, 3 - steps),
              "a walk ends where its steps are used up");
        check(has_limits(&it, 3 - steps, steps < 3 ? RPKI_LIMIT_STEPS : 0, steps < 3 ? steps + 1 : 0),
              "the CA is told whose children need more steps, and how many");
    }
    other.depth = other.steps = SIZE_MAX;
    check(judge_folder(&it, other, 9) == RPKI_OK && it.walk.ended == RPKI_WHOLE, "bounds may be great");

    /* what is wrong of the question */
    for (int by = -1; by <= 1; by += 2) {
        other = question;
        other.size = question.size + (size_t)by;
        check(judge_folder(&it, other, 9) == RPKI_BAD_CALL, "a question of another size");
    }
    other = question;
    other.moment.month = 13;
    check(judge_folder(&it, other, 9) == RPKI_BAD_CALL, "there is no month 13");
    other = question;
    other.key = 2;
    check(judge_folder(&it, other, 9) == RPKI_BAD_CALL, "keys are asked, or any may stand there");
    other = question;
    other.locator = NULL, other.locator_length = 0;
    check(judge_folder(&it, other, 9) == RPKI_LOCATOR_NO_KEY, "no octets are no locator");
    struct rpki_walk walk = {7, 7, 7, 7, 7, 7};
    struct rpki_room none = {0};
    const size_t lengths[] = {it.files[0].length - 1, 2};
    other = question;
    for (size_t count = 0; count < 3; count++) {
        other.strings = strings(it.files[0].octets, it.files[0].length, lengths, count);
        check(rpki_folder_judge(&other, NULL, 0, &none, &walk) == RPKI_BAD_CALL && walk.anchor == 0, "lengths that don't add up");
    }
    other.strings = strings(NULL, 0, NULL, 0);
    check(rpki_folder_judge(&other, NULL, 0, &none, &walk) == RPKI_OTHER_KEY && walk.fault == RPKI_OTHER_KEY
              && walk.ended == RPKI_NOT_BEGUN,
          "no strings have no anchor");

    /* what is wrong of the anchor */
    static const struct rpki_time late = {2036, 1, 1, 0, 0, 1, 0};
    other = question;
    other.moment = late;
    check(judge_folder(&it, other, 9) == RPKI_VERIFICATION_EXPIRED && it.walk.anchor == 3, "the anchor has expired");
    struct file anchor = it.files[3];
    it.files[3] = (struct file){anchor.octets, anchor.length - 1};
    check(judge_folder(&it, question, 9) == RPKI_OTHER_KEY && it.walk.anchor == 0, "an anchor that is cut short is none");
    it.files[3] = anchor;

    /* a list with octets behind it is none */
    const struct file list = it.files[6];
    struct file more = {malloc(list.length + 1), list.length + 1};
    memcpy(more.octets, list.octets, list.length);
    more.octets[list.length] = 0;
    it.files[6] = more;
    check(judge_folder(&it, question, 9) == RPKI_OK && is_line(it.lines[6], RPKI_LINE_NEITHER, 0, 0, 0)
              && is_line(it.lines[2], RPKI_LINE_REJECTED, RPKI_REVOCATION_NO_CRL, 1, 0),
          "an octet stands behind the anchor's list");
    it.files[6] = list;
    free(more.octets);

    /* several of one, and some that are missing */
    free(it.files[7].octets);
    it.files[7] = anchor, it.files[8] = it.files[0];
    check(judge_folder(&it, question, 9) == RPKI_OK && it.walk.anchor == 3 && it.lines[3].what == RPKI_LINE_ANCHOR
              && it.lines[7].what == RPKI_LINE_ANCHOR && is_line(it.lines[8], RPKI_LINE_ACCEPTED, 0, 3, 1),
          "the first of several copies of the anchor is taken, and each copy of a certificate has its line");
    it.count = 4;
    check(judge_folder(&it, question, 9) == RPKI_OK && it.walk.ended == RPKI_WHOLE
              && is_line(it.lines[2], RPKI_LINE_REJECTED, RPKI_REVOCATION_NO_CRL, 1, 0)
              && is_line(it.lines[1], RPKI_LINE_BELOW_REJECTED, 0, 0, 2)
              && is_line(it.lines[0], RPKI_LINE_BELOW_UNSEEN, 0, 0, 1),
          "where lists are missing the first is rejected, and there is no verdict on what is below it");
    for (size_t i = 0; i < 7; i++) free(it.files[i].octets);
    free(it.locator.octets);
}

/* ---- why there is no verdict */

/* A file of tests/added, of which reference/added.py says, by its word: the name, without `.cer` at its
 * end. `NAME=OTHER` names the key of OTHER as its signer's, `NAME!` has another signature, and an octet
 * follows `NAME+`. */
static struct file worded(const char *files, const char *word) {
    char name[64];
    const int length = (int)strcspn(word, "=!+");
    const int is_list = length > 4 && strncmp(word + length - 4, ".crl", 4) == 0;
    snprintf(name, sizeof name, "../added/%.*s%s", length, word, is_list ? "" : ".cer");
    struct file it = contents(files, name);
    if (word[length] == '=') {
        struct file other = worded(files, word + length + 1);
        struct rpki_certificate own, above;
        check(rpki_certificate_read(it.octets, it.length, &own) == RPKI_OK && own.has_authority_key
                  && rpki_certificate_read(other.octets, other.length, &above) == RPKI_OK,
              "a certificate names its signer's key");
        size_t at = 0;
        while (memcmp(it.octets + at, own.authority_key, 20) != 0) at++;
        memcpy(it.octets + at, above.subject_key, 20);
        free(other.octets);
    }
    if (word[length] == '!') it.octets[it.length - 1] ^= 1;
    if (word[length] == '+') it.octets = realloc(it.octets, it.length + 1), it.octets[it.length++] = 0;
    return it;
}

/* The words of a line, which it is cut into; and how many they are. */
static size_t cut_words(char *line, char *words[16]) {
    size_t count = 0;
    for (char *word = strtok(line, " "); word != NULL && count < 16; word = strtok(NULL, " ")) words[count++] = word;
    return count;
}

/* the place of the first of some words among others, or how many these are */
static size_t first_place(char *const *words, size_t count, const char *some) {
    for (size_t at = 0; at < count; at++) {
        const size_t length = strlen(words[at]);
        for (const char *word = some; *word != 0; word += strcspn(word, " "), word += *word == ' ')
            if (strcspn(word, " ") == length && memcmp(word, words[at], length) == 0) return at;
    }
    return count;
}

/* whether a line is that of an issuer for which a certificate has this line */
static int is_issuer_for(uint32_t what, struct rpki_line it) {
    const int is_ca = it.what == RPKI_LINE_ANCHOR || (it.what == RPKI_LINE_ACCEPTED && it.kind == RPKI_AUTHORITY);
    switch (what) {
    case RPKI_LINE_NOT_ISSUED: return is_ca;
    case RPKI_LINE_ISSUER_NOT_CA: return it.what == RPKI_LINE_ACCEPTED && it.kind != RPKI_AUTHORITY;
    case RPKI_LINE_NOT_LOOKED_AT: return is_ca && it.limits != 0;
    case RPKI_LINE_BELOW_REJECTED: return it.what == RPKI_LINE_REJECTED && it.fault != RPKI_OK;
    default: return it.what == RPKI_LINE_NO_ISSUER || it.what > RPKI_LINE_NEITHER;
    }
}

/* A certificate among files, and its line: whose issuer is the first of some of them, or none. */
struct unjudged {
    const char *files, *of, *issuers;
    uint32_t what;
    size_t depth, steps;
    uint32_t limits; /* at the issuer */
    uint64_t needed;
};

static const struct unjudged unjudged[] = {
    /* it names no key; nobody has the key that it names */
    {"ta ta.crl ../files/bad_no_aki", "../files/bad_no_aki", "", RPKI_LINE_NO_ISSUER, 0, 0, 0, 0},
    {"ta ta.crl a a.crl be", "be", "", RPKI_LINE_NO_ISSUER, 0, 0, 0, 0},
    {"ta ta.crl be be+", "be+", "", RPKI_LINE_NO_ISSUER, 0, 0, 0, 0},
    /* it names the key of a CA, but another name: of several such CAs that are looked at the first */
    {"ta ta.crl a a.crl re", "re", "a", RPKI_LINE_NOT_ISSUED, 0, 0, 0, 0},
    {"ta ta.crl a+ a a.crl re re+", "re+", "a a+", RPKI_LINE_NOT_ISSUED, 0, 0, 0, 0},
    {"ta ta.crl a a-own a.crl re", "re", "a a-own", RPKI_LINE_NOT_ISSUED, 0, 0, 0, 0},
    {"ta ta+ ta.crl two_names", "two_names", "ta ta+", RPKI_LINE_NOT_ISSUED, 0, 0, 0, 0},
    /* or a rejected certificate has that key, or one without a verdict */
    {"ta ta.crl a a! a.crl re", "re", "a", RPKI_LINE_NOT_ISSUED, 0, 0, 0, 0},
    {"ta ta.crl a a=be a.crl re", "re", "a", RPKI_LINE_NOT_ISSUED, 0, 0, 0, 0},
    /* an end entity's key signed it */
    {"ta ta.crl b b.crl be le", "le", "be", RPKI_LINE_ISSUER_NOT_CA, 0, 0, 0, 0},
    {"ta ta.crl b b.crl be+ be le le+", "le", "be be+", RPKI_LINE_ISSUER_NOT_CA, 0, 0, 0, 0},
    {"ta ta.crl a a.crl b b.crl be ae le", "le", "be ae", RPKI_LINE_ISSUER_NOT_CA, 0, 0, 0, 0},
    {"ta ta.crl b b.crl be be=le le", "le", "be", RPKI_LINE_ISSUER_NOT_CA, 0, 0, 0, 0},
    /* a limit was reached at its issuer: at the trust anchor, which is a child of its own, or below */
    {"ta ta.crl b b.crl be", "be", "b", RPKI_LINE_NOT_LOOKED_AT, 1, 0, RPKI_LIMIT_DEPTH, 0},
    {"ta ta.crl b b.crl be", "be", "b", RPKI_LINE_NOT_LOOKED_AT, 0, 2, RPKI_LIMIT_STEPS, 3},
    {"ta ta.crl b+ b b.crl be be+", "be+", "b b+", RPKI_LINE_NOT_LOOKED_AT, 0, 2, RPKI_LIMIT_STEPS, 3},
    {"ta ta.crl b b.crl be", "b", "ta", RPKI_LINE_NOT_LOOKED_AT, 0, 1, RPKI_LIMIT_STEPS, 2},
    /* a path to another certificate of the key has no limit, but not to this one */
    {"ta ta.crl a a.crl b b.crl b-a m re", "re", "b-a", RPKI_LINE_NOT_LOOKED_AT, 2, 0, RPKI_LIMIT_DEPTH, 0},
    {"ta ta.crl a a! a.crl b b.crl b-a m re", "re", "b-a", RPKI_LINE_NOT_LOOKED_AT, 2, 0, RPKI_LIMIT_DEPTH, 0},
    /* its issuer is rejected, without a CRL or by its signature; an end entity has that key, too, or one
     * without a verdict */
    {"ta b b.crl be", "be", "b", RPKI_LINE_BELOW_REJECTED, 0, 0, 0, 0},
    {"ta b+ b b.crl be be+", "be+", "b b+", RPKI_LINE_BELOW_REJECTED, 0, 0, 0, 0},
    {"ta ta.crl b! b.crl be", "be", "b!", RPKI_LINE_BELOW_REJECTED, 0, 0, 0, 0},
    {"ta ta.crl b! b=re b.crl be", "be", "b!", RPKI_LINE_BELOW_REJECTED, 0, 0, 0, 0},
    {"ta ta.crl b b.crl be be! le", "le", "be!", RPKI_LINE_BELOW_REJECTED, 0, 0, 0, 0},
    /* there is none on its issuer either, which may be itself, or below it */
    {"ta ta.crl b b.crl b-c c.crl ce", "ce", "b-c", RPKI_LINE_BELOW_UNSEEN, 1, 0, 0, 0},
    {"ta ta.crl b-c c.crl ce b-c+ ce+", "ce", "b-c b-c+", RPKI_LINE_BELOW_UNSEEN, 0, 0, 0, 0},
    {"ta ta.crl b-c b=ce ce", "ce", "b-c", RPKI_LINE_BELOW_UNSEEN, 0, 0, 0, 0},
    {"ta ta.crl ../anchors/ta ../anchors/ta+", "../anchors/ta+", "../anchors/ta ../anchors/ta+",
     RPKI_LINE_BELOW_UNSEEN, 0, 0, 0, 0},
    {"ta ta.crl a-b b-a a.crl b.crl", "a-b", "b-a", RPKI_LINE_BELOW_UNSEEN, 0, 0, 0, 0},
    {"ta ta.crl a-b b-a a.crl b.crl", "b-a", "a-b", RPKI_LINE_BELOW_UNSEEN, 0, 0, 0, 0},
};

/* exchanges two files, and their words */
static void exchange(struct folder *it, char **words, size_t i, size_t j) {
    const struct file file = it->files[i];
    char *word = words[i];
    it->files[i] = it->files[j], words[i] = words[j];
    it->files[j] = file, words[j] = word;
}

/* the line in the order that stands there, in each that begins at another place, and in these from behind */
static void unjudged_in_order(const char *files, const struct unjudged *row) {
    static const struct rpki_time at = {2025, 6, 1, 0, 0, 0, 0};
    char line[256], *words[16];
    snprintf(line, sizeof line, "%s", row->files);
    struct folder it = {.count = cut_words(line, words), .locator = contents(files, "../added/ta.tal")};
    for (size_t i = 0; i < it.count; i++) it.files[i] = worded(files, words[i]);
    struct rpki_folder_question question = in_folder(&it, &at);
    question.depth = row->depth, question.steps = row->steps;
    for (size_t turn = 0; turn < 2 * it.count; turn++) {
        const size_t place = first_place(words, it.count, row->of);
        const size_t issuer = first_place(words, it.count, row->issuers);
        const int has_issuer = issuer < it.count;
        char what[512];
        snprintf(what, sizeof what, "%s among %s: line %u, issuer %s", row->of, row->files, row->what, row->issuers);
        check(judge_folder(&it, question, 17) == RPKI_OK && has_issuer == (row->what != RPKI_LINE_NO_ISSUER)
                  && is_line(it.lines[place], row->what, 0, 0, has_issuer ? issuer : 0),
              what);
        check(!has_issuer
                  || (is_issuer_for(row->what, it.lines[issuer]) && it.lines[issuer].limits == row->limits
                      && it.lines[issuer].needed == row->needed),
              "the issuer's line says why");
        for (size_t i = 1; i < it.count; i++) exchange(&it, words, i - 1, i);
        for (size_t i = 0; turn + 1 == it.count && i < it.count / 2; i++) exchange(&it, words, i, it.count - 1 - i);
    }
    for (size_t i = 0; i < it.count; i++) free(it.files[i].octets);
    free(it.locator.octets);
}

/* an issuer that is rejected for its key alone counts as accepted */
static void issuers_of_other_keys(const char *files) {
    static const struct rpki_time at = {2025, 6, 1, 0, 0, 0, 0};
    static const struct {
        const char *issuer, *below;
        uint32_t kind, what;
    } rows[] = {{"ee_1024", "ee_2048=../files/keyed/ee_1024", RPKI_END_ENTITY, RPKI_LINE_ISSUER_NOT_CA},
                {"ca_1024", "ee_2048=../files/keyed/ca_1024", RPKI_AUTHORITY, RPKI_LINE_NOT_ISSUED}};
    for (size_t i = 0; i < sizeof rows / sizeof *rows; i++) {
        const char *const names[] = {"ta", "ta.crl", rows[i].issuer, rows[i].below};
        struct folder it = {.count = 4, .locator = contents(files, "keyed/ta.tal")};
        for (size_t k = 0; k < 4; k++) {
            char word[128];
            snprintf(word, sizeof word, "../files/keyed/%s", names[k]);
            it.files[k] = worded(files, word);
        }
        struct rpki_folder_question question = in_folder(&it, &at);
        check(judge_folder(&it, question, 4) == RPKI_OK && it.lines[2].kind == rows[i].kind
                  && is_line(it.lines[2], RPKI_LINE_REJECTED, RPKI_BAD_KEY, 1, 0)
                  && is_line(it.lines[3], rows[i].what, 0, 0, 2),
              "an issuer's key is asked");
        question.key = RPKI_ANY_KEY;
        check(judge_folder(&it, question, 4) == RPKI_OK && is_line(it.lines[2], RPKI_LINE_ACCEPTED, 0, 1, 0)
                  && is_line(it.lines[3], rows[i].what, 0, 0, 2),
              "an issuer's key isn't asked");
        for (size_t k = 0; k < 4; k++) free(it.files[k].octets);
        free(it.locator.octets);
    }
}

static void without_verdict(const char *files) {
    for (size_t i = 0; i < sizeof unjudged / sizeof *unjudged; i++) unjudged_in_order(files, &unjudged[i]);
    issuers_of_other_keys(files);
}

/* ---- the last key */

/* the key that the certificate has is told, and whether the RPKI uses it (RFC 7935 3, RFC 8608 3.1) */
static void key_of(struct file it, uint8_t is_used) {
    uint64_t count = 7, again = 7;
    uint8_t told = 7;
    check(rpki_certificate_key(it.octets, it.length, NULL, 0, &count, &told) == RPKI_OK && told == is_used && count > 0,
          "a certificate has a key");
    uint8_t *key = malloc(count + 1);
    key[count] = 7, told = 7;
    check(rpki_certificate_key(it.octets, it.length, key, count + 1, &again, &told) == RPKI_OK && again == count
              && told == is_used && key[count] == 7,
          "nothing is written behind a key");
    size_t at = 0;
    while (at + count <= it.length && memcmp(it.octets + at, key, count) != 0) at++;
    check(at + count <= it.length && key[0] == 0x30, "it is a SEQUENCE of the certificate");
    uint8_t first = 7;
    check(rpki_certificate_key(it.octets, it.length, &first, 1, &again, &told) == RPKI_OK && again == count
              && first == 0x30,
          "a key is cut");
    told = 7;
    check(is_decoding(rpki_certificate_key(it.octets, it.length - 1, &first, 1, &again, &told)) && again == 0 && told == 0,
          "a cut certificate has no key");
    free(key);
}

/* a certificate below the anchor, whose key the RPKI uses or not: by each call that judges it */
static void keyed(struct file anchor, struct file list, struct file locator, struct file it, uint32_t last,
                  int is_used) {
    static const struct rpki_time at = {2025, 6, 1, 0, 0, 0, 0};
    const uint32_t wanted = is_used ? RPKI_OK : RPKI_BAD_KEY;
    const struct file pair[] = {anchor, it};
    size_t lengths[2];
    struct file path = joined(pair, 2, lengths);
    struct rpki_question question = about(strings(path.octets, path.length, lengths, 2), last, &at);
    struct rpki_verdict out;
    key_of(it, (uint8_t)is_used);
    check(answer(&question, &out) == wanted && out.index == !is_used && (is_used || out.v4 == 0),
          "the last member's key is asked");
    question.key = RPKI_ANY_KEY;
    check(answer(&question, &out) == RPKI_OK && (last == RPKI_ROUTER || out.v4 + out.v6 + out.asn > 0),
          "any key may stand there where it isn't asked");
    struct folder folder = {.files = {it, list, anchor}, .count = 3, .locator = locator};
    struct rpki_folder_question asked = in_folder(&folder, &at);
    check(judge_folder(&folder, asked, 3) == RPKI_OK && folder.walk.anchor == 2
              && (is_used ? is_line(folder.lines[0], RPKI_LINE_ACCEPTED, 0, 1, 2)
                          : is_line(folder.lines[0], RPKI_LINE_REJECTED, RPKI_BAD_KEY, 1, 0)),
          "a folder asks the key of each certificate");
    check(folder.lines[0].kind == last, "it is judged as what it says, whatever its key");
    asked.key = RPKI_ANY_KEY;
    check(judge_folder(&folder, asked, 3) == RPKI_OK && is_line(folder.lines[0], RPKI_LINE_ACCEPTED, 0, 1, 2),
          "or of none");
    free(path.octets);
}

static void keys(const char *folder) {
    static const struct {
        const char *name;
        uint32_t last;
        int is_used;
    } members[] = {{"keyed/ee_2048.cer", RPKI_END_ENTITY, 1},       {"keyed/ee_1024.cer", RPKI_END_ENTITY, 0},
                   {"keyed/ee_3072.cer", RPKI_END_ENTITY, 0},       {"keyed/ee_exponent_3.cer", RPKI_END_ENTITY, 0},
                   {"keyed/ca_2048.cer", RPKI_AUTHORITY, 1},        {"keyed/ca_1024.cer", RPKI_AUTHORITY, 0},
                   {"keyed/ca_3072.cer", RPKI_AUTHORITY, 0},        {"keyed/ca_exponent_3.cer", RPKI_AUTHORITY, 0},
                   {"keyed/router.cer", RPKI_ROUTER, 1},            {"keyed/router_compressed.cer", RPKI_ROUTER, 0}};
    struct file ta = contents(folder, "keyed/ta.cer"), list = contents(folder, "keyed/ta.crl");
    struct file tal = contents(folder, "keyed/ta.tal");
    key_of(ta, 1);
    for (size_t i = 0; i < sizeof members / sizeof *members; i++) {
        struct file it = contents(folder, members[i].name);
        keyed(ta, list, tal, it, members[i].last, members[i].is_used);
        free(it.octets);
    }
    free(ta.octets);
    free(list.octets);
    free(tal.octets);
}

/* ---- tables */

/* what a list and its table answer of each number of two octets */
static void same_answers(struct file list, const struct rpki_serial *table, size_t entries) {
    static uint8_t serials[65536][20], of_list[65536], of_table[65536];
    for (size_t i = 0; i < 65536; i++) serials[i][18] = (uint8_t)(i >> 8), serials[i][19] = (uint8_t)i;
    memset(of_table, 7, sizeof of_table);
    check(rpki_list_ask(list.octets, list.length, serials[0], sizeof serials, of_list, 65536) == RPKI_OK
              && rpki_table_ask(table, entries, serials[0], sizeof serials, of_table, 65536) == RPKI_OK
              && memcmp(of_list, of_table, 65536) == 0,
          "a table answers as its list does");
}

/* the tables of lists, with each room, and what is no table */
static void tables(struct file list, struct file empty, const char *folder) {
    static const char *const names[] = {"ca1_revoking_ca2.crl", "ta.crl", "sharing/ca_revoking.crl"};
    struct rpki_serial table[40];
    uint64_t count = 7;
    for (size_t i = 0; i < 5; i++) {
        struct file it = i < 2 ? (i ? empty : list) : contents(folder, names[i - 2]);
        struct rpki_list read;
        memset(table, 0xa5, sizeof table);
        check(rpki_list_read(it.octets, it.length, &read) == RPKI_OK && read.entries <= 40, "a list is read");
        check(rpki_list_table(it.octets, it.length, table, 40, &count) == RPKI_OK && count == read.entries
                  && (count == 40 || table[count].hint == 0xa5a5a5a5),
              "a table has the entries of its list");
        for (size_t k = 1; k < count; k++)
            check(memcmp(table[k - 1].serial, table[k].serial, 20) <= 0, "a table ascends");
        same_answers(it, table, count);
        for (size_t k = 0; k < count; k++) table[k].hint ^= UINT32_MAX;
        same_answers(it, table, count);
        for (size_t room = 0; room <= count; room++) {
            uint64_t again = 7;
            check(rpki_list_table(it.octets, it.length, room ? table : NULL, room, &again) == RPKI_OK && again == count,
                  "the count of a table doesn't depend on the room");
        }
        check(is_decoding(rpki_list_table(it.octets, it.length - 1, table, 40, &count)) && count == 0, "a cut list has no table");
        if (i >= 2) free(it.octets);
    }
    uint8_t serial[20] = {0}, answer = 7;
    check(rpki_table_ask(NULL, 0, serial, 20, &answer, 1) == RPKI_OK && answer == 0, "an empty table has nothing");
    answer = 7;
    check(rpki_table_ask(table, 1, serial, 19, &answer, 1) == RPKI_BAD_CALL && answer == 7, "a serial number is cut");
    check(rpki_table_ask(table, 1, NULL, 0, NULL, 0) == RPKI_OK, "nothing is asked of a table");
    /* octets that are no table: it ends, and each answer is 0 or 1 */
    for (uint32_t turn = 0; turn < 1000; turn++) {
        uint8_t *octets = (uint8_t *)table;
        for (size_t i = 0; i < sizeof table; i++) octets[i] = (uint8_t)(turn * 31 + i * i * (turn | 1) / 7);
        for (size_t entries = 0; entries <= 40; entries++) {
            memcpy(serial, table[entries % 40].serial, 20);
            check(rpki_table_ask(table, entries, serial, 20, &answer, 1) == RPKI_OK && answer <= 1, "no table, any answer");
        }
    }
}

/* ---- issuing */

static const char repository[] = "rsync://rpki.example.net/repo/ca/";
static const char manifest[] = "rsync://rpki.example.net/repo/ca/ca.mft";
static const char above[] = SITE "anchor.cer", crl[] = SITE "anchor/anchor.crl";
static const struct rpki_ip_range v4_wanted = {{10, 0, 0, 0}, {10, 0, 255, 255}};
static const struct rpki_as_range asn_wanted = {64500, 64500};

/* A CA below the anchor, which has another CA's key: it stands at a place of that one's octets. */
static struct rpki_wanted wanted_below(const struct file *anchor, const struct file *other) {
    const struct rpki_strings alone = strings(anchor->octets, anchor->length, &anchor->length, 1);
    struct rpki_places places = {0};
    check(rpki_certificate_places(other->octets, other->length, &places) == RPKI_OK, "a certificate has a key");
    struct rpki_wanted wanted = {
        .size = sizeof wanted,
        .issuer = about(alone, RPKI_AUTHORITY, &now),
        .key = other->octets + places.key_at,
        .key_length = places.key_length,
        .v4 = {&v4_wanted, 1, RPKI_LISTED},
        .v6 = {NULL, 0, RPKI_MISSING},
        .asn = {&asn_wanted, 1, RPKI_LISTED},
        .uris.repository = (const uint8_t *)repository,
        .uris.repository_length = sizeof repository - 1,
        .uris.manifest = (const uint8_t *)manifest,
        .uris.manifest_length = sizeof manifest - 1,
        .uris.ca_issuer = (const uint8_t *)above,
        .uris.ca_issuer_length = sizeof above - 1,
        .uris.crl = (const uint8_t *)crl,
        .uris.crl_length = sizeof crl - 1,
        .not_before = {2026, 1, 1, 0, 0, 0, 0},
        .not_after = {2036, 1, 1, 0, 0, 0, 0},
        .serial[19] = 5,
        .kind = RPKI_AUTHORITY,
        .overclaim = RPKI_REFUSE,
    };
    return wanted;
}

/* nothing is prepared, for this fault at this place, and nothing is written */
static void unprepared(struct rpki_wanted wanted, uint32_t fault, uint32_t index, const char *what) {
    struct rpki_issued told = {7, 7, 7};
    uint8_t out[] = {7, 7};
    uint32_t answered = rpki_prepare(&wanted, out, sizeof out, &told);
    check(answered == fault && told.fault == fault && told.index == index && told.count == 0, what);
    check(out[0] == 7 && out[1] == 7, "nothing is written where nothing is prepared");
}

/* numbers that are none, of a certificate that is wanted */
static void numbers_wanted(struct rpki_wanted good) {
    static const size_t sizes[] = {0, 1, sizeof good - 8, sizeof good - 1, sizeof good + 1, SIZE_MAX};
    struct rpki_wanted wanted = good;
    for (size_t i = 0; i < sizeof sizes / sizeof *sizes; i++) {
        wanted.size = sizes[i];
        unprepared(wanted, RPKI_BAD_CALL, 0, "a wanted certificate of another size");
    }
    wanted = good, wanted.issuer.size--;
    unprepared(wanted, RPKI_BAD_CALL, 0, "the question about the issuer has another size");
    static const uint32_t none[] = {5, 256, UINT32_MAX};
    for (size_t i = 0; i < 3; i++) {
        wanted = good, wanted.kind = none[i];
        unprepared(wanted, RPKI_BAD_CALL, 0, "no kind has the number");
        wanted = good, wanted.overclaim = none[i];
        unprepared(wanted, RPKI_BAD_CALL, 0, "no policy has the number");
        wanted = good, wanted.v4.state = none[i];
        unprepared(wanted, RPKI_BAD_CALL, 0, "no state has the number");
        wanted = good, wanted.issuer.last = none[i];
        unprepared(wanted, RPKI_BAD_CALL, 0, "the issuer is of no kind");
    }
    wanted = good, wanted.overclaim = 2;
    unprepared(wanted, RPKI_BAD_CALL, 0, "no policy has the number 2");
    wanted = good, wanted.issuer.last = RPKI_END_ENTITY;
    unprepared(wanted, RPKI_BAD_CALL, 0, "an end entity issues nothing");
    wanted = good, wanted.issuer.members.length--;
    unprepared(wanted, RPKI_BAD_CALL, 0, "the lengths of the path don't add up");
    wanted = good, wanted.kind = RPKI_ANCHOR;
    unprepared(wanted, RPKI_BAD_CALL, 0, "a trust anchor has no issuer");
    wanted = good, wanted.issuer.members = strings(NULL, 0, NULL, 0);
    unprepared(wanted, RPKI_BAD_CALL, 0, "a CA has an issuer");
    wanted = good, wanted.not_after.day = 32;
    unprepared(wanted, RPKI_BAD_CALL, 0, "there is no such day");
    wanted = good, memset(wanted.serial, 0, 20);
    unprepared(wanted, RPKI_BAD_CALL, 0, "a serial number is above 0");
    wanted = good, wanted.serial[0] = 128;
    unprepared(wanted, RPKI_BAD_CALL, 0, "a serial number is below 2^159");
}

/* ranges, URIs and keys that are none */
static void values_wanted(struct rpki_wanted good) {
    struct rpki_wanted wanted = good;
    wanted.v4 = (struct rpki_addresses){NULL, 0, RPKI_LISTED};
    unprepared(wanted, RPKI_BAD_CALL, 0, "nothing is listed");
    wanted.v4 = (struct rpki_addresses){&v4_wanted, 1, RPKI_MISSING};
    unprepared(wanted, RPKI_BAD_CALL, 0, "what is missing lists nothing");
    wanted.v4 = (struct rpki_addresses){&v4_wanted, 1, RPKI_INHERITED};
    unprepared(wanted, RPKI_BAD_CALL, 0, "what is inherited lists nothing");
    const struct rpki_ip_range back = {{10, 0, 0, 2}, {10, 0, 0, 1}};
    wanted.v4 = (struct rpki_addresses){&back, 1, RPKI_LISTED};
    unprepared(wanted, RPKI_BAD_CALL, 0, "a range ends before it begins");
    wanted = good, wanted.v6 = (struct rpki_addresses){&back, 1, RPKI_LISTED};
    unprepared(wanted, RPKI_BAD_CALL, 0, "a range of IPv6 ends before it begins");
    const struct rpki_as_range back_asn = {64501, 64500};
    wanted = good, wanted.asn.ranges = &back_asn;
    unprepared(wanted, RPKI_BAD_CALL, 0, "AS numbers end before they begin");
    wanted = good, wanted.uris.manifest_length = 7;
    unprepared(wanted, RPKI_ISSUING_BAD_URI, RPKI_URI_MANIFEST, "the manifest has no URI");
    wanted = good, wanted.uris.notify = wanted.uris.crl, wanted.uris.notify_length = 1;
    unprepared(wanted, RPKI_ISSUING_BAD_URI, RPKI_URI_NOTIFY, "the notification file has no URI");
    wanted = good, wanted.key = NULL, wanted.key_length = 0;
    unprepared(wanted, RPKI_ISSUING_NO_KEY, 1, "NULL of no octets is no key");
    wanted = good, wanted.key_length--;
    unprepared(wanted, RPKI_ISSUING_NO_KEY, 1, "a cut key is none");
    wanted = good, wanted.v4.state = wanted.asn.state = RPKI_MISSING, wanted.v4.count = wanted.asn.count = 0;
    unprepared(wanted, RPKI_ISSUING_UNWRITABLE, 1, "a certificate has resources");
    const struct rpki_ip_range outside = {{172, 16, 0, 0}, {172, 16, 0, 255}};
    wanted = good, wanted.v4.ranges = &outside;
    unprepared(wanted, RPKI_VERIFICATION_OVERCLAIM_V4, 1, "the issuer doesn't hold the addresses");
    wanted = good, wanted.uris.crl_length = 0;
    unprepared(wanted, RPKI_INSPECTION_MISSING_CRL_URI, 1, "there is no URI of the list");
    wanted = good, wanted.issuer.moment.year = 2045;
    unprepared(wanted, RPKI_VERIFICATION_EXPIRED, 0, "the issuer has expired");
}

/* what is prepared, with too little room, just enough and more */
static void prepared(struct rpki_wanted wanted, struct file *made) {
    struct rpki_issued told, again;
    check(rpki_prepare(&wanted, NULL, 0, &told) == RPKI_OK && told.index == 0 && told.count > 300, "a CA is prepared");
    made->length = (size_t)told.count;
    made->octets = malloc(made->length);
    memset(made->octets, 0xa5, made->length);
    check(rpki_prepare(&wanted, made->octets, made->length - 1, &again) == RPKI_OK && again.count == told.count
              && made->octets[made->length - 1] == 0xa5,
          "nothing is written behind the room");
    check(rpki_prepare(&wanted, made->octets, made->length, &again) == RPKI_OK && made->octets[0] == 0x30,
          "all is written where there is room");
    /* what stands behind the first four octets of IPv4, the order and the overlap don't count */
    struct rpki_ip_range parts[2] = {{{10, 0, 128, 0, 9}, {10, 0, 255, 255, 8}}, {{10, 0, 0, 0}, {10, 0, 200, 0}}};
    memset(parts[0].max + 4, 0xff, 12);
    wanted.v4.ranges = parts, wanted.v4.count = 2;
    uint8_t *other = malloc(made->length + 1);
    other[made->length] = 0xa5;
    check(rpki_prepare(&wanted, other, made->length + 1, &again) == RPKI_OK && again.count == told.count
              && memcmp(other, made->octets, made->length) == 0 && other[made->length] == 0xa5,
          "ranges in another order are the same");
    free(other);
}

/* nothing is completed, for this fault at this place */
static void uncompleted(struct rpki_completion completion, uint32_t fault, uint32_t index, const char *what) {
    struct rpki_issued told = {7, 7, 7};
    uint8_t out[] = {7, 7};
    check(rpki_complete(&completion, out, sizeof out, &told) == fault && told.fault == fault && told.index == index
              && told.count == 0 && out[0] == 7,
          what);
}

/* signatures that are none, and what wasn't prepared */
static void completions(struct rpki_wanted wanted, struct file made) {
    uint8_t signature[256] = {0};
    struct rpki_completion good = {
        .size = sizeof good,
        .issuer = wanted.issuer,
        .prepared = made.octets,
        .prepared_length = made.length,
        .signature = signature,
        .signature_length = sizeof signature,
        .kind = RPKI_AUTHORITY,
    };
    struct rpki_completion completion = good;
    uncompleted(good, RPKI_VERIFICATION_BAD_SIGNATURE, 1, "zeros are no signature");
    completion.signature = NULL, completion.signature_length = 0;
    uncompleted(completion, RPKI_VERIFICATION_BAD_SIGNATURE, 1, "NULL of no octets is no signature");
    static const size_t sizes[] = {0, 1, sizeof good - 8, sizeof good - 1, sizeof good + 1, SIZE_MAX};
    for (size_t i = 0; i < sizeof sizes / sizeof *sizes; i++) {
        completion = good, completion.size = sizes[i];
        uncompleted(completion, RPKI_BAD_CALL, 0, "a completion of another size");
    }
    completion = good, completion.kind = 5;
    uncompleted(completion, RPKI_BAD_CALL, 0, "no kind has the number 5");
    completion = good, completion.kind = RPKI_ANCHOR;
    uncompleted(completion, RPKI_BAD_CALL, 0, "a trust anchor has no issuer");
    completion = good, completion.kind = RPKI_END_ENTITY;
    uncompleted(completion, RPKI_INSPECTION_BASIC_CONSTRAINTS_PRESENT, 1, "a CA is no end entity");
    completion = good, completion.prepared = NULL, completion.prepared_length = 0;
    uncompleted(completion, RPKI_ISSUING_NOT_TO_SIGN, 1, "NULL of no octets was prepared by nobody");
    for (size_t length = 0; length < made.length; length += 37) {
        uint8_t *octets = malloc(length > 0 ? length : 1);
        memcpy(octets, made.octets, length);
        completion.prepared = octets, completion.prepared_length = length;
        uncompleted(completion, RPKI_ISSUING_NOT_TO_SIGN, 1, "what is cut short isn't what is to be signed");
        free(octets);
    }
}

/* a CA with the key of its issuer, or of the anchor above that */
static void keys_above(struct file anchor, struct file first) {
    const struct file members[] = {anchor, first};
    size_t parts[2];
    struct file path = joined(members, 2, parts);
    for (size_t i = 0; i < 2; i++) {
        struct rpki_wanted wanted = wanted_below(&anchor, &members[i]);
        wanted.issuer = about(strings(path.octets, path.length, parts, 2), RPKI_AUTHORITY, &now);
        unprepared(wanted, RPKI_ISSUING_UNWRITABLE, 2, "a CA has the key of a CA above it");
    }
    free(path.octets);
}

/* the CRLs of the issuer's path are asked of the new certificate, too: one of its issuer has to be there, and
 * not to revoke its serial number */
static void lists_of_new(struct file anchor, struct file first, struct file second, struct file own,
                         struct file revoking) {
    const struct file members[] = {anchor, first}, lists[] = {own, revoking};
    size_t parts[2], list_parts[2];
    struct file path = joined(members, 2, parts), both = joined(lists, 2, list_parts);
    struct rpki_wanted wanted = wanted_below(&anchor, &second);
    struct rpki_issued told;
    wanted.issuer = about(strings(path.octets, path.length, parts, 2), RPKI_AUTHORITY, &now);
    wanted.v4 = (struct rpki_addresses){NULL, 0, RPKI_INHERITED};
    wanted.asn = (struct rpki_as_numbers){NULL, 0, RPKI_INHERITED};
    wanted.serial[0] = 0, memset(wanted.serial + 1, 0, 19), wanted.serial[19] = 3;
    check(rpki_prepare(&wanted, NULL, 0, &told) == RPKI_OK, "no CRL is asked");
    wanted.issuer.revocation = RPKI_ASK_LISTS;
    wanted.issuer.lists = strings(own.octets, own.length, &own.length, 1);
    unprepared(wanted, RPKI_REVOCATION_NO_CRL, 2, "no CRL of the issuer is given");
    wanted.issuer.lists = strings(both.octets, both.length, list_parts, 2);
    unprepared(wanted, RPKI_REVOCATION_REVOKED, 2, "the issuer's CRL revokes the serial number");
    wanted.serial[19] = 4;
    check(rpki_prepare(&wanted, NULL, 0, &told) == RPKI_OK, "it doesn't revoke another one");
    list_parts[1]--;
    wanted.issuer.lists = strings(both.octets, both.length - 1, list_parts, 2);
    check(is_decoding(rpki_prepare(&wanted, NULL, 0, &told)) && told.index == 3, "a cut CRL is none");
    free(path.octets);
    free(both.octets);
}

static void issuing(struct file anchor, struct file other) {
    struct rpki_wanted wanted = wanted_below(&anchor, &other);
    struct file made;
    numbers_wanted(wanted);
    values_wanted(wanted);
    prepared(wanted, &made);
    completions(wanted, made);
    free(made.octets);
    struct rpki_issued told;
    memset(&wanted, 0, sizeof wanted);
    check(rpki_prepare(&wanted, NULL, 0, &told) == RPKI_BAD_CALL && told.count == 0, "a wanted certificate of zeros");
    struct rpki_completion completion;
    memset(&completion, 0, sizeof completion);
    check(rpki_complete(&completion, NULL, 0, &told) == RPKI_BAD_CALL && told.count == 0, "a completion of zeros");
}

/* ---- issuing lists */

/* the issuer's next list, which revokes 7 */
static const struct rpki_entry seven = {{2026, 3, 1, 0, 0, 0, 0}, {[19] = 7}};
static struct rpki_wanted_list list_below(struct rpki_strings members, struct file previous) {
    struct rpki_wanted_list wanted = {
        .size = sizeof wanted,
        .issuer = about(members, RPKI_AUTHORITY, &now),
        .previous = previous.octets,
        .previous_length = previous.length,
        .revoked = &seven,
        .revoked_count = 1,
        .this_update = now,
        .next_update = {2030, 1, 1, 0, 0, 0, 0},
    };
    return wanted;
}

/* no list is prepared, for this fault at this place, and nothing is written */
static void no_list(struct rpki_wanted_list wanted, uint32_t fault, uint32_t index, const char *what) {
    struct rpki_issued told = {7, 7, 7};
    uint8_t out[] = {7, 7};
    uint32_t answered = rpki_prepare_list(&wanted, out, sizeof out, &told);
    check(answered == fault && told.fault == fault && told.index == index && told.count == 0, what);
    check(out[0] == 7 && out[1] == 7, "nothing is written where no list is prepared");
}

/* what is prepared of the list, in a block of just its length */
static struct file list_prepared(struct rpki_wanted_list wanted, const char *what) {
    struct rpki_issued told, again;
    check(rpki_prepare_list(&wanted, NULL, 0, &told) == RPKI_OK && told.index == 0 && told.count > 100, what);
    struct file made = {malloc((size_t)told.count), (size_t)told.count};
    memset(made.octets, 0xa5, made.length);
    check(rpki_prepare_list(&wanted, made.octets, made.length - 1, &again) == RPKI_OK && again.count == told.count
              && made.octets[made.length - 1] == 0xa5,
          "nothing of a list is written behind the room");
    check(rpki_prepare_list(&wanted, made.octets, made.length, &again) == RPKI_OK && again.count == told.count
              && made.octets[0] == 0x30,
          "all of a list is written where there is room");
    return made;
}

/* how often octets stand in what is prepared, which goes with that */
static size_t times(struct file made, const char *octets, size_t length) {
    size_t found = 0;
    for (size_t i = 0; i + length <= made.length; i++) found += memcmp(made.octets + i, octets, length) == 0;
    return found;
}
static size_t times_once(struct rpki_wanted_list wanted, const char *octets, size_t length, const char *what) {
    struct file made = list_prepared(wanted, what);
    size_t found = times(made, octets, length);
    free(made.octets);
    return found;
}

/* entries of 7 and of 3, as DER (RFC 5280 5.1) */
static const char seven_in[] = "0\022\002\001\007\027\r260301000000Z", three_in[] = "0\022\002\001\003\027\r260201000000Z";

/* the number of the list's extension is one octet (RFC 5280 5.2.3) */
static size_t has_number(struct rpki_wanted_list wanted, char number) {
    const char extension[] = {6, 3, 0x55, 0x1d, 20, 4, 3, 2, 1, number};
    return times_once(wanted, extension, sizeof extension, "the number is told apart");
}

/* numbers that are none, of a list that is wanted, and lists that can't follow */
static void lists_wanted(struct rpki_wanted_list good, struct file other) {
    static const size_t sizes[] = {0, 1, sizeof good - 8, sizeof good - 1, sizeof good + 1, SIZE_MAX};
    struct rpki_wanted_list wanted = good;
    for (size_t i = 0; i < sizeof sizes / sizeof *sizes; i++) {
        wanted.size = sizes[i];
        no_list(wanted, RPKI_BAD_CALL, 0, "a wanted list of another size");
    }
    static const uint32_t none[] = {RPKI_END_ENTITY, RPKI_ROUTER, 5, UINT32_MAX};
    for (size_t i = 0; i < 4; i++) {
        wanted = good, wanted.issuer.last = none[i];
        no_list(wanted, RPKI_BAD_CALL, 0, "an issuer of lists is a CA");
    }
    wanted = good, wanted.issuer.size--;
    no_list(wanted, RPKI_BAD_CALL, 0, "the question about the list's issuer has another size");
    wanted = good, wanted.issuer.members = strings(NULL, 0, NULL, 0);
    no_list(wanted, RPKI_BAD_CALL, 0, "a list has an issuer");
    wanted = good, wanted.issuer.members.length--;
    no_list(wanted, RPKI_BAD_CALL, 0, "the lengths of the list's path don't add up");
    wanted = good, wanted.this_update.month = 13;
    no_list(wanted, RPKI_BAD_CALL, 0, "there is no such month");
    wanted = good, wanted.next_update.day = 0;
    no_list(wanted, RPKI_BAD_CALL, 0, "no month has a day 0");
    struct rpki_entry entries[] = {seven, seven};
    entries[1].date.hour = 24;
    wanted = good, wanted.revoked = entries, wanted.revoked_count = 2;
    no_list(wanted, RPKI_BAD_CALL, 0, "no day has an hour 24");
    wanted = good, wanted.issuer.moment.year = 2045;
    no_list(wanted, RPKI_VERIFICATION_EXPIRED, 0, "the list's issuer has expired");
    wanted = good, wanted.previous_length--;
    no_list(wanted, RPKI_ISSUING_OTHER_LIST, 1, "a cut list is none");
    struct file more = {malloc(good.previous_length + 1), good.previous_length + 1};
    memcpy(more.octets, good.previous, good.previous_length);
    more.octets[good.previous_length] = 0;
    wanted = good, wanted.previous = more.octets, wanted.previous_length = more.length;
    no_list(wanted, RPKI_ISSUING_OTHER_LIST, 1, "nothing stands behind the list before");
    free(more.octets);
    wanted = good, wanted.previous = other.octets, wanted.previous_length = other.length;
    no_list(wanted, RPKI_ISSUING_OTHER_LIST, 1, "the list of another issuer");
    wanted = good, wanted.number[19] = 1;
    no_list(wanted, RPKI_ISSUING_NUMBER, 1, "the list before has the number 1");
    wanted = good, wanted.number[0] = 128;
    no_list(wanted, RPKI_ISSUING_LONG_NUMBER, 1, "2^159 has 21 octets");
    wanted = good, memset(wanted.number, 0xff, 20);
    no_list(wanted, RPKI_ISSUING_LONG_NUMBER, 1, "2^160 - 1 has 21 octets");
    wanted = good, wanted.next_update = (struct rpki_time){2026, 5, 31, 23, 59, 59, 0};
    no_list(wanted, RPKI_ISSUING_UPDATE_ORDER, 1, "the next update is a second before this one");
    wanted.this_update.year = 2025;
    no_list(wanted, RPKI_REVOCATION_STALE, 1, "the next update is a second before the moment");
}

/* which entries and which number lists have */
static void entries_wanted(struct rpki_wanted_list good, struct rpki_wanted_list behind) {
    check(times_once(good, seven_in, 20, "the anchor's next list") == 1, "7 is revoked");
    check(has_number(good, 2) == 1, "behind the number 1 is 2");
    struct rpki_wanted_list wanted = good;
    wanted.number[19] = 9;
    check(has_number(wanted, 9) == 1, "a number may be chosen");
    wanted = good, wanted.previous = NULL, wanted.previous_length = 0;
    check(has_number(wanted, 1) == 1, "a first list has the number 1");
    wanted = good, wanted.number[0] = 127, memset(wanted.number + 1, 0xff, 19);
    free(list_prepared(wanted, "the greatest number").octets);
    wanted = good, wanted.revoked = NULL, wanted.revoked_count = 0;
    check(times_once(wanted, "\027\r260301000000Z", 15, "nothing more is revoked") == 0, "NULL of no entries revokes nothing");
    wanted = good, wanted.next_update = now;
    free(list_prepared(wanted, "a list that is current for a second").octets);
    struct rpki_entry entries[] = {seven, {{2026, 4, 1, 0, 0, 0, 9}, {[19] = 7}}, {{2026, 4, 1, 0, 0, 0, 0}, {0}}};
    memset(entries[2].serial, 0xff, 20);
    wanted = good, wanted.revoked = entries, wanted.revoked_count = 3;
    check(times_once(wanted, seven_in, 20, "7 twice") == 1 && times_once(wanted, "260401000000Z", 13, "7 twice") == 1,
          "the first of two entries with one serial number counts");
    check(times_once(behind, three_in, 20, "behind a list that revokes 3") == 1 && times_once(behind, seven_in, 20, "7 too") == 1
              && has_number(behind, 3) == 1,
          "what was revoked stays");
    entries[0].serial[19] = 3;
    behind.revoked = entries, behind.revoked_count = 1;
    check(times_once(behind, three_in, 20, "3 again") == 1 && times_once(behind, "260301000000Z", 13, "3 again") == 0,
          "what was revoked keeps its date");
}

/* no list is completed, for this fault at this place */
static void no_completed(struct rpki_list_completion completion, uint32_t fault, uint32_t index, const char *what) {
    struct rpki_issued told = {7, 7, 7};
    uint8_t out[] = {7, 7};
    check(rpki_complete_list(&completion, out, sizeof out, &told) == fault && told.fault == fault && told.index == index
              && told.count == 0 && out[0] == 7,
          what);
}

/* signatures that are none, and what wasn't prepared of a list */
static void list_completions(struct rpki_wanted_list wanted, struct rpki_strings longer) {
    uint8_t signature[256] = {0};
    struct file made = list_prepared(wanted, "what is to be completed");
    struct rpki_list_completion good = {
        .size = sizeof good,
        .issuer = wanted.issuer,
        .prepared = made.octets,
        .prepared_length = made.length,
        .signature = signature,
        .signature_length = sizeof signature,
    };
    struct rpki_list_completion completion = good;
    no_completed(good, RPKI_REVOCATION_BAD_SIGNATURE, 1, "zeros sign no list");
    completion.signature = NULL, completion.signature_length = 0;
    no_completed(completion, RPKI_REVOCATION_BAD_SIGNATURE, 1, "NULL of no octets signs no list");
    static const size_t sizes[] = {0, 1, sizeof good - 8, sizeof good - 1, sizeof good + 1, sizeof(struct rpki_completion), SIZE_MAX};
    for (size_t i = 0; i < sizeof sizes / sizeof *sizes; i++) {
        completion = good, completion.size = sizes[i];
        no_completed(completion, RPKI_BAD_CALL, 0, "a list's completion of another size");
    }
    completion = good, completion.issuer.last = RPKI_END_ENTITY;
    no_completed(completion, RPKI_BAD_CALL, 0, "an end entity completes no list");
    completion = good, completion.issuer.members = longer;
    no_completed(completion, RPKI_OTHER_NAME, 2, "the list is the anchor's");
    completion = good, completion.issuer.moment.year = 2030;
    no_completed(completion, RPKI_REVOCATION_STALE, 1, "the list is stale in the meantime");
    completion = good, completion.prepared = NULL, completion.prepared_length = 0;
    no_completed(completion, RPKI_ISSUING_NOT_TO_SIGN, 1, "NULL of no octets is no list's data");
    for (size_t length = 0; length < made.length; length += 7) {
        uint8_t *octets = malloc(length > 0 ? length : 1);
        memcpy(octets, made.octets, length);
        completion.prepared = octets, completion.prepared_length = length;
        no_completed(completion, RPKI_ISSUING_NOT_TO_SIGN, 1, "what is cut short isn't a list's data");
        free(octets);
    }
    struct file more = {malloc(made.length + 1), made.length + 1};
    memcpy(more.octets, made.octets, made.length);
    more.octets[made.length] = 0;
    completion = good, completion.prepared = more.octets, completion.prepared_length = more.length;
    no_completed(completion, RPKI_ISSUING_OTHER_OCTETS, 1, "nothing stands behind what is signed");
    free(more.octets);
    free(made.octets);
}

/* a number from a row that goes by all numbers below 2^64 but 0 (Marsaglia, xorshift) */
static uint64_t next_number(void) {
    static uint64_t state = 88172645463325252u;
    state ^= state << 13;
    state ^= state >> 7;
    return state ^= state << 17;
}

/* a list that revokes `count` serial numbers of 20, 10 and 1 octets, with a signature of zeros */
static struct file long_list(struct rpki_wanted_list wanted, struct rpki_entry *entries, size_t count) {
    static const uint8_t behind[] = {0x30, 13,   6, 9, 0x2a, 0x86, 0x48, 0x86, 0xf7, 0x0d, 1,
                                     1,    0x0b, 5, 0, 3,    0x82, 1,    1,    0};
    for (size_t i = 0; i < count; i++) {
        memset(&entries[i], 0, sizeof entries[i]);
        entries[i].date = now;
        for (size_t k = i % 3 == 0 ? 0 : i % 3 == 1 ? 10 : 19; k < 20; k++) entries[i].serial[k] = (uint8_t)(next_number() >> 40);
        entries[i].serial[0] &= 0x7f;
        entries[i].serial[19] |= 1;
    }
    wanted.revoked = entries, wanted.revoked_count = count;
    struct file prepared = list_prepared(wanted, "a long list");
    size_t content = prepared.length + sizeof behind + 256;
    struct file it = {malloc(content + 5), content + 5};
    const uint8_t head[] = {0x30, 0x83, (uint8_t)(content >> 16), (uint8_t)(content >> 8), (uint8_t)content};
    memcpy(it.octets, head, 5);
    memcpy(it.octets + 5, prepared.octets, prepared.length);
    memcpy(it.octets + 5 + prepared.length, behind, sizeof behind);
    memset(it.octets + it.length - 256, 0, 256);
    free(prepared.octets);
    return it;
}

/* a long list and its table answer alike: of what is on it, of its neighbours, and of other numbers */
static void long_tables(struct rpki_wanted_list wanted) {
    enum { COUNT = 3000 };
    struct rpki_entry *entries = malloc(COUNT * sizeof *entries);
    struct file list = long_list(wanted, entries, COUNT);
    uint64_t count = 0;
    check(rpki_list_table(list.octets, list.length, NULL, 0, &count) == RPKI_OK && count > 2000, "a long list has a table");
    struct rpki_serial *table = malloc(count * sizeof *table);
    check(rpki_list_table(list.octets, list.length, table, count, &count) == RPKI_OK, "it is written");
    uint8_t(*serials)[20] = malloc(4 * COUNT * 20), *of_list = malloc(4 * COUNT), *of_table = malloc(4 * COUNT);
    for (size_t i = 0; i < COUNT; i++) {
        for (size_t k = 0; k < 4; k++) memcpy(serials[4 * i + k], entries[i].serial, 20);
        serials[4 * i + 1][19]--;
        serials[4 * i + 2][19]++;
        for (size_t k = 0; k < 20; k++) serials[4 * i + 3][k] = (uint8_t)(next_number() >> 40);
    }
    check(rpki_list_ask(list.octets, list.length, serials[0], 4 * COUNT * 20, of_list, 4 * COUNT) == RPKI_OK
              && rpki_table_ask(table, count, serials[0], 4 * COUNT * 20, of_table, 4 * COUNT) == RPKI_OK
              && memcmp(of_list, of_table, 4 * COUNT) == 0,
          "a long table answers as its list does");
    size_t wrong = 0;
    for (size_t i = 0; i < COUNT; i++) wrong += of_table[4 * i] != 1 || of_table[4 * i + 1] == 1;
    check(wrong == 0, "what is on the list is in its table, and even numbers aren't");
    for (size_t i = 0; i < count; i++) table[i].hint = (uint32_t)next_number();
    check(rpki_table_ask(table, count, serials[0], 4 * COUNT * 20, of_table, 4 * COUNT) == RPKI_OK
              && memcmp(of_list, of_table, 4 * COUNT) == 0,
          "no hint changes an answer");
    free(entries);
    free(list.octets);
    free(table);
    free(serials);
    free(of_list);
    free(of_table);
}

/* how many octets a value takes whose length has at most three */
static size_t whole(const uint8_t *at) {
    return at[1] < 128 ? 2u + at[1] : at[1] == 0x81 ? 3u + at[2] : 4u + (size_t)at[2] * 256 + at[3];
}

/* this list with so many entries in place of its own, at least 2,850, under the same signature */
static struct file with_entries(struct file list, size_t count) {
    const uint8_t *data = list.octets + (list.octets[1] == 0x82 ? 4 : 3), *from = data + (data[1] == 0x82 ? 4 : 3);
    const uint8_t *to = from, *end = data + whole(data);
    for (size_t i = 0; i < 5; i++) to += whole(to);
    const uint8_t *more = *to == 0x30 ? to + whole(to) : to;
    const size_t before = (size_t)(to - from), behind = (size_t)(end - more), own = 23 * count;
    const size_t signature = list.length - (size_t)(end - list.octets), inner = before + 5 + own + behind;
    const size_t sizes[] = {inner + 5 + signature, inner, own};
    struct file it = {malloc(sizes[0] + 5), 0};
    for (size_t i = 0; i < 3; i++) {
        const uint8_t head[] = {0x30, 0x83, (uint8_t)(sizes[i] >> 16), (uint8_t)(sizes[i] >> 8), (uint8_t)sizes[i]};
        put(it.octets + it.length, (struct file){(uint8_t *)head, 5});
        it.length += 5;
        if (i == 1) put(it.octets + it.length, (struct file){(uint8_t *)from, before}), it.length += before;
    }
    for (size_t i = 0; i < count; i++, it.length += 23) {
        const uint64_t serial = next_number();
        const uint8_t entry[] = {0x30, 21, 2, 4, (uint8_t)(64 | (serial >> 24 & 63)), (uint8_t)(serial >> 16), (uint8_t)(serial >> 8),
                                 (uint8_t)serial, 0x17, 13, '2', '6', '0', '2', '0', '1', '0', '0', '0', '0', '0', '0', 'Z'};
        put(it.octets + it.length, (struct file){(uint8_t *)entry, 23});
    }
    put(it.octets + it.length, (struct file){(uint8_t *)more, behind + signature});
    it.length += behind + signature;
    return it;
}

/* a CRL that names no key of the path is read up to its extensions: beside one of 100,000 entries a path
 * takes less time than that CRL takes to decode */
static void lists_of_others(struct file anchor, struct file first, struct file own, struct file other) {
    enum { COUNT = 100000 };
    const struct file path[] = {anchor, first}, lists[] = {own, with_entries(other, COUNT)};
    size_t lengths[2], parts[2];
    const struct file both = joined(path, 2, lengths), all = joined(lists, 2, parts);
    struct rpki_verdict out;
    struct rpki_list read;
    clock_t judged = 0, decoded = 0;
    for (size_t i = 0; i < 12; i++) {
        const clock_t begin = clock();
        check(judge_with(strings(all.octets, all.length, parts, 2), strings(both.octets, both.length, lengths, 2), RPKI_AUTHORITY, &now, &out)
                  == RPKI_OK,
              "a long list of another CA");
        const clock_t between = clock();
        check(rpki_list_read(lists[1].octets, lists[1].length, &read) == RPKI_OK && read.entries == COUNT, "it is a list");
        const clock_t end = clock();
        if (i == 0 || between - begin < judged) judged = between - begin;
        if (i == 0 || end - between < decoded) decoded = end - between;
    }
    if (2 * judged >= decoded) printf("the path: %ld, the list: %ld\n", (long)judged, (long)decoded);
    check(2 * judged < decoded, "the entries of a CRL of another CA aren't read");
    free(both.octets);
    free(all.octets);
    free(lists[1].octets);
}

/* the first entry of such a list has no serial number */
static void damage(struct file list) {
    const uint8_t begin[] = {0x30, 21, 2, 4};
    for (size_t at = 0; at + sizeof begin <= list.length; at++) {
        if (memcmp(list.octets + at, begin, sizeof begin) == 0) {
            list.octets[at + 2] = 4;
            return;
        }
    }
}

/* of a list that names no key of the path the entries aren't looked at; of others they are */
static void foreign(struct file anchor, struct file first, struct file own, struct file other) {
    const struct file path[] = {anchor, first};
    struct file theirs = with_entries(other, 3000), ours = with_entries(own, 3000);
    struct rpki_verdict out;
    struct rpki_list read;
    check(rpki_list_read(theirs.octets, theirs.length, &read) == RPKI_OK && rpki_list_read(ours.octets, ours.length, &read) == RPKI_OK,
          "lists of 3,000 entries");
    damage(theirs);
    damage(ours);
    check(is_decoding(rpki_list_read(theirs.octets, theirs.length, &read)), "the entries of a list are damaged");
    check(listed((struct file[]){own, theirs}, 2, path, 2, RPKI_AUTHORITY, &now, &out) == RPKI_OK && out.v4 == 2,
          "damaged entries of a list that names no key of the path");
    check(listed(&theirs, 1, path, 2, RPKI_AUTHORITY, &now, &out) == RPKI_REVOCATION_NO_CRL && out.index == 1,
          "such a list alone");
    check(is_decoding(listed((struct file[]){own, ours}, 2, path, 2, RPKI_AUTHORITY, &now, &out)) && out.index == 3,
          "damaged entries of the issuer's list");
    const struct file cut = {theirs.octets, theirs.length - 1};
    check(is_decoding(listed((struct file[]){own, cut}, 2, path, 2, RPKI_AUTHORITY, &now, &out)) && out.index == 3,
          "a cut list that names no key of the path");
    struct rpki_wanted wanted = wanted_below(&anchor, &first);
    struct rpki_issued told;
    size_t parts[2];
    struct file lists = joined((struct file[]){own, theirs}, 2, parts);
    wanted.issuer.revocation = RPKI_ASK_LISTS;
    wanted.issuer.lists = strings(lists.octets, lists.length, parts, 2);
    check(rpki_prepare(&wanted, NULL, 0, &told) == RPKI_OK, "damaged entries of another CA's list, where a certificate is issued");
    free(lists.octets);
    lists = joined((struct file[]){own, ours}, 2, parts);
    wanted.issuer.lists = strings(lists.octets, lists.length, parts, 2);
    check(is_decoding(rpki_prepare(&wanted, NULL, 0, &told)) && told.index == 2, "damaged entries of the issuer's list, where one is issued");
    free(lists.octets);
    theirs.octets[5 + 5 + 2] = 0;
    check(is_decoding(listed((struct file[]){own, theirs}, 2, path, 2, RPKI_AUTHORITY, &now, &out)) && out.index == 3,
          "a damaged head of such a list");
    free(theirs.octets);
    free(ours.octets);
}

static void issuing_lists(struct file anchor, struct file first, struct file empty, struct file list) {
    const struct rpki_strings alone = strings(anchor.octets, anchor.length, &anchor.length, 1);
    struct file both = {malloc(anchor.length + first.length), anchor.length + first.length};
    memcpy(both.octets, anchor.octets, anchor.length);
    memcpy(both.octets + anchor.length, first.octets, first.length);
    const size_t parts[] = {anchor.length, first.length};
    const struct rpki_strings path = strings(both.octets, both.length, parts, 2);
    lists_wanted(list_below(alone, empty), list);
    entries_wanted(list_below(alone, empty), list_below(path, list));
    list_completions(list_below(alone, empty), path);
    long_tables(list_below(alone, empty));
    struct rpki_issued told;
    struct rpki_wanted_list wanted;
    memset(&wanted, 0, sizeof wanted);
    check(rpki_prepare_list(&wanted, NULL, 0, &told) == RPKI_BAD_CALL && told.count == 0, "a wanted list of zeros");
    struct rpki_list_completion completion;
    memset(&completion, 0, sizeof completion);
    check(rpki_complete_list(&completion, NULL, 0, &told) == RPKI_BAD_CALL && told.count == 0, "a list's completion of zeros");
    free(both.octets);
}

int main(int count, char **words) {
    if (count != 3) return 2;
    struct file anchor = contents(words[1], "anchor.cer"), first = contents(words[1], "first.cer");
    struct file second = contents(words[1], "second.cer"), object = contents(words[1], "object.cer");
    struct file list = contents(words[1], "revoked.crl"), empty = contents(words[1], "first.crl");
    check(rpki_abi_version() == RPKI_ABI, "the library fits the header");
    cut_short(first, list);
    more(first);
    rooms(first, list);
    stops(first, list);
    members(anchor);
    numbers();
    texts();
    initialisers();
    kinds(anchor, first, object);
    fields(anchor, second, object);
    ranges(anchor, second, object);
    uris(anchor, first, object);
    names(anchor, first, empty);
    lists(empty, list, first);
    moments(anchor);
    lengths(anchor, first);
    held(anchor, first);
    places(anchor, list);
    places(first, list);
    joins(anchor, first);
    const char *names_of[] = {"router.cer", "odd_inherit_all.cer", "odd_name_utf8.cer", "wide/ta.cer",
                              "keyed/ee_1024.cer"};
    for (size_t i = 0; i < sizeof names_of / sizeof *names_of; i++) all_fields_of(words[2], names_of[i]);
    all_fields(anchor);
    all_fields(first);
    all_fields(second);
    all_fields(object);
    choices(anchor, empty);
    asked(anchor, first, empty, list);
    behind(anchor, first, empty, list);
    orders(words[2]);
    routers(words[2]);
    no_router(anchor, first, second, empty);
    chains(words[2], list);
    judged_names(words[2]);
    named_lists(words[2]);
    locators(words[2], list);
    folders(words[1]);
    folder_names(words[2]);
    without_verdict(words[2]);
    keys(words[2]);
    tables(list, empty, words[2]);
    issuing(anchor, first);
    keys_above(anchor, first);
    lists_of_new(anchor, first, second, empty, list);
    issuing_lists(anchor, first, empty, list);
    struct file object_list = contents(words[1], "object.crl");
    lists_of_others(anchor, first, empty, object_list);
    foreign(anchor, first, empty, object_list);
    free(object_list.octets);
    const struct file files[] = {anchor, first, second, object, list, empty};
    for (size_t i = 0; i < sizeof files / sizeof *files; i++) free(files[i].octets);
    printf("%u passed, %u failed\n", passed, failed);
    return failed > 0;
}
