/* Prepares and completes a CA's certificate, and a CA's revocation list, where the issuer's key lies
 * elsewhere.
 *
 * usage: issue prepare KEY.der [MEMBER.cer..] > TBS
 *        issue complete TBS SIGNATURE [MEMBER.cer..] > CERTIFICATE
 *        issue prepare-list PREVIOUS.crl SERIAL MEMBER.cer.. > TBS
 *        issue complete-list TBS SIGNATURE MEMBER.cer.. > LIST
 *
 * KEY.der is the subject's SubjectPublicKeyInfo. The last of the members issues, and the first is
 * the trust anchor; without a member it is a trust anchor itself. PREVIOUS.crl is the issuer's list
 * before, and empty where there was none; SERIAL is the number of a certificate that is revoked now,
 * and 0 where there is none. What is written first is to be signed by the issuer's key (of a trust
 * anchor its own), as openssl does it:
 *
 *     openssl dgst -sha256 -sign ca.key -out SIGNATURE TBS
 *
 * Ends with 0 where the octets are written, with 1 where there is a fault, and with 2 where the
 * words or a file are not as above. */
#include "rpki.h"
#include <stdio.h>
#include <stdlib.h>
#include <string.h>
#include <time.h>

#define MOST (1 << 20) /* octets, of all files together and of what is written */

static uint8_t octets[MOST], out[MOST];
static size_t used;

/* A file, behind those before. */
static size_t append(const char *name) {
    FILE *file = fopen(name, "rb");
    if (file == NULL) {
        perror(name);
        exit(2);
    }
    size_t length = fread(octets + used, 1, MOST - used, file);
    if (ferror(file)) { /* of a folder too */
        perror(name);
        exit(2);
    }
    if (fgetc(file) != EOF) {
        fprintf(stderr, "issue: %s: the files have more than 1 MiB\n", name);
        exit(2);
    }
    fclose(file);
    used += length;
    return length;
}

/* The moment so many years from now. */
static struct rpki_time moment(int years) {
    time_t seconds = time(NULL);
    struct tm *it = gmtime(&seconds);
    struct rpki_time moment = {(uint16_t)(it->tm_year + 1900 + years), (uint8_t)(it->tm_mon + 1), 1, 0, 0, 0, 0};
    return moment;
}

/* The path of the issuer, which the library judges. Revocation isn't asked here. */
static struct rpki_question issuer(char **members, size_t count, size_t *lengths) {
    size_t begin = used;
    for (size_t i = 0; i < count; i++) lengths[i] = append(members[i]);
    struct rpki_question question = {
        .size = sizeof question,
        .members = {octets + begin, used - begin, lengths, count},
        .moment = moment(0),
        .last = count > 0 ? RPKI_AUTHORITY : RPKI_ANCHOR,
        .strict = 1,
        .revocation = RPKI_ASK_NOBODY,
        .anchor = RPKI_AS_GIVEN,
    };
    return question;
}

/* A trust anchor holds 10.0.0.0/8 and AS64496 to AS64511, and each CA below it a part of them. */
static uint32_t prepare(char **words, char **members, size_t count, size_t *lengths, struct rpki_issued *told) {
    static const struct rpki_ip_range v4[] = {{{10, 0}, {10, 255, 255, 255}}, {{10, 1}, {10, 1, 255, 255}}};
    static const struct rpki_as_range asn[] = {{64496, 64511}, {64496, 64496}};
    static const char repository[] = "rsync://rpki.example.net/repo/ca/";
    static const char manifest[] = "rsync://rpki.example.net/repo/ca/ca.mft";
    static const char above[] = "rsync://rpki.example.net/repo/above.cer", crl[] = "rsync://rpki.example.net/repo/above.crl";
    int below = count > 0;
    struct rpki_wanted wanted = {
        .size = sizeof wanted,
        .key = octets,
        .key_length = append(words[0]),
        .v4 = {v4 + below, 1, RPKI_LISTED},
        .asn = {asn + below, 1, RPKI_LISTED},
        .uris.repository = (const uint8_t *)repository,
        .uris.repository_length = strlen(repository),
        .uris.manifest = (const uint8_t *)manifest,
        .uris.manifest_length = strlen(manifest),
        .uris.ca_issuer = (const uint8_t *)above,
        .uris.ca_issuer_length = below ? strlen(above) : 0,
        .uris.crl = (const uint8_t *)crl,
        .uris.crl_length = below ? strlen(crl) : 0,
        .not_before = moment(0),
        .not_after = moment(1),
        .serial[19] = (uint8_t)(count + 1),
        .kind = below ? RPKI_AUTHORITY : RPKI_ANCHOR,
        .overclaim = RPKI_REFUSE,
    };
    wanted.issuer = issuer(members, count, lengths);
    return rpki_prepare(&wanted, out, MOST, told);
}

static uint32_t complete(char **files, char **members, size_t count, size_t *lengths, struct rpki_issued *told) {
    struct rpki_completion completion = {
        .size = sizeof completion,
        .prepared = octets,
        .prepared_length = append(files[0]),
        .kind = count > 0 ? RPKI_AUTHORITY : RPKI_ANCHOR,
    };
    completion.signature = octets + used;
    completion.signature_length = append(files[1]);
    completion.issuer = issuer(members, count, lengths);
    return rpki_complete(&completion, out, MOST, told);
}

/* The issuer's next list, which revokes what the list before does and one certificate more. */
static uint32_t prepare_list(char **words, char **members, size_t count, size_t *lengths, struct rpki_issued *told) {
    unsigned long long serial = strtoull(words[1], NULL, 10);
    struct rpki_entry revoked = {.date = moment(0)};
    for (int i = 0; i < 8; i++) revoked.serial[19 - i] = (uint8_t)(serial >> 8 * i);
    struct rpki_wanted_list wanted = {
        .size = sizeof wanted,
        .previous = octets,
        .previous_length = append(words[0]),
        .revoked = &revoked,
        .revoked_count = serial > 0,
        .this_update = moment(0),
        .next_update = moment(1),
    };
    wanted.issuer = issuer(members, count, lengths);
    return rpki_prepare_list(&wanted, out, MOST, told);
}

static uint32_t complete_list(char **files, char **members, size_t count, size_t *lengths, struct rpki_issued *told) {
    struct rpki_list_completion completion = {
        .size = sizeof completion,
        .prepared = octets,
        .prepared_length = append(files[0]),
    };
    completion.signature = octets + used;
    completion.signature_length = append(files[1]);
    completion.issuer = issuer(members, count, lengths);
    return rpki_complete_list(&completion, out, MOST, told);
}

/* What words ask for: how many stand before the members, and who answers. */
static const struct errand {
    const char *name;
    int words;
    uint32_t (*answer)(char **words, char **members, size_t count, size_t *lengths, struct rpki_issued *told);
} errands[] = {
    {"prepare", 1, prepare},
    {"complete", 2, complete},
    {"prepare-list", 2, prepare_list},
    {"complete-list", 2, complete_list},
};

/* What the first of the words names, or NULL. */
static const struct errand *errand_of(int count, char **words) {
    for (size_t i = 0; i < sizeof errands / sizeof *errands; i++) {
        if (count > 1 + errands[i].words && strcmp(words[1], errands[i].name) == 0) return errands + i;
    }
    return NULL;
}

/* Says why there are no octets, as the library names and words it. */
static int refuse(struct rpki_issued told) {
    uint8_t name[64], sentence[128];
    uint64_t n, s;
    rpki_fault_name(told.fault, name, sizeof name, &n);
    rpki_fault_sentence(told.fault, sentence, sizeof sentence, &s);
    fprintf(stderr, "issue: place %u, fault %u, %.*s: %.*s\n", told.index, told.fault, (int)n, (const char *)name, (int)s,
            (const char *)sentence);
    return 1;
}

int main(int count, char **words) {
    size_t lengths[64];
    struct rpki_issued told;
    const struct errand *errand = errand_of(count, words);
    if (errand == NULL || count - 2 - errand->words > 64) {
        fprintf(stderr, "usage: issue prepare KEY.der [MEMBER.cer..]\n"
                        "       issue complete TBS SIGNATURE [MEMBER.cer..]\n"
                        "       issue prepare-list PREVIOUS.crl SERIAL MEMBER.cer..\n"
                        "       issue complete-list TBS SIGNATURE MEMBER.cer..\n");
        return 2;
    }
    if (rpki_abi_version() != RPKI_ABI) {
        fprintf(stderr, "issue: the library isn't of the version of this program\n");
        return 2;
    }
    char **members = words + 2 + errand->words;
    uint32_t fault = errand->answer(words + 2, members, (size_t)(count - 2 - errand->words), lengths, &told);
    if (fault != RPKI_OK) return refuse(told);
    if (told.count > MOST) return 2;
    return fwrite(out, 1, (size_t)told.count, stdout) == told.count && fflush(stdout) == 0 ? 0 : 2;
}
