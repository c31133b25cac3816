/* What tests/hostile.c calls the library with: files with something wrong, and questions about them. */
#ifndef HOSTILE_INPUTS_H
#define HOSTILE_INPUTS_H

#include "hostile_memory.h"
#include "rpki.h"

/* Gives the name of each call to a macro X. */
#define EACH_CALL(X)                                                                                \
    X(abi_version) X(version) X(fault_name) X(fault_sentence) X(certificate_read)                   \
    X(certificate_inspect) X(certificate_addresses) X(certificate_as_numbers) X(certificate_uri)    \
    X(certificate_name) X(certificate_key) X(fields_of_certificate) X(certificate_places)           \
    X(list_read) X(list_entries) X(list_issuer) X(list_ask) X(list_table) X(table_ask) X(stop_text) \
    X(path_validate) X(path_names) X(folder_judge) X(prepare) X(complete) X(prepare_list)           \
    X(complete_list)
#define NUMBER(name) name,
#define NAME(name) "rpki_" #name,
enum { EACH_CALL(NUMBER) CALLS };

static unsigned which; /* is the call */

/* The arguments of a call, as far as it has them. */
static struct {
    const void *octets, *more, *question;
    size_t length, more_length;
    uint32_t number, other;
    void *out, *told;
    size_t room;
    uint64_t *count;
    struct rpki_room *ranges;
} a;

/* ---- files */

struct file {
    uint8_t *octets;
    size_t length, folder; /* the folder by the number of its first file */
    int is_certificate, is_list;
    struct rpki_certificate certificate;
    struct rpki_list list;
};
static struct file *files;
static size_t files_count;
static uint8_t work[SLOT], joined[SLOT];

static void read_file(char **paths, size_t i) {
    struct file *it = &files[i];
    FILE *from = fopen(paths[i], "rb");
    if (from == NULL) {
        perror(paths[i]);
        exit(2);
    }
    it->length = fread(work, 1, 1 << 18, from);
    fclose(from);
    it->octets = malloc(it->length + 1);
    memcpy(it->octets, work, it->length);
    const char *name = strrchr(paths[i], '/');
    size_t folder = name == NULL ? 0 : (size_t)(name - paths[i] + 1);
    for (it->folder = i; it->folder > 0 && strncmp(paths[it->folder - 1], paths[i], folder) == 0;)
        it->folder--;
    it->is_certificate = rpki_certificate_read(it->octets, it->length, &it->certificate) == RPKI_OK;
    it->is_list = rpki_list_read(it->octets, it->length, &it->list) == RPKI_OK;
}

/* A file of a sort: 0 for any, 1 for certificates, 2 for lists; now and then of another. */
static struct file *any_file(int sort) {
    struct file *it = &files[below(files_count)];
    for (int i = 0; i < 400 && !amiss(40); i++, it = &files[below(files_count)])
        if (it->length < (one_in(50) ? SLOT : 5000) && (sort != 1 || it->is_certificate) &&
            (sort != 2 || it->is_list))
            break;
    return it;
}

/* Sets a length in DER to a giant, or to another form. */
static void giant(uint8_t *octets, size_t length) {
    static const uint8_t forms[][9] = {{0x84, 255, 255, 255, 255},
                                       {0x88, 255, 255, 255, 255, 255, 255, 255, 255},
                                       {0x88, 127, 255, 255, 255, 255, 255, 255, 255},
                                       {0x80},
                                       {0x82, 255, 255},
                                       {0x81, 1},
                                       {0xff},
                                       {0x84, 128},
                                       {0x83, 16}};
    for (int i = 0; i < 200 && length > 12; i++) {
        size_t at = below(one_in(2) && length > 200 ? 200 : length - 10);
        if (strchr("\x30\x02\x03\x04\x06\x31\xa0\xa1\xa3\x80\x86", octets[at]) == NULL || octets[at] == 0)
            continue;
        memcpy(octets + at + 1, forms[below(9)], 1 + below(9));
        return;
    }
}

/* Writes a file's octets, mostly with something wrong, and tells how many they are. */
static size_t spoil(const struct file *it, uint8_t *to, int whole) {
    size_t length = it->length, at = below(length + 1), some = 1 + below(8);
    memcpy(to, it->octets, length);
    if ((int)below(16) < whole || !amiss(1)) return length;
    switch (below(9)) {
    case 0: return at;
    case 1: return one_in(3) ? 0 : length - (length > 0);
    case 2: memmove(to + at + some, to + at, length - at), garbage(to + at, some); return length + some;
    case 3:
        if (at + some <= length) memmove(to + at, to + at + some, length - at - some), length -= some;
        return length;
    case 4: giant(to, length); return length;
    case 5: garbage(to, length = below(300)); return length;
    case 6: garbage(to + length, some); return length + some;
    default:
        while (some-- > 0 && length > 0) to[below(length)] ^= (uint8_t)(1 << below(8));
        return length;
    }
}

/* ---- numbers, moments, strings, questions */

/* Whether the header says that the answer is RPKI_BAD_CALL; whether it says that it isn't RPKI_OK. */
static int is_bad, is_wrong;

/* A number of an enum, or one behind its last. */
static uint32_t number_to(uint32_t last) {
    if (!amiss(24)) return (uint32_t)below(last + 1);
    is_bad = 1;
    return one_in(2) ? last + 1 : last + 1 + (uint32_t)below(UINT32_MAX - last);
}
static size_t size_of(size_t size) {
    if (!amiss(24)) return size;
    is_bad = 1;
    return one_in(4) ? SIZE_MAX : one_in(3) ? size + 1 + below(64) : below(size);
}
static struct rpki_time moment(void) {
    static const uint8_t days[] = {31, 28, 31, 30, 31, 30, 31, 31, 30, 31, 30, 31};
    struct rpki_time it = {(uint16_t)(2024 + below(5)), (uint8_t)(1 + below(12)), (uint8_t)(1 + below(28)),
                           (uint8_t)below(24), (uint8_t)below(60), (uint8_t)below(60), (uint8_t)next()};
    if (!amiss(4)) it.year = (uint16_t)(2025 + below(2)), it.month = 6, it.day = 1;
    if (amiss(40))
        it = (struct rpki_time){(uint16_t)below(10002), (uint8_t)below(14), (uint8_t)below(33),
                                (uint8_t)below(25),     (uint8_t)below(61), (uint8_t)below(61), 0};
    if (amiss(80)) garbage(&it, sizeof it);
    int leaps = it.month == 2 && it.year % 4 == 0 && (it.year % 100 != 0 || it.year % 400 == 0);
    if (it.year > 9999 || it.month < 1 || it.month > 12 || it.day < 1 ||
        it.day > days[it.month - 1] + leaps || it.hour > 23 || it.minute > 59 || it.second > 59)
        is_bad = 1;
    return it;
}

static struct rpki_octets parts[64];
static size_t parts_count;

/* Adds a file to the parts, mostly as it is. */
static void add(const struct file *it) {
    static uint8_t spoiled[64][8192];
    if (parts_count == 64 || it->length > 8000) return;
    parts[parts_count] = (struct rpki_octets){spoiled[parts_count], spoil(it, spoiled[parts_count], 15)};
    parts_count++;
}

/* The parts as inputs, now and then with lengths that don't add up, which `bad` tells. */
static struct rpki_strings strings(int *bad) {
    static size_t lengths[64];
    struct rpki_strings it = rpki_join(parts, parts_count, joined, lengths);
    size_t at = parts_count > 0 ? below(parts_count) : 0;
    if (parts_count > 0 && amiss(24)) {
        *bad = 1;
        if (one_in(2)) lengths[at] += 1 + below(9);
        else if (lengths[at] > 0 && one_in(2)) lengths[at]--;
        else if (parts_count > 1) lengths[at] = SIZE_MAX, lengths[(at + 1) % parts_count] += 1;
        else lengths[at] = SIZE_MAX - below(9);
    } else if (it.length > 0 && amiss(40)) {
        *bad = 1;
        it.length -= 1 + below(it.length);
    }
    it.octets = input(joined, it.length), it.lengths = input(lengths, parts_count * sizeof *lengths);
    parts_count = 0;
    return it;
}

/* The certificate of a key in a folder, or NULL. */
static const struct file *with_key(const uint8_t *key, size_t folder) {
    size_t from = below(files_count);
    for (size_t i = 0; i < files_count; i++) {
        const struct file *it = &files[(from + i) % files_count];
        if (it->folder == folder && it->is_certificate && memcmp(it->certificate.subject_key, key, 20) == 0)
            return it;
    }
    return NULL;
}

/* A certificate's path by its keys, among the files of its folder: the last one first. */
static size_t path_to(const struct file *last, const struct file **path) {
    size_t count = 0;
    for (const struct file *it = last; it != NULL && count < 8;
         it = with_key(it->certificate.authority_key, it->folder)) {
        path[count++] = it;
        if (!it->is_certificate || !it->certificate.has_authority_key) break;
        if (memcmp(it->certificate.authority_key, it->certificate.subject_key, 20) == 0) break;
    }
    return count;
}

/* A trust anchor locator of a certificate's key, mostly whole. */
static size_t locator_of(const struct file *anchor, uint8_t *to) {
    static const char *const sixes = "ABCDEFGHIJKLMNOPQRSTUVWXYZabcdefghijklmnopqrstuvwxyz0123456789+/";
    static uint8_t text[8000];
    uint8_t key[1200] = {0};
    uint64_t count = 0;
    uint8_t used;
    struct file it = *anchor;
    it.octets = text;
    if (amiss(20)) return spoil(any_file(0), to, 4);
    rpki_certificate_key(anchor->octets, anchor->length, key, 1197, &count, &used);
    if (count > 1197) count = 0;
    it.length = (size_t)sprintf((char *)text, "rsync://rpki.example.net/repo/ta.cer\n\n");
    for (size_t i = 0; i < count; i += 3) {
        uint32_t three = (uint32_t)key[i] << 16 | (uint32_t)key[i + 1] << 8 | key[i + 2];
        for (int shift = 18; shift >= 0; shift -= 6)
            text[it.length++] = i + (18 - shift) / 6 > count ? '=' : sixes[three >> shift & 63];
    }
    return spoil(&it, to, 14);
}

/* A question about the path to a certificate, with the lists of its issuers. */
static struct rpki_question question(const struct file *last, int counts) {
    struct rpki_question it;
    const struct file *path[8];
    int was = is_bad, nobody;
    size_t count = path_to(last, path);
    garbage(&it, sizeof it);
    it.size = size_of(sizeof it);
    for (size_t i = count; i-- > 0;)
        if (!amiss(40)) add(path[i]);
    if (amiss(30)) add(any_file(0));
    it.members = strings(&is_bad);
    it.revocation = number_to(1), it.anchor = number_to(1), it.key = number_to(1), it.names = number_to(1);
    for (size_t i = 0; i < files_count; i++)
        for (size_t j = 0; files[i].is_list && files[i].folder == path[0]->folder && j < count; j++)
            if (memcmp(files[i].list.authority_key, path[j]->certificate.subject_key, 20) == 0 && one_in(2))
                add(&files[i]);
    if (amiss(20)) add(any_file(2));
    /* a locator's fault is told before that of lengths here */
    it.lists = strings(it.revocation == RPKI_ASK_LISTS ? &is_wrong : &nobody);
    it.locator_length = locator_of(path[count - 1], work);
    it.locator = input(work, it.locator_length);
    int was_bad = is_bad;
    it.moment = moment();
    if (calm && last->is_certificate && one_in(2)) it.moment = last->certificate.not_before, is_bad = was_bad;
    it.last = calm || one_in(2) ? RPKI_AUTHORITY + (last->certificate.key_usage != 0) : number_to(4);
    it.strict = (uint32_t)below(3);
    if (!counts) is_bad = was, is_wrong = 0;
    return it;
}

/* ---- inputs of the calls */

static size_t octets_input(const struct file *it, const uint8_t **at) {
    size_t length = spoil(it, work, 7);
    *at = input(work, length);
    return length;
}

/* Where a value of DER that begins here ends; where its contents begin, too. */
static size_t value_end(const struct file *it, size_t at, size_t *contents) {
    size_t length = at + 1 < it->length ? it->octets[at + 1] : 0, many = length > 128 ? length - 128 : 0;
    *contents = at + 2 + many < it->length ? at + 2 + many : it->length;
    if (many > 0) length = 0;
    for (size_t i = at + 2; i < *contents; i++) length = length << 8 | it->octets[i];
    return length > it->length - *contents ? it->length : *contents + length;
}

/* What was signed of a certificate or list, and its signature, mostly whole. */
static void signed_input(const struct file *it, const uint8_t **tbs, size_t *tbs_length,
                         const uint8_t **signature, size_t *length) {
    size_t from, inner, to;
    struct file part = *it;
    value_end(it, 0, &from);
    to = value_end(it, from, &inner);
    part.octets = it->octets + from, part.length = to - from;
    *tbs = input(work, *tbs_length = spoil(&part, work, 13));
    to = value_end(it, value_end(it, to, &inner), &from);
    part.octets = it->octets + from + (from < to), part.length = to - from - (from < to);
    *signature = input(work, *length = spoil(&part, work, 13));
}

static void serial_of(uint8_t *serial) {
    memset(serial, 0, 20);
    garbage(serial + 20 - (one_in(4) ? 20 : 2), one_in(4) ? 1 : 2);
    serial[19] |= !one_in(30);
}
static int is_serial(const uint8_t *serial) {
    int some = 0;
    for (int i = 0; i < 20; i++) some |= serial[i];
    return some != 0 && serial[0] < 128;
}

/* The state that goes with so many ranges, mostly. */
static uint32_t state_of(size_t ranges) {
    if (amiss(8)) return number_to(2);
    return ranges > 0 ? RPKI_LISTED : RPKI_INHERITED;
}

static void addresses(struct rpki_addresses *it, int octets) {
    struct rpki_ip_range ranges[6];
    it->count = one_in(2) ? 0 : below(6), it->state = state_of(it->count);
    for (size_t i = 0; i < it->count; i++) {
        garbage(&ranges[i], sizeof *ranges);
        memcpy(ranges[i].max, ranges[i].min, 2), ranges[i].max[2] = ranges[i].min[2] | 7;
        if (one_in(2)) ranges[i].min[0] = ranges[i].max[0] = 10;
        if (memcmp(ranges[i].min, ranges[i].max, (size_t)octets) > 0)
            memcpy(ranges[i].min, ranges[i].max, (size_t)octets);
        if (one_in(60) && ranges[i].max[0] < 255) ranges[i].min[0] = 255, is_bad = 1;
    }
    it->ranges = input(ranges, it->count * sizeof *ranges);
}

static const struct file *any_authority(void) {
    const struct file *it = any_file(1);
    for (int i = 0; i < 400 && (!it->is_certificate || !it->certificate.is_authority); i++) it = any_file(1);
    return it;
}

/* Whether certificates of a kind have a URI of enum rpki_uri. */
static int is_usual(uint32_t kind, size_t uri) {
    switch (uri) {
    case RPKI_URI_CA_ISSUER:
    case RPKI_URI_CRL: return kind != RPKI_ANCHOR;
    case RPKI_URI_REPOSITORY:
    case RPKI_URI_MANIFEST: return kind == RPKI_ANCHOR || kind == RPKI_AUTHORITY;
    default: return uri == RPKI_URI_SIGNED_OBJECT && kind == RPKI_END_ENTITY;
    }
}

static void wanted_input(void) {
    static const char *const text = "rsync://rpki.example.net/repo/ca/first.mft";
    struct rpki_wanted it;
    const struct rpki_wanted *at;
    struct rpki_as_range asn[4];
    garbage(&it, sizeof it);
    it.kind = number_to(4), it.issuer = question(any_authority(), it.kind != RPKI_ANCHOR);
    if (it.kind == RPKI_ANCHOR && !one_in(10))
        it.issuer = (struct rpki_question)RPKI_QUESTION_INIT, it.issuer.moment = moment();
    const struct file *of = any_file(1);
    uint64_t count = 0;
    uint8_t used;
    rpki_certificate_key(of->octets, of->length, joined, SLOT, &count, &used);
    struct file key = *of;
    key.octets = joined, key.length = (size_t)count;
    it.size = size_of(sizeof it), it.key_length = spoil(&key, work, 14), it.key = input(work, it.key_length);
    int was = is_bad; /* of what follows the path may be wrong first */
    addresses(&it.v4, 4), addresses(&it.v6, 16);
    it.asn.count = one_in(2) ? 0 : below(4), it.asn.state = state_of(it.asn.count);
    for (size_t i = 0; i < it.asn.count; i++)
        asn[i] = (struct rpki_as_range){64500 + (uint32_t)below(20), 64530};
    if (it.asn.count > 0 && one_in(40)) asn[0] = (struct rpki_as_range){2, 1}, is_bad = 1;
    it.asn.ranges = input(asn, it.asn.count * sizeof *asn);
    for (size_t i = 0; i < 6; i++) { /* an end of a text is at the end of its page */
        struct {
            const uint8_t *octets;
            size_t length;
        } uri = {NULL, is_usual(it.kind, i) == amiss(8) ? 0 : amiss(8) ? 1 + below(42) : i == 2 ? 33 : 42};
        uri.octets = input(text, uri.length);
        memcpy((uint8_t *)&it.uris + i * sizeof uri, &uri, sizeof uri);
    }
    it.not_before = moment(), it.not_after = moment(), it.not_after.year += one_in(8) ? 0 : 1;
    if (it.not_after.month == 2 && it.not_after.day == 29) it.not_after.day = 28;
    serial_of(it.serial), is_wrong |= (is_bad && !was) || !is_serial(it.serial) || it.not_after.year > 9999;
    is_bad = was, it.overclaim = number_to(1);
    a.question = at = input(&it, sizeof it);
    ignore(&at->not_before.unused, 1), ignore(&at->not_after.unused, 1), ignore(&at->issuer.moment.unused, 1);
    ignore(&at->v4.state + 1, 4), ignore(&at->v6.state + 1, 4), ignore(&at->asn.state + 1, 4);
}

static void wanted_list_input(void) {
    struct rpki_wanted_list it;
    struct rpki_entry entries[5];
    const struct rpki_wanted_list *at;
    const uint8_t *previous;
    garbage(&it, sizeof it);
    const struct file *list = any_file(2), *issuer = with_key(list->list.authority_key, list->folder);
    it.size = size_of(sizeof it), it.issuer = question(issuer != NULL ? issuer : any_authority(), 1);
    int was = is_bad;
    it.previous_length = 0;
    if (one_in(2)) it.previous_length = octets_input(list, &previous), it.previous = previous;
    it.revoked_count = below(5);
    for (size_t i = 0; i < it.revoked_count; i++) entries[i].date = moment(), serial_of(entries[i].serial);
    it.revoked = input(entries, it.revoked_count * sizeof *entries);
    it.this_update = moment(), it.next_update = moment();
    memset(it.number, 0, 20);
    if (one_in(2)) serial_of(it.number);
    is_wrong |= is_bad && !was, is_bad = was;
    a.question = at = input(&it, sizeof it);
    ignore(&at->this_update.unused, 1), ignore(&at->next_update.unused, 1), ignore(&at->number[20], 4);
    for (size_t i = 0; i < it.revoked_count; i++) ignore(&it.revoked[i].date.unused, 1);
}

static void completion_input(void) {
    struct rpki_completion it;
    struct rpki_list_completion list;
    garbage(&it, sizeof it), garbage(&list, sizeof list);
    const struct file *of = any_file(which == complete ? 1 : 2);
    const uint8_t *key = which == complete ? of->certificate.authority_key : of->list.authority_key;
    const struct file *issuer = with_key(key, of->folder);
    it.issuer = question(issuer != NULL ? issuer : any_authority(), 1);
    it.kind = which != complete ? 0 : calm ? RPKI_AUTHORITY + (of->certificate.key_usage != 0) : number_to(4);
    signed_input(of, &it.prepared, &it.prepared_length, &it.signature, &it.signature_length);
    list.issuer = it.issuer, list.prepared = it.prepared, list.prepared_length = it.prepared_length;
    list.signature = it.signature, list.signature_length = it.signature_length;
    it.size = size_of(sizeof it), list.size = it.size == sizeof it ? sizeof list : it.size;
    is_bad &= list.size != sizeof list || it.kind > 4;
    a.question = which == complete ? input(&it, sizeof it) : input(&list, sizeof list);
}

/* A question about a folder's files; tells how many strings it has. */
static size_t folder_question_input(void) {
    struct rpki_folder_question it;
    const struct rpki_folder_question *at;
    const struct file *path[8], *some = any_file(1);
    size_t count = path_to(some, path), from = below(files_count);
    garbage(&it, sizeof it);
    it.size = size_of(sizeof it);
    for (size_t i = 0; i < count; i++)
        if (!one_in(30)) add(path[i]);
    for (size_t i = 0; i < files_count && parts_count < 20; i++) {
        const struct file *one = &files[(from + i) % files_count];
        if (one->folder == some->folder && one_in(2)) add(one);
    }
    size_t strings_count = parts_count;
    it.strings = strings(&is_bad);
    it.locator_length = locator_of(path[count - 1], work), it.locator = input(work, it.locator_length);
    it.moment = moment(), it.depth = one_in(2) ? 0 : one_in(9) ? SIZE_MAX : below(5);
    it.steps = one_in(2) ? 0 : one_in(9) ? SIZE_MAX : below(40);
    it.strict = (uint32_t)below(3), it.key = number_to(1), it.names = number_to(1);
    a.question = at = input(&it, sizeof it);
    ignore(&at->moment.unused, 1),
        ignore(&at->names + 1, sizeof it - offsetof(struct rpki_folder_question, names) - 4);
    return strings_count;
}

/* Serial numbers to ask for; a table for them, of a list or of garbage. */
static void serials_input(void) {
    static uint8_t serials[20 * 40];
    static struct rpki_serial table[400];
    a.room = below(40), a.more_length = 20 * a.room;
    for (size_t i = 0; i < a.room; i++) serial_of(serials + 20 * i);
    if (one_in(20))
        is_bad = 1,
        a.more_length += a.more_length > 0 && one_in(2) ? -1 - below(a.more_length) : 1 + below(40);
    if (a.more_length > sizeof serials) a.more_length = sizeof serials;
    is_bad = a.more_length != 20 * a.room;
    a.more = input(serials, a.more_length);
    if (which != table_ask) return;
    const struct file *of = any_file(2);
    uint64_t count = 0;
    if (one_in(3)) garbage(table, (count = below(400)) * sizeof *table);
    else if (rpki_list_table(of->octets, of->length, table, 400, &count) != RPKI_OK || count > 400)
        count = below(5);
    a.length = count, a.octets = input(table, count * sizeof *table);
}

#endif
