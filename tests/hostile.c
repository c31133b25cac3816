/* Calls the library at random with hostile arguments: files whole, cut, with bits turned, octets put
 * in or taken away, and lengths inside DER that are giants; lengths that don't add up, sizes of structs
 * that are others, rooms of 0, exact and one less, numbers behind the last, garbage wherever nobody is
 * to look.
 *
 *     hostile COUNT SEED[+FIRST] FILE..
 *
 * COUNT is how many calls, SEED a word, FIRST the number of the first one. What is wanted follows from
 * include/rpki.h alone:
 *   - each call returns, with a number that the header has, and RPKI_MEMORY only if memory was refused;
 *   - it reads nothing behind an input and writes nothing behind an output: each ends with a page, and
 *     no page follows. Inputs are on pages that can't be written. What goes wrong there is a signal: it
 *     ends the program, which prints what asks for this call again.
 *   - the same call answers the same, over other garbage: in output memory, padding and new memory;
 *   - what the header says to be unwritten is unwritten, a count is 0 at a fault, and a call that is
 *     wrong by the header is RPKI_BAD_CALL;
 *   - what was allocated is freed, nothing was written around it, and no request is a giant;
 *   - if a request for memory is refused, alone or with all that follow, the answer is the same or
 *     RPKI_MEMORY.
 * Prints what isn't so with what asks it again, how often each call was asked and each number answered,
 * and a last line `N passed, M failed`. It is linked with the static library and
 * -Wl,--wrap=malloc,--wrap=realloc,--wrap=free. tests/callers runs it. */
#define _GNU_SOURCE
#include "hostile_inputs.h"
#include <signal.h>

static const char *const names[] = {EACH_CALL(NAME)};

static const char *seed_word;
static uint64_t number, differences, asked[CALLS], fine[CALLS], answered[1000];

static void differs(const char *what) {
    if (++differences <= 40)
        printf("call %lu, %s: %s; again: hostile 1 %s+%lu FILE..\n", (unsigned long)number, names[which],
               what, seed_word, (unsigned long)number);
}

static void on_signal(int signal) {
    differs(signal == SIGALRM ? "it doesn't return within a minute" : "a signal ends it");
    printf("signal %d\n0 passed, 1 failed\n", signal);
    fflush(stdout);
    _exit(1);
}

/* ---- calls */

static uint32_t call_it(void) {
    switch (which) {
    case abi_version: return rpki_abi_version() == RPKI_ABI ? RPKI_OK : UINT32_MAX;
    case version: return rpki_version(a.told);
    case fault_name: return rpki_fault_name(a.number, a.out, a.room, a.count);
    case fault_sentence: return rpki_fault_sentence(a.number, a.out, a.room, a.count);
    case certificate_read: return rpki_certificate_read(a.octets, a.length, a.told);
    case certificate_inspect: return rpki_certificate_inspect(a.octets, a.length, a.number, a.other);
    case certificate_addresses:
        return rpki_certificate_addresses(a.octets, a.length, a.number, a.out, a.room, a.count);
    case certificate_as_numbers:
        return rpki_certificate_as_numbers(a.octets, a.length, a.out, a.room, a.count);
    case certificate_uri: return rpki_certificate_uri(a.octets, a.length, a.number, a.out, a.room, a.count);
    case certificate_name: return rpki_certificate_name(a.octets, a.length, a.number, a.out, a.room, a.count);
    case certificate_key: return rpki_certificate_key(a.octets, a.length, a.out, a.room, a.count, a.told);
    case fields_of_certificate:
        return rpki_fields_of_certificate(a.octets, a.length, a.out, a.room, a.told);
    case certificate_places: return rpki_certificate_places(a.octets, a.length, a.told);
    case list_read: return rpki_list_read(a.octets, a.length, a.told);
    case list_entries: return rpki_list_entries(a.octets, a.length, a.out, a.room, a.count);
    case list_issuer: return rpki_list_issuer(a.octets, a.length, a.out, a.room, a.count);
    case list_ask: return rpki_list_ask(a.octets, a.length, a.more, a.more_length, a.out, a.room);
    case list_table: return rpki_list_table(a.octets, a.length, a.out, a.room, a.count);
    case table_ask: return rpki_table_ask(a.octets, a.length, a.more, a.more_length, a.out, a.room);
    case stop_text:
        return rpki_stop_text(a.octets, a.length, a.other, a.number, a.told, a.out, a.room, a.count);
    case path_validate: return rpki_path_validate(a.question, a.ranges, a.told);
    case path_names: return rpki_path_names(a.question, a.told);
    case folder_judge: return rpki_folder_judge(a.question, a.out, a.room, a.ranges, a.told);
    case prepare: return rpki_prepare(a.question, a.out, a.room, a.told);
    case complete: return rpki_complete(a.question, a.out, a.room, a.told);
    case prepare_list: return rpki_prepare_list(a.question, a.out, a.room, a.told);
    default: return rpki_complete_list(a.question, a.out, a.room, a.told);
    }
}

static uint32_t run(void) {
    requests = 0, held = 0, inside = 1;
    alarm(60);
    uint32_t answer = call_it();
    inside = 0;
    asked[which]++;
    if (held != 0) differs("memory is held afterwards");
    return answer;
}

/* The sizes of the elements and of the struct that a call writes. */
static const size_t elements[CALLS] = {[fault_name] = 1,
                                       [fault_sentence] = 1,
                                       [certificate_addresses] = sizeof(struct rpki_ip_range),
                                       [certificate_as_numbers] = sizeof(struct rpki_as_range),
                                       [certificate_uri] = 1,
                                       [certificate_name] = 1,
                                       [certificate_key] = 1,
                                       [fields_of_certificate] = 1,
                                       [list_entries] = sizeof(struct rpki_entry),
                                       [list_issuer] = 1,
                                       [list_ask] = 1,
                                       [list_table] = sizeof(struct rpki_serial),
                                       [table_ask] = 1,
                                       [stop_text] = 1,
                                       [folder_judge] = sizeof(struct rpki_line),
                                       [prepare] = 1,
                                       [complete] = 1,
                                       [prepare_list] = 1,
                                       [complete_list] = 1};
static const size_t tolds[CALLS] = {[version] = sizeof(struct rpki_text),
                                    [certificate_read] = sizeof(struct rpki_certificate),
                                    [certificate_key] = 1,
                                    [fields_of_certificate] = sizeof(struct rpki_fields),
                                    [certificate_places] = sizeof(struct rpki_places),
                                    [list_read] = sizeof(struct rpki_list),
                                    [stop_text] = sizeof(struct rpki_stop),
                                    [path_validate] = sizeof(struct rpki_verdict),
                                    [path_names] = 8,
                                    [folder_judge] = sizeof(struct rpki_walk),
                                    [prepare] = sizeof(struct rpki_issued),
                                    [complete] = sizeof(struct rpki_issued),
                                    [prepare_list] = sizeof(struct rpki_issued),
                                    [complete_list] = sizeof(struct rpki_issued)};

static size_t room_for(uint64_t count) {
    if (count > 60000) count = 60000;
    switch (below(6)) {
    case 0: return 0;
    case 1: return count - (count > 0);
    case 2: return count + 1 + below(9);
    case 3: return below(count + 1);
    default: return count;
    }
}

/* Gives the call its outputs; most rooms are about what a call without room counts. */
static void make_outputs(size_t strings_count) {
    static struct rpki_room ranges;
    size_t element = elements[which];
    int has_ranges = which == path_validate || which == folder_judge;
    a.told = tolds[which] > 0 ? output(tolds[which]) : NULL;
    if (which == stop_text || (element > 0 && which != list_ask && which != table_ask &&
                               which != fields_of_certificate && which < path_validate))
        a.count = output(8);
    if (has_ranges) {
        const struct rpki_room none = {NULL, 0, NULL, 0, NULL, 0};
        a.ranges = input(&none, sizeof none), a.room = 0;
        const struct rpki_verdict *verdict = a.told;
        const struct rpki_walk *walk = a.told;
        int holds = run() == RPKI_OK, walks = which == folder_judge;
        ranges.v4_room = room_for(holds ? walks ? walk->v4 : verdict->v4 : below(4));
        ranges.v6_room = room_for(holds ? walks ? walk->v6 : verdict->v6 : below(4));
        ranges.asn_room = room_for(holds ? walks ? walk->asn : verdict->asn : below(4));
        ranges.v4 = output(ranges.v4_room * sizeof *ranges.v4),
        ranges.v6 = output(ranges.v6_room * sizeof *ranges.v6);
        ranges.asn = output(ranges.asn_room * sizeof *ranges.asn);
        a.ranges = input(&ranges, sizeof ranges);
        for (size_t i = 1; i < outs_used; i++) outs[i].is_kept = walks;
    }
    if (element == 0) return;
    if (which != list_ask && which != table_ask) {
        uint64_t count = strings_count;
        a.room = 0;
        if (!has_ranges && run() == RPKI_OK)
            count = a.count != NULL                  ? *a.count
                    : which == fields_of_certificate ? ((struct rpki_fields *)a.told)->size
                                                     : ((struct rpki_issued *)a.told)->count;
        a.room = room_for(one_in(8) ? below(64) : count);
    }
    a.out = output(a.room * element);
    outs[outs_used - 1].is_kept = which >= folder_judge;
}

/* Chooses a call and makes its arguments. */
static void make(void) {
    const uint8_t *octets = NULL;
    size_t strings_count = 0;
    memset(&a, 0, sizeof a);
    inputs_used = outs_used = ignored_used = parts_count = 0, calm = one_in(2), is_bad = is_wrong = 0;
    which = (unsigned)below(CALLS);
    int is_of_certificate = which >= certificate_read && which <= certificate_places;
    if (is_of_certificate || (which >= list_read && which <= list_table) || which == stop_text) {
        a.other = (uint32_t)below(3);
        a.length = octets_input(any_file(is_of_certificate || (which == stop_text && a.other == 0) ? 1 : 2),
                                &octets),
        a.octets = octets;
    }
    switch (which) {
    case fault_name:
    case fault_sentence:
        a.number = one_in(9) ? (uint32_t)next() : (uint32_t)below(830),
        is_bad = rpki_name_of_fault(a.number) == NULL;
        break;
    case certificate_inspect: a.number = number_to(4); break;
    case certificate_addresses:
        a.number = one_in(24)  ? (uint32_t)next() >> below(32)
                   : one_in(2) ? 4
                               : 6,
        is_bad = a.number != 4 && a.number != 6;
        break;
    case certificate_uri: a.number = number_to(5); break;
    case certificate_name: a.number = number_to(3); break;
    case stop_text: a.number = number_to(2); break;
    case list_ask:
    case table_ask: serials_input(); break;
    case path_validate: {
        struct rpki_question it = question(any_file(1), 1);
        const struct rpki_question *at = a.question = input(&it, sizeof it);
        ignore(&at->moment.unused, 1);
        break;
    }
    case path_names: {
        const struct file *path[8];
        for (size_t i = path_to(any_file(1), path); i-- > 0;) add(path[i]);
        if (one_in(10)) parts_count = 0, is_bad = 1;
        struct rpki_strings it = strings(&is_bad);
        a.question = input(&it, sizeof it);
        break;
    }
    case folder_judge: strings_count = folder_question_input(); break;
    case prepare: wanted_input(); break;
    case prepare_list: wanted_list_input(); break;
    case complete:
    case complete_list: completion_input(); break;
    default: break;
    }
    make_outputs(strings_count);
}

/* ---- what is wanted */

static void check(int holds, const char *what) {
    if (!holds) differs(what);
}

/* Whether a field is in the memory. */
static int is_inside(const void *at, size_t length) {
    const uint8_t *from = a.out, *field = at;
    return length == 0 || (field >= from && length <= a.room && field <= from + a.room - length);
}

/* Whether all fields of a certificate are in the memory, if that is enough; all is 0 after an error. */
static int are_fields(uint32_t answer) {
    static const struct rpki_fields none;
    const struct rpki_fields *it = a.told;
    if (answer != RPKI_OK) return memcmp(it, &none, sizeof none) == 0;
    int has_all = is_inside(it->issuer.octets, it->issuer.length) && is_inside(it->key.octets, it->key.length) &&
                  is_inside(it->issuer_text.octets, it->issuer_text.length) &&
                  is_inside(it->subject.octets, it->subject.length) &&
                  is_inside(it->subject_text.octets, it->subject_text.length) &&
                  is_inside(it->v4, it->v4_count * sizeof *it->v4) &&
                  is_inside(it->v6, it->v6_count * sizeof *it->v6) &&
                  is_inside(it->asn, it->asn_count * sizeof *it->asn) && (uintptr_t)it->asn % 4 == 0;
    for (size_t i = 0; i < 6; i++) has_all = has_all && is_inside(it->uris[i].octets, it->uris[i].length);
    return has_all && it->has_usable_key <= 1 && it->size > 3 && (it->size <= a.room) == (it->key.length > 0);
}

/* Whether a line is a certificate's without a verdict. */
static int is_unjudged(const struct rpki_line *it) {
    return it->what == RPKI_LINE_NO_ISSUER || it->what > RPKI_LINE_NEITHER;
}

/* Whether a line is that of an issuer for which a certificate has this line. */
static int is_issuer_for(const struct rpki_line *of, const struct rpki_line *it) {
    int is_ca = it->what == RPKI_LINE_ANCHOR || it->kind == RPKI_AUTHORITY;
    int is_accepted = it->what == RPKI_LINE_ANCHOR || it->what == RPKI_LINE_ACCEPTED || it->fault == RPKI_BAD_KEY;
    switch (of->what) {
    case RPKI_LINE_NOT_ISSUED: return is_accepted && is_ca;
    case RPKI_LINE_ISSUER_NOT_CA: return is_accepted && !is_ca;
    case RPKI_LINE_NOT_LOOKED_AT: return is_accepted && is_ca && it->limits != 0;
    case RPKI_LINE_BELOW_REJECTED: return it->what == RPKI_LINE_REJECTED && !is_accepted;
    default: return is_unjudged(it);
    }
}

/* Whether the issuer of a line goes with it, of so many strings, of which the first have these lines. */
static int has_issuer(const struct rpki_line *it, uint64_t count, const struct out *lines) {
    if (it->what != RPKI_LINE_ACCEPTED && it->what <= RPKI_LINE_NEITHER) return it->issuer == 0;
    if (it->issuer >= count) return 0;
    size_t at = it->issuer * sizeof *it;
    if (it->what == RPKI_LINE_ACCEPTED || at >= lines->size || is_blank(lines, at)) return 1;
    return is_issuer_for(it, (const struct rpki_line *)(lines->at + at));
}

/* What the header says of one answer and of what was written. */
static void check_answer(uint32_t answer) {
    const struct out *last = &outs[outs_used > 0 ? outs_used - 1 : 0];
    const struct rpki_walk *walk = a.told;
    size_t element = elements[which];
    uint64_t count = a.count != NULL ? *a.count : a.room;
    check(rpki_name_of_fault(answer) != NULL, "the answer is no number of the header");
    check(answer != RPKI_MEMORY || refused_from != UINT64_MAX, "memory ran out that wasn't refused");
    check(!is_bad || answer == RPKI_BAD_CALL || answer == RPKI_MEMORY, "it isn't RPKI_BAD_CALL");
    check(!is_wrong || answer != RPKI_OK, "it is RPKI_OK");
    check(answer == RPKI_OK || a.count == NULL || count == 0, "there is a count at a fault");
    for (size_t i = 0; answer != RPKI_OK && i < outs_used; i++)
        check(!outs[i].is_kept || is_blank(&outs[i], 0), "something is written at a fault");
    if (which >= prepare) {
        const struct rpki_issued *issued = a.told;
        check(issued->fault == answer && (answer == RPKI_OK) == (issued->count > 0),
              "what it tells isn't what it answers");
        count = issued->count;
    }
    if (answer == RPKI_OK && element > 0 && which != folder_judge && count < a.room)
        check(is_blank(last, count * element), "it writes behind the last");
    if (which == list_ask || which == table_ask)
        for (size_t i = 0; answer == RPKI_OK && i < a.room; i++)
            check(last->at[i] < 2, "an answer is neither 0 nor 1");
    check(which != table_ask || requests == 0, "it takes memory");
    check(which != fields_of_certificate || are_fields(answer), "all fields are not in the memory");
    check(which != certificate_key || *(uint8_t *)a.told <= (answer == RPKI_OK),
          "whether a key is used is neither 0 nor 1");
    check(which != path_validate || ((struct rpki_verdict *)a.told)->fault == answer,
          "the verdict isn't what it answers");
    if (which == stop_text && answer == RPKI_OK) {
        const struct rpki_stop *stop = a.told;
        check(stop->fault == RPKI_OK ? stop->octet == 0 && count == 0
                                     : stop->fault >= 100 && stop->fault < 300 && stop->octet <= a.length,
              "it stops nowhere");
    }
    if (which != folder_judge) return;
    check(walk->fault == answer && (walk->ended == RPKI_NOT_BEGUN) == (answer != RPKI_OK) && walk->ended <= 3,
          "the walk isn't what it answers");
    if (answer != RPKI_OK)
        check(walk->v4 == 0 && walk->v6 == 0 && walk->asn == 0, "a walk holds something at a fault");
    for (size_t i = 0; answer == RPKI_OK && i < a.room && a.room * element == last->size; i++) {
        const struct rpki_line *line = (const struct rpki_line *)last->at + i;
        if (is_blank(last, i * element)) break;
        check(line->what <= RPKI_LINE_BELOW_UNSEEN && line->kind <= RPKI_ROUTER &&
                  rpki_name_of_fault(line->fault) != NULL,
              "a line has no fate");
        check(!is_unjudged(line) || (line->fault == 0 && line->step == 0 && line->kind == 0 && line->limits == 0),
              "a line without a verdict has one");
        check(has_issuer(line, ((const struct rpki_folder_question *)a.question)->strings.count, last),
              "a line has another issuer");
        check(line->held.v4_at + line->held.v4 <= walk->v4 && line->held.v6_at + line->held.v6 <= walk->v6 &&
                  line->held.asn_at + line->held.asn <= walk->asn,
              "a line holds more than there is");
        const uint32_t limits = RPKI_LIMIT_DEPTH | RPKI_LIMIT_STEPS;
        check(line->limits <= limits && (line->limits == 0 || walk->ended > RPKI_WHOLE) &&
                  (line->needed == 0 || (line->limits & RPKI_LIMIT_STEPS) != 0),
              "a line tells a limit that wasn't reached");
    }
}

/* Whether the outputs are as the first call left them, but for what neither wrote. */
static int are_same(void) {
    for (size_t i = 0; i < outs_used; i++)
        for (size_t j = 0; j < outs[i].size; j++)
            if (outs[i].at[j] != outs[i].first[j] &&
                (outs[i].at[j] != blank(j) || outs[i].first[j] != (uint8_t)(blank(j) ^ other)))
                return 0;
    return 1;
}

/* Asks again with these requests for memory refused. */
static void refuse(uint64_t from, uint64_t to, uint32_t wanted) {
    refused_from = from, refused_to = to;
    blanks();
    uint32_t answer = run();
    check(answer == wanted || answer == RPKI_MEMORY, "without memory the answer is another");
    check(answer != wanted || are_same(), "without memory other octets are written");
    check_answer(answer);
    refused_from = refused_to = UINT64_MAX;
}

int main(int count, char **words) {
    static uint8_t stack[1 << 16];
    const stack_t own = {.ss_sp = stack, .ss_size = sizeof stack};
    const struct sigaction action = {.sa_handler = on_signal, .sa_flags = SA_ONSTACK};
    const int signals[] = {SIGSEGV, SIGBUS, SIGILL, SIGFPE, SIGABRT, SIGALRM};
    if (count < 4) return fputs("usage: hostile COUNT SEED[+FIRST] FILE..\n", stderr), 2;
    char *plus = strchr(words[2], '+');
    uint64_t first = plus == NULL ? 0 : strtoull(plus + 1, NULL, 10), seed = 0xcbf29ce484222325u, passed = 0,
             failed = 0;
    if (plus != NULL) *plus = 0;
    seed_word = words[2];
    for (const char *c = seed_word; *c != 0; c++) seed = (seed ^ (uint8_t)*c) * 0x100000001b3u;
    files_count = (size_t)count - 3;
    files = calloc(files_count, sizeof *files);
    refused_from = refused_to = UINT64_MAX;
    make_slots();
    for (size_t i = 0; i < files_count; i++) read_file(words + 3, i);
    sigaltstack(&own, NULL);
    for (size_t i = 0; i < 6; i++) sigaction(signals[i], &action, NULL);
    for (number = first; number < first + strtoull(words[1], NULL, 10); number++) {
        uint64_t before_it = differences;
        other = 0, state = seed + number * 0x2545f4914f6cdd1du, state = next();
        make();
        blanks();
        uint32_t answer = run();
        uint64_t wanted = requests;
        check_answer(answer);
        if (answer < 1000) answered[answer]++;
        fine[which] += answer == RPKI_OK;
        for (size_t i = 0; i < outs_used; i++) memcpy(outs[i].first, outs[i].at, outs[i].size);
        other = 0xff;
        for (size_t i = 0; i < ignored_used; i++)
            for (size_t j = 0; j < ignored[i].size; j++) ignored[i].at[j] ^= 0xff;
        blanks();
        check(run() == answer, "the same call answers something else");
        check(are_same(), "the same call writes something else");
        if (wanted > 0 && one_in(3)) {
            uint64_t at = 1 + below(wanted);
            refuse(at, one_in(2) ? at + 1 : UINT64_MAX, answer);
        }
        if (one_in(60))
            for (uint64_t at = 1; at <= wanted && at <= 400; at++) refuse(at, UINT64_MAX, answer);
        if (differences == before_it) passed++;
        else failed++;
    }
    for (size_t i = 0; i < CALLS; i++)
        printf("%-30s asked %lu times, %lu of the calls fine\n", names[i], (unsigned long)asked[i],
               (unsigned long)fine[i]);
    for (uint32_t i = 0; i < 1000; i++)
        if (answered[i] > 0)
            printf("%3u %-28s %lu\n", i, rpki_name_of_fault(i) == NULL ? "?" : rpki_name_of_fault(i),
                   (unsigned long)answered[i]);
    printf("%lu passed, %lu failed\n", (unsigned long)passed, (unsigned long)failed);
    return failed > 0;
}
