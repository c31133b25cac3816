// What bench/serials.sh does in C: a table in the caller's memory, and one call for all.
#define _POSIX_C_SOURCE 200809L
#include "rpki.h"
#include <stdio.h>
#include <stdlib.h>
#include <string.h>
#include <time.h>

enum { ENTRIES = 100000, QUESTIONS = 1000000 };

static double now(void) {
    struct timespec t;
    clock_gettime(CLOCK_PROCESS_CPUTIME_ID, &t);
    return (double)t.tv_sec + (double)t.tv_nsec / 1e9;
}

static int tell(const char *what, double begin, const uint8_t *answers) {
    size_t found = 0;
    for (size_t i = 0; i < QUESTIONS; i++) found += answers[i];
    printf("C, %s: %.3f s\n", what, now() - begin);
    return found != QUESTIONS / 2;
}

int main(int count, char **words) {
    static uint8_t list[16 << 20], serials[QUESTIONS][20], answers[QUESTIONS];
    static struct rpki_serial table[ENTRIES];
    FILE *file = count == 2 ? fopen(words[1], "rb") : NULL;
    if (file == NULL) return 2;
    size_t length = fread(list, 1, sizeof list, file);
    fclose(file);
    for (size_t i = 0; i < QUESTIONS; i++) {
        uint64_t low = 3 * (i % ENTRIES) + i % 2;
        serials[i][3] = 4; // 2^130, as serials.py has it
        for (int at = 0; at < 8; at++) serials[i][19 - at] = (uint8_t)(low >> 8 * at);
    }
    uint64_t entries;
    double begin = now();
    if (rpki_list_table(list, length, table, ENTRIES, &entries) != RPKI_OK || entries != ENTRIES) return 1;
    if (rpki_table_ask(table, ENTRIES, serials[0], sizeof serials, answers, QUESTIONS) != RPKI_OK) return 1;
    if (tell("rpki_list_table and rpki_table_ask", begin, answers)) return 1;
    begin = now();
    if (rpki_list_ask(list, length, serials[0], sizeof serials, answers, QUESTIONS) != RPKI_OK) return 1;
    return tell("rpki_list_ask", begin, answers);
}
