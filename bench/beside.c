/* Times two builds of the library: beside ROUNDS BEFORE.so NOW.so
 *
 * Nanoseconds for an answer, medians of the rounds, in which the two take turns; a star where their answers differ. A call goes through a pointer,
 * on both sides. All functions of the header but answer_lines, those of a tally, decode and is_white have a row. */
#define _POSIX_C_SOURCE 200809L
#include <dlfcn.h>
#include <stdint.h>
#include <stdio.h>
#include <stdlib.h>
#include <string.h>
#include <time.h>

#include "partyid.h"

struct library {
    struct partyid_answer (*check)(const void *, size_t, uint32_t, const void *, size_t);
    struct partyid_answer (*iban)(const void *, size_t);
    struct partyid_answer (*creditor)(const void *, size_t);
    struct partyid_answer (*eas_value)(const void *, size_t, const void *, size_t);
    struct partyid_code (*withdrawn)(const void *, size_t);
    struct partyid_done (*complete)(const void *, size_t, const void *, size_t, void *, size_t);
    struct partyid_done (*list)(const void *, size_t, const void *, size_t, void *, size_t);
    struct partyid_answer (*answer_line)(const void *, size_t);
    struct partyid_text (*normalize_space)(const void *, size_t, void *);
    struct partyid_text (*strip)(const void *, size_t, void *);
};

enum function { CHECK, IBAN, CREDITOR, EAS_VALUE, WITHDRAWN, COMPLETE, LIST, ANSWER_LINE, NORMALIZE_SPACE, STRIP };

static const char *const names[] = {
    "check", "is_valid_iban_checksum", "is_valid_creditor_identifier", "eas_value", "withdrawn",
    "complete", "list", "answer_line", "normalize_space", "strip",
};

struct row {
    enum function function;
    const char *scheme;
    uint32_t term;
    const char *content;
};

static const struct row rows[] = {
    {CHECK, "0088", 34, "4012345000009"},
    {CHECK, "0088", 34, "401234500000X"},
    {CHECK, "0088", 34, " 4012345000009\u00a0"},
    {CHECK, "0192", 34, "123456785"},
    {CHECK, "0192", 34, "000000000"},
    {CHECK, "0184", 34, "DK12345678"},
    {CHECK, "0208", 34, "1234567894"},
    {CHECK, "0201", 34, "UFXY7Z"},
    {CHECK, "0210", 34, "RSSMRA85T10A562S"},
    {CHECK, "9907", 34, "12345678901"},
    {CHECK, "0211", 34, "IT12345678903"},
    {CHECK, "0211", 34, "DE123456789"},
    {CHECK, "0007", 34, "1234567897"},
    {CHECK, "0151", 34, "51824753556"},
    {CHECK, "0151", 34, "5182475355"},
    {CHECK, "0096", 34, "1234567890"},
    {CHECK, "0198", 34, "DK12345678"},
    {CHECK, "0106", 34, "12345678"},
    {CHECK, "0190", 34, "12345678901234567890"},
    {CHECK, "0217", 34, "123456789012"},
    {CHECK, "9944", 34, "NL123456789B12"},
    {CHECK, "9944", 31, "NL123456789B12"},
    {CHECK, "9944", 31, "DE123456789"},
    {CHECK, "0060", 34, "123456789"},
    {IBAN, "", 0, "DE89370400440532013000"},
    {IBAN, "", 0, "FR14 2004 1010 0505 0001 3M02 606"},
    {IBAN, "", 0, "DE88370400440532013000"},
    {CREDITOR, "", 0, "DE98ZZZ09999999999"},
    {CREDITOR, "", 0, "DEUTSCHE BUNDESBANK"},
    {EAS_VALUE, "0088", 0, "4012345000009"},
    {EAS_VALUE, "0088", 0, "4012345000008"},
    {EAS_VALUE, "0192", 0, "123456785"},
    {WITHDRAWN, "", 0, "9901"},
    {WITHDRAWN, "", 0, "0088"},
    {COMPLETE, "0088", 0, "401234500018"},
    {COMPLETE, "0192", 0, "12345678"},
    {COMPLETE, "0208", 0, "12345627"},
    {COMPLETE, "0007", 0, "123456785"},
    {COMPLETE, "0151", 0, "824753551"},
    {LIST, "0088", 0, "4012345000008"},
    {LIST, "0088", 0, "12345678901234567891"},
    {LIST, "0192", 0, "123456784"},
    {LIST, "0208", 0, "1234567895"},
    {LIST, "0007", 0, "1234567896"},
    {LIST, "0151", 0, "51824753557"},
    {ANSWER_LINE, "", 0, "0088 34 4012345000009"},
    {ANSWER_LINE, "", 0, "0192 30 123456784"},
    {ANSWER_LINE, "", 0, "0060 34 123456789"},
    {ANSWER_LINE, "", 0, "0088 340 4012345000009"},
    {NORMALIZE_SPACE, "", 0, "4012345000009"},
    {NORMALIZE_SPACE, "", 0, "Straße  12, 1234 Ort"},
    {STRIP, "", 0, "FR14 2004 1010 0505 0001 3M02 606"},
};

static void *function_of(void *handle, const char *name)
{
    char symbol[64];
    snprintf(symbol, sizeof symbol, "partyid_%s", name);
    void *found = dlsym(handle, symbol);
    if (found == NULL) {
        fprintf(stderr, "beside: %s\n", dlerror());
        exit(1);
    }
    return found;
}

static struct library load(const char *path)
{
    void *handle = dlopen(path, RTLD_NOW | RTLD_LOCAL);
    if (handle == NULL) {
        fprintf(stderr, "beside: %s\n", dlerror());
        exit(1);
    }
    struct library l;
    *(void **)&l.check = function_of(handle, names[CHECK]);
    *(void **)&l.iban = function_of(handle, names[IBAN]);
    *(void **)&l.creditor = function_of(handle, names[CREDITOR]);
    *(void **)&l.eas_value = function_of(handle, names[EAS_VALUE]);
    *(void **)&l.withdrawn = function_of(handle, names[WITHDRAWN]);
    *(void **)&l.complete = function_of(handle, names[COMPLETE]);
    *(void **)&l.list = function_of(handle, names[LIST]);
    *(void **)&l.answer_line = function_of(handle, names[ANSWER_LINE]);
    *(void **)&l.normalize_space = function_of(handle, names[NORMALIZE_SPACE]);
    *(void **)&l.strip = function_of(handle, names[STRIP]);
    return l;
}

static char area[1024];

static uint32_t answer(const struct library *l, const struct row *row, size_t scheme_len, size_t len)
{
    const char *scheme = row->scheme, *content = row->content;
    switch (row->function) {
    case CHECK: return l->check(scheme, scheme_len, row->term, content, len).reason;
    case IBAN: return l->iban(content, len).reason;
    case CREDITOR: return l->creditor(content, len).reason;
    case EAS_VALUE: return l->eas_value(scheme, scheme_len, content, len).reason;
    case WITHDRAWN: return l->withdrawn(content, len).answer;
    case COMPLETE: return l->complete(scheme, scheme_len, content, len, area, sizeof area).reason;
    case LIST: return l->list(scheme, scheme_len, content, len, area, sizeof area).reason;
    case ANSWER_LINE: return l->answer_line(content, len).reason;
    case NORMALIZE_SPACE: return l->normalize_space(content, len, area).reason;
    case STRIP: return l->strip(content, len, area).reason;
    }
    return 0;
}

static double nanoseconds(void)
{
    struct timespec t;
    clock_gettime(CLOCK_MONOTONIC, &t);
    return 1e9 * (double)t.tv_sec + (double)t.tv_nsec;
}

/* Nanoseconds for one of so many calls. */
static double timed(const struct library *l, const struct row *row, long calls)
{
    size_t scheme_len = strlen(row->scheme), len = strlen(row->content);
    double began = nanoseconds();
    for (long i = 0; i < calls; i++) {
        answer(l, row, scheme_len, len);
    }
    return (nanoseconds() - began) / (double)calls;
}

/* So many that they take 30 microseconds, which is long beside a look at the clock. */
static long enough_calls(const struct library *l, const struct row *row)
{
    long calls = 64;
    while (timed(l, row, calls) * (double)calls < 30000) {
        calls *= 2;
    }
    return calls;
}

static int by_size(const void *a, const void *b)
{
    double x = *(const double *)a, y = *(const double *)b;
    return (x > y) - (x < y);
}

static double median(double *times, size_t count)
{
    qsort(times, count, sizeof *times, by_size);
    return times[count / 2];
}

/* Both sides of a row, in turn. */
static void time_row(const struct library libraries[2], const struct row *row, double *times[2], long rounds)
{
    long calls = enough_calls(&libraries[0], row);
    for (long round = 0; round < rounds; round++) {
        for (long turn = 0; turn < 2; turn++) {
            long side = (round + turn) % 2;
            times[side][round] = timed(&libraries[side], row, calls);
        }
    }
    size_t scheme_len = strlen(row->scheme), len = strlen(row->content);
    int same = answer(&libraries[0], row, scheme_len, len) == answer(&libraries[1], row, scheme_len, len);
    double before = median(times[0], (size_t)rounds), now = median(times[1], (size_t)rounds);
    printf("%-30s %-4s %2u  %-34s ", names[row->function], row->scheme, (unsigned)row->term, row->content);
    printf("%8.2f %8.2f %+6.1f%%%s\n", before, now, 100 * (now / before - 1), same ? "" : " *");
}

int main(int argc, char **argv)
{
    long rounds = argc == 4 ? atol(argv[1]) : 0;
    if (rounds < 1) {
        fprintf(stderr, "usage: beside ROUNDS BEFORE.so NOW.so\n");
        return 2;
    }
    struct library libraries[2] = {load(argv[2]), load(argv[3])};
    double *times[2] = {malloc((size_t)rounds * sizeof(double)), malloc((size_t)rounds * sizeof(double))};
    if (times[0] == NULL || times[1] == NULL) {
        return 1;
    }
    printf("%-30s %-7s  %-34s %8s %8s\n", "function", "", "of", "before", "now");
    for (size_t r = 0; r < sizeof rows / sizeof *rows; r++) {
        time_row(libraries, &rows[r], times, rounds);
    }
    return 0;
}
