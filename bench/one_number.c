/* One number at a time, through a formatter that is kept: the library beside ICU4C's unumf_formatDecimal, in a few locales.
 *
 *     cc -O2 -Iinclude bench/one_number.c lib/libtalmuiga.a -licui18n -licuuc -o bench/build/one_number
 *     bench/build/one_number tables/six_locales.json [SKELETON]
 *
 * Each formats the same 20,000 numbers of up to 15 digits from their texts to UTF-8; the best of eleven rounds. With a skeleton, as
 * currency/USD, both formatters are opened by it, and each number has two fraction digits, as prices have. */
#define _POSIX_C_SOURCE 199309L
#include "talmuiga.h"

#include <stdio.h>
#include <time.h>
#include <unicode/unumberformatter.h>
#include <unicode/ustring.h>

enum { COUNT = 20000, ROUNDS = 11, MOST = 64 };

static char numbers[COUNT][MOST], shown[COUNT][MOST], of_icu[COUNT][MOST];
static char tables[1 << 20];

static double now(void) {
    struct timespec time;
    clock_gettime(CLOCK_MONOTONIC, &time);
    return (double)time.tv_sec * 1e9 + (double)time.tv_nsec;
}

/* The numbers, by a small generator of its own; prices have cents. */
static void make_numbers(int are_prices) {
    uint64_t state = 49;
    for (size_t i = 0; i < COUNT; i++) {
        state = state * 6364136223846793005u + 1442695040888963407u;
        uint64_t limit = 1;
        for (unsigned digits = (unsigned)(state >> 60); digits; digits--) limit *= 10;
        int length = snprintf(numbers[i], MOST, "%s%llu", state & 4096 ? "-" : "", (unsigned long long)((state >> 8) % limit));
        if (are_prices) snprintf(numbers[i] + length, MOST - length, ".%02u", (unsigned)(state >> 40) % 100);
    }
}

static void round_of_ours(const talmuiga_formatter *formatter) {
    for (size_t i = 0; i < COUNT; i++) {
        size_t length;
        if (talmuiga_formatter_one(formatter, numbers[i], strlen(numbers[i]), shown[i], MOST - 1, &length)) exit(1);
        shown[i][length] = 0;
    }
}

static void round_of_icu(const UNumberFormatter *formatter, UFormattedNumber *result) {
    for (size_t i = 0; i < COUNT; i++) {
        UErrorCode error = U_ZERO_ERROR;
        unumf_formatDecimal(formatter, numbers[i], -1, result, &error);
        int32_t len;
        const UChar *text = ufmtval_getString(unumf_resultAsValue(result, &error), &len, &error);
        u_strToUTF8(of_icu[i], MOST, NULL, text, len, &error);
        if (U_FAILURE(error)) exit(1);
    }
}

/* A formatter by a skeleton, or a plain one. */
static uint32_t open_ours(size_t len, const char *locale, const char *skeleton, talmuiga_formatter **formatter) {
    talmuiga_fault fault;
    return skeleton ? talmuiga_formatter_open_skeleton(tables, len, locale, skeleton, strlen(skeleton), &fault, formatter)
                    : talmuiga_formatter_open(tables, len, locale, "-", "plain", NULL, formatter);
}

/* ICU4C's by the same skeleton. */
static UNumberFormatter *open_theirs(const char *locale, const char *skeleton, UErrorCode *error) {
    UChar wide[MOST];
    u_uastrncpy(wide, skeleton ? skeleton : "", MOST);
    return unumf_openForSkeletonAndLocale(wide, -1, locale, error);
}

int main(int count, char **words) {
    FILE *file = count > 1 ? fopen(words[1], "rb") : NULL;
    if (!file) return 2;
    size_t len = fread(tables, 1, sizeof tables, file);
    const char *skeleton = count > 2 ? words[2] : NULL;
    make_numbers(skeleton != NULL);
    printf("| locale | the library, ns a number | ICU4C | times | same texts |\n|---|---|---|---|---|\n");
    static const char *const locales[] = {"en", "de", "bn"};
    for (size_t l = 0; l < 3; l++) {
        talmuiga_formatter *ours;
        uint32_t status = open_ours(len, locales[l], skeleton, &ours);
        if (status) return fprintf(stderr, "%s: %s\n", locales[l], talmuiga_status_text(status)), 1;
        UErrorCode error = U_ZERO_ERROR;
        UNumberFormatter *theirs = open_theirs(locales[l], skeleton, &error);
        UFormattedNumber *result = unumf_openResult(&error);
        double best = 1e18, best_of_icu = 1e18;
        for (int i = 0; i < ROUNDS; i++) {
            double begin = now();
            round_of_ours(ours);
            double between = now();
            round_of_icu(theirs, result);
            double end = now();
            if (between - begin < best) best = between - begin;
            if (end - between < best_of_icu) best_of_icu = end - between;
        }
        size_t same = 0;
        for (size_t i = 0; i < COUNT; i++) same += !strcmp(shown[i], of_icu[i]);
        printf("| %s | %.0f | %.0f | %.1f | %zu of %d |\n", locales[l], best / COUNT, best_of_icu / COUNT, best_of_icu / best,
               same, COUNT);
        unumf_closeResult(result);
        unumf_close(theirs);
        talmuiga_formatter_close(ours);
    }
    return 0;
}
