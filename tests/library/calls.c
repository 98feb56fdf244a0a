/* calls FILE SEED COUNT: all calls of the library on the text of a file, by C and by C++. It prints the line of the version, the
 * lines of show, code, mass, exact, posterior, enclose, cost with limits and without, tally, audit and hunt, or status and code, and the outcomes of the first streams of the seed in the words of the program;
 * those of draws in a row on the stream 0, and how many bits they read; and those of rolls by the weights 3, 2 and 1 on these streams. With no words it prints the version of the header, and the words of
 * each code. */
#include "zar.h"
#include <inttypes.h>
#include <stdio.h>
#include <stdlib.h>
#include <string.h>

static uint8_t text[70000], lines[1 << 20];
static size_t text_length;

static void tell(zar_said said) {
    if (said.status != ZAR_DONE)
        printf("status %u, code %u\n", said.status, said.code);
    else if (said.length <= sizeof lines)
        fwrite(lines, 1, (size_t)said.length, stdout);
}

/* Draws on streams of their own, or in a row on one. */
static void draw(uint64_t seed, size_t count, bool in_a_row) {
    const zar_limits limits = {65536, 1000, 1000, 1000};
    int64_t *values = (int64_t *)malloc(count * sizeof *values);
    uint8_t *ends = (uint8_t *)malloc(count);
    uint64_t read = 0;
    if (!values || !ends)
        exit(2);
    zar_said said = in_a_row ? zar_draws_in_a_row(text, text_length, seed, 0, &limits, values, count, ends, count, &read)
                             : zar_draws(text, text_length, seed, 0, &limits, values, count, ends, count);
    if (said.status != ZAR_DONE)
        exit(2);
    for (size_t k = 0; k < count; k++)
        if (ends[k] == ZAR_VALUE)
            printf("value %" PRId64 "\n", values[k]);
        else
            printf("%s\n", zar_ending(ends[k]));
    if (in_a_row)
        printf("bits %" PRIu64 "\n", read);
    free(values);
    free(ends);
}

static void roll(uint64_t seed, size_t count) {
    static const uint64_t weights[] = {3, 2, 1};
    const zar_roll_limits limits = {65536, 3};
    uint64_t *labels = (uint64_t *)malloc(count * sizeof *labels);
    uint8_t *ends = (uint8_t *)malloc(count);
    if (!labels || !ends || zar_roll(weights, 3, seed, 0, &limits, labels, count, ends, count).status != ZAR_DONE)
        exit(2);
    for (size_t k = 0; k < count; k++)
        if (ends[k] == ZAR_VALUE)
            printf("value %" PRIu64 "\n", labels[k]);
        else
            printf("%s\n", zar_ending(ends[k]));
    free(labels);
    free(ends);
}

/* The first stream with the value 1, in the words of the program. */
static void hunt(uint64_t seed, uint64_t count, const zar_limits *limits) {
    zar_found found;
    if (zar_hunt(text, text_length, seed, 0, count, limits, 1, ZAR_VALUE, &found).status != ZAR_DONE)
        exit(2);
    if (found.found)
        printf("stream %" PRIu64 "\n", found.stream);
    else
        printf("stream none\n");
}

static int tell_words(void) {
    printf("%d.%d.%d\n", ZAR_VERSION / 10000, ZAR_VERSION / 100 % 100, ZAR_VERSION % 100);
    for (int code = 0; code < 256; code++)
        if (zar_reason((uint8_t)code)[0])
            printf("E%d %s\n", code, zar_reason((uint8_t)code));
    return zar_ending(ZAR_FLIPS + 1)[0] || zar_ending(255)[0];
}

int main(int count, char **words) {
    if (count == 1)
        return tell_words();
    FILE *file = count == 4 ? fopen(words[1], "rb") : NULL;
    if (!file)
        return 3;
    text_length = fread(text, 1, sizeof text, file);
    fclose(file);
    tell(zar_version(lines, sizeof lines));
    if (zar_check(text, text_length).status != ZAR_DONE)
        return 4;
    tell(zar_show(text, text_length, lines, sizeof lines));
    tell(zar_code(text, text_length, lines, sizeof lines));
    tell(zar_mass(text, text_length, 9, 3, 2, lines, sizeof lines));
    tell(zar_exact(text, text_length, lines, sizeof lines));
    tell(zar_posterior(text, text_length, 9, lines, sizeof lines));
    tell(zar_enclose(text, text_length, 9, 3, 2, true, lines, sizeof lines));
    tell(zar_cost(text, text_length, 9, 3, 2, lines, sizeof lines));
    tell(zar_cost_in_the_limit(text, text_length, lines, sizeof lines));
    const zar_limits limits = {65536, 9, 3, 2};
    tell(zar_tally(text, text_length, strtoull(words[2], NULL, 10), 0, strtoull(words[3], NULL, 10), &limits, lines, sizeof lines));
    tell(zar_audit(text, text_length, 5, 9, 3, 2, lines, sizeof lines));
    hunt(strtoull(words[2], NULL, 10), strtoull(words[3], NULL, 10), &limits);
    draw(strtoull(words[2], NULL, 10), (size_t)strtoull(words[3], NULL, 10), false);
    draw(strtoull(words[2], NULL, 10), (size_t)strtoull(words[3], NULL, 10), true);
    roll(strtoull(words[2], NULL, 10), (size_t)strtoull(words[3], NULL, 10));
    return 0;
}
