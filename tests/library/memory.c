/* Refuses each request of each call for memory in turn: the call answers that memory ran out, its arrays stay, and it has given back
 * what it had. It prints a line for each call, and how many refusals were answered so. */
#include "zar.h"
#include <stdio.h>
#include <stdlib.h>
#include <string.h>

static long requests, refused = -1, held;
static int counting;
extern void *__libc_malloc(size_t), *__libc_realloc(void *, size_t);
extern void __libc_free(void *);

static int is_refused(void) { return counting && requests++ == refused; }

void *malloc(size_t size) {
    void *block = is_refused() ? NULL : __libc_malloc(size);
    if (counting && block)
        held++;
    return block;
}

void *realloc(void *block, size_t size) {
    void *moved = is_refused() ? NULL : __libc_realloc(block, size);
    if (counting && moved && !block)
        held++;
    return moved;
}

void free(void *block) {
    if (counting && block)
        held--;
    __libc_free(block);
}

static const char TEXT[] = "n := 0; go := 1; while go = 1 { choice 1/3 { n := (n + 1) % 3; } or { go := 0; } } "
                           "choose { 1: { x ~ uniform(6); } | 2: { x := 1; } } if x < 2 { observe n < 2; } return n + x;";
static const char *const NAMES[] = {"zar_check", "zar_show",  "zar_code", "zar_mass",           "zar_posterior", "zar_cost",   "zar_exact",
                                    "zar_draws", "zar_run", "zar_draws_in_a_row", "zar_enclose",   "zar_explain", "zar_tally",
                                    "zar_hunt",  "zar_audit", "zar_cost_in_the_limit", "zar_draws_in_the_limit",
                                    "zar_turns_in_the_limit", "zar_roll"};
static const char HINT[] = "'fase' is never set; did you mean 'face'?\n";
enum { CALLS = sizeof NAMES / sizeof NAMES[0], PLACES = 50, EXPLAIN = 11 };
static struct {
    int64_t values[PLACES];
    uint64_t labels[PLACES];
    uint8_t ends[PLACES], lines[4096];
    zar_found found;
    zar_ran ran;
    uint64_t read;
} arrays, before;

static zar_said call(int which) {
    static const zar_limits limits = {65536, 4, 3, 3};
    static const zar_roll_limits roll_limits = {64, 64};
    static const uint64_t weights[] = {3, 2, 1};
    const uint8_t *text = (const uint8_t *)TEXT;
    size_t length = sizeof TEXT - 1;
    requests = held = 0;
    counting = 1;
    zar_said said;
    switch (which) {
    case 0: said = zar_check(text, length); break;
    case 1: said = zar_show(text, length, arrays.lines, sizeof arrays.lines); break;
    case 2: said = zar_code(text, length, arrays.lines, sizeof arrays.lines); break;
    case 3: said = zar_mass(text, length, 4, 3, 2, arrays.lines, sizeof arrays.lines); break;
    case 4: said = zar_posterior(text, length, 4, arrays.lines, sizeof arrays.lines); break;
    case 5: said = zar_cost(text, length, 4, 3, 2, arrays.lines, sizeof arrays.lines); break;
    case 6: said = zar_exact(text, length, arrays.lines, sizeof arrays.lines); break;
    case 7: said = zar_draws(text, length, 1, 0, &limits, arrays.values, PLACES, arrays.ends, PLACES); break;
    case 8: said = zar_run(text, length, (const uint8_t *)"\x1b\xad", 2, 4, 3, 3, &arrays.ran); break;
    case 9: said = zar_draws_in_a_row(text, length, 1, 0, &limits, arrays.values, PLACES, arrays.ends, PLACES, &arrays.read); break;
    case 10: said = zar_enclose(text, length, 4, 3, 2, false, arrays.lines, sizeof arrays.lines); break;
    case EXPLAIN: said = zar_explain((const uint8_t *)"face := 1; return fase;", 23, 8, 11, arrays.lines, sizeof arrays.lines); break;
    case 12: said = zar_tally(text, length, 1, 0, 200, &limits, arrays.lines, sizeof arrays.lines); break;
    case 13: said = zar_hunt(text, length, 1, 0, 200, &limits, 0, ZAR_MORE_BITS, &arrays.found); break;
    case 14: said = zar_audit(text, length, 5, 4, 3, 3, arrays.lines, sizeof arrays.lines); break;
    case 15: said = zar_cost_in_the_limit(text, length, arrays.lines, sizeof arrays.lines); break;
    case 16: said = zar_draws_in_the_limit(text, length, arrays.lines, sizeof arrays.lines); break;
    case 17: said = zar_turns_in_the_limit(text, length, arrays.lines, sizeof arrays.lines); break;
    default: said = zar_roll(weights, 3, 1, 0, &roll_limits, arrays.labels, PLACES, arrays.ends, PLACES);
    }
    counting = 0;
    return said;
}

int main(void) {
    long passed = 0, failed = 0;
    for (int which = 0; which < CALLS; which++) {
        refused = -1;
        long wrong = call(which).status != ZAR_DONE || held;
        long all = requests;
        for (refused = 0; refused < all; refused++) {
            memset(&arrays, 0x55, sizeof arrays);
            before = arrays;
            zar_said said = call(which);
            /* What is wrong with a text may also stay unfound, or be found without what was refused. */
            if (which == EXPLAIN && said.status == ZAR_DONE && said.has_place) {
                wrong += held || said.length != sizeof HINT - 1 || memcmp(arrays.lines, HINT, said.length);
                continue;
            }
            int told = said.status == ZAR_OUT_OF_MEMORY || (which == EXPLAIN && said.status == ZAR_DONE);
            wrong += !told || held || said.length || said.code || memcmp(&arrays, &before, sizeof arrays);
        }
        printf("%s: %ld requests, %ld wrong\n", NAMES[which], all, wrong);
        passed += all + 1 - wrong;
        failed += wrong;
    }
    printf("%ld passed, %ld failed\n", passed, failed);
    return failed > 0;
}
