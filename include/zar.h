/* zar.h: cpGCL programs compiled, drawn from and weighed, and rolls by weights.
 *
 * A call takes a program's text or weights, and keeps nothing between calls: there is no handle and nothing to free. Threads may call at a
 * time, each on arrays of its own. No call ends the process, starts a thread, or opens a file. Its memory is that of malloc, all of
 * which it gives back.
 *
 * What a caller must keep, since no call can test it:
 *   - no pointer is null, not even one to an array of length 0, which may be any other; an empty vector or view of C++ may have a null one;
 *   - each array has the length that is told beside it, and no two arrays of a call overlap;
 *   - no other thread writes the text, the weights or the limits of a call while it runs, nor reads or writes the arrays that it writes.
 * All else is tested, and answered by a status.
 */
#ifndef ZAR_H
#define ZAR_H
#include <stdbool.h>
#include <stddef.h>
#include <stdint.h>
#ifdef __cplusplus
extern "C" {
#endif

/* The version of this header, for a test as it is compiled: 10000 times the first number, 100 times the second, and the third. */
#define ZAR_VERSION 10000

/* The statuses of a call, which are those that the program `zar` ends with. Numbers are tested before the text, and the text before
 * its masses are worked out. */
enum {
    ZAR_DONE = 0,            /* it did what it was asked */
    ZAR_TEXT_REFUSED = 1,    /* the text has no program */
    ZAR_NUMBERS_REFUSED = 2, /* a number is out of range, or the two arrays have not one length; no roll may have the weights */
    ZAR_OUT_OF_MEMORY = 5,
    ZAR_MASS_REFUSED = 6     /* the masses of the program are refused */
};

/* What a call answers. Where the status is not ZAR_DONE the arrays stay as they were. */
typedef struct {
    uint8_t status;
    uint8_t code;    /* of a refusal, as 5 for E5; else 0 */
    bool has_place;  /* whether that has a place in the text */
    uint32_t place;  /* how many bytes stand before it; else 0 */
    uint64_t length; /* of the lines, in bytes; else 0 */
} zar_said;

/* The words of the code of a refusal, as `zar` prints them; of any other number none. They are of this header, and not of the library. */
static inline const char *zar_reason(uint8_t code) {
    static const char *const words[] = {
        "", "text too long", "bad byte", "number too wide", "name too long", "unexpected", "too deep", "kind mismatch", "unknown name",
        "too many names", "zero denominator", "weight above one", "weight too fine", "fraction too wide", "too many states", "every round fails",
        "", "too unlikely to enclose"};
    return code < sizeof words / sizeof words[0] ? words[code] : "";
}

/* Lines are written to the front of an array, of this capacity in bytes, where they fit, and else it stays as it was; `length` is
 * theirs in either case. So a call with a capacity of 0 asks how much room they need. They are the bytes that the program prints,
 * with a line feed behind each, and no byte 0. */

/* The line of `zar --version`. */
zar_said zar_version(uint8_t *lines, size_t capacity);

/* Whether a text spells a program, as `zar check` says it. */
zar_said zar_check(const uint8_t *text, size_t text_length);

/* The lines of `zar show`: the canonical text of the program, which is not checked. */
zar_said zar_show(const uint8_t *text, size_t text_length, uint8_t *lines, size_t capacity);

/* The lines of `zar code`: the listing of the code that samples the program. */
zar_said zar_code(const uint8_t *text, size_t text_length, uint8_t *lines, size_t capacity);

/* What is found wrong with a text that a call refused with this code at this place: a line, as the program shows it on a terminal, or
 * none where there is nothing to say beyond the words of the code, or memory ran out while it was sought. Its place in the text,
 * which may be another, is told beside it. */
zar_said zar_explain(const uint8_t *text, size_t text_length, uint8_t code, uint32_t place, uint8_t *lines, size_t capacity);

/* The limits of runs, and how many bits of a stream a run may read. */
typedef struct {
    uint64_t budget;   /* 0 to 1,000,000,000 */
    uint64_t turns;    /* of each entry of a loop, 0 to 1,000,000,000 */
    uint64_t attempts; /* of each draw, 1 to 1,000,000,000 */
    uint64_t rounds;   /* of a run, 1 to 1,000,000,000 */
} zar_limits;

/* How a run or a roll ends. */
enum {
    ZAR_VALUE = 0,
    ZAR_OVERFLOW = 1,     /* a result outside the numbers of 64 bits */
    ZAR_ZERO_DIVISOR = 2, /* a division or a remainder by 0 */
    ZAR_BAD_BOUND = 3,    /* a uniform draw of a bound below 1 */
    ZAR_TURNS = 4,        /* cut off by the limit of turns */
    ZAR_ATTEMPTS = 5,     /* by that of attempts */
    ZAR_ROUNDS = 6,       /* by that of rounds */
    ZAR_MORE_BITS = 7,    /* it needs more bits than the budget has */
    ZAR_FLIPS = 8         /* a roll alone: cut off by the limit of flips */
};

/* The words of an end, as `zar` prints them; of any other number none. */
static inline const char *zar_ending(uint8_t end) {
    static const char *const words[] = {
        "value", "fault overflow", "fault zero divisor", "fault bad bound", "limit turns", "limit attempts", "limit rounds", "more bits",
        "limit flips"};
    return end < sizeof words / sizeof words[0] ? words[end] : "";
}

/* Draws: at place k of both arrays it writes how the run on the stream first + k of the seed ends, which is what
 *     zar sample TEXT --seed SEED --stream FIRST+K --budget .. --turns .. --attempts .. --rounds ..
 * prints: in `ends` the end, and in `values` the value, or 0 where there is none. The arrays have one length, and first + length is
 * at most 2^64. Streams are told apart by seed and number, so parts of an array can be filled by calls of their own, on any threads,
 * and hold the same numbers as if one call had filled it. */
zar_said zar_draws(const uint8_t *text, size_t text_length, uint64_t seed, uint64_t first, const zar_limits *limits,
                   int64_t *values, size_t values_length, uint8_t *ends, size_t ends_length);

/* The lines of `zar tally`: how often each outcome comes on the streams from `from` on and below `to`, at most 2^40, each with its first
 * `budget` bits. It counts in the caller's thread, with no memory for each stream; parts of a range can be counted by several. */
zar_said zar_tally(const uint8_t *text, size_t text_length, uint64_t seed, uint64_t from, uint64_t to, const zar_limits *limits,
                   uint8_t *lines, size_t capacity);

/* A stream that was found, or 0 and that there is none. */
typedef struct {
    uint64_t stream;
    bool found;
} zar_found;

/* A hunt, as `zar hunt`: it writes which is the least stream, from `from` on and below `to`, whose run zar_draws would tell by this end and
 * this value, or that there is none. The value is looked at where the end is ZAR_VALUE alone; the end is none of a roll. It runs in the
 * caller's thread, and stops at the first such stream. The streams are those of zar_tally. */
zar_said zar_hunt(const uint8_t *text, size_t text_length, uint64_t seed, uint64_t from, uint64_t to, const zar_limits *limits,
                  int64_t value, uint8_t end, zar_found *found);

/* How a run ended: its value, or 0 where it has none; how many bits it read; and which end it is. */
typedef struct {
    int64_t value;
    uint64_t read;
    uint8_t end;
} zar_ran;

/* A run on bits of the caller: it writes how the run on the bits of the bytes ends, each byte's most significant bit first, which is
 * what
 *     zar sample TEXT --bits FILE --turns .. --attempts .. --rounds ..
 * prints for a file of these bytes. Where the end is ZAR_MORE_BITS it needs more than there are: with the same bytes before others it
 * goes on as it began. The limits have the ranges of `zar_limits`. */
zar_said zar_run(const uint8_t *text, size_t text_length, const uint8_t *bits, size_t bits_length, uint64_t turns, uint64_t attempts,
                 uint64_t rounds, zar_ran *ran);

/* Draws in a row: at place k of both arrays it writes how the run ends on what the k runs before it left of the first `budget` bits of
 * the stream, all told in `ends` and `values` as by zar_draws, and in `read` how many bits all of them read. So the draws at two places
 * are independent on fair bits, and they cost less than those on streams of their own. The budget is that of all runs together; a run
 * that needs more leaves nothing, and ZAR_MORE_BITS stands from there on. The arrays have one length. */
zar_said zar_draws_in_a_row(const uint8_t *text, size_t text_length, uint64_t seed, uint64_t stream, const zar_limits *limits,
                            int64_t *values, size_t values_length, uint8_t *ends, size_t ends_length, uint64_t *read);

/* How many bits of a stream there are for a roll, and how many of them it may read. */
typedef struct {
    uint64_t budget; /* 0 to 1,000,000,000 */
    uint64_t flips;  /* 0 to 1,000,000,000 */
} zar_roll_limits;

/* Rolls by weights: at place k of both arrays it writes what the roll on the stream first + k of the seed gives, which is what
 *     zar roll W,W,.. --seed SEED --stream FIRST+K --budget .. --flips ..
 * prints: in `ends` the end, which is ZAR_VALUE, ZAR_FLIPS or ZAR_MORE_BITS, and in `labels` the label, or 0 where there is none.
 * The label i, from 0 on, comes with the chance weights[i] in the sum of all. There are 2 to 2^32 weights, with a sum of at most
 * 2^62, which is none of them; a weight may be 0. The arrays and `first` are as for zar_draws. A call lays out 64 columns of the
 * weights, of at most 4 bytes a weight each, and then rolls; so ask for many rolls at a time. */
zar_said zar_roll(const uint64_t *weights, size_t weights_length, uint64_t seed, uint64_t first, const zar_roll_limits *limits,
                  uint64_t *labels, size_t labels_length, uint8_t *ends, size_t ends_length);

/* The lines of `zar mass`: each outcome and its exact mass. `turns` is 0 to 1,000,000,000, as are `attempts` and `rounds`, of which 0
 * stands for no limit. The codes of ZAR_MASS_REFUSED are 13, 14 and 15. */
zar_said zar_mass(const uint8_t *text, size_t text_length, uint64_t turns, uint64_t attempts, uint64_t rounds,
                  uint8_t *lines, size_t capacity);

/* The lines of `zar posterior`: bounds of the masses at every greater limit of turns. `turns` and codes are those of zar_mass. */
zar_said zar_posterior(const uint8_t *text, size_t text_length, uint64_t turns, uint8_t *lines, size_t capacity);

/* The lines of `zar enclose`: two fractions between which the mass of each outcome lies, however wide that is; with `all_turns` they
 * hold at every greater limit of turns, too. The limits are those of zar_mass; the codes of ZAR_MASS_REFUSED are 14, 15 and 17. */
zar_said zar_enclose(const uint8_t *text, size_t text_length, uint64_t turns, uint64_t attempts, uint64_t rounds, bool all_turns,
                     uint8_t *lines, size_t capacity);

/* The lines of `zar exact`: each outcome and its exact mass where nothing is limited, and what never ends. The codes of
 * ZAR_MASS_REFUSED are those of zar_mass. */
zar_said zar_exact(const uint8_t *text, size_t text_length, uint8_t *lines, size_t capacity);

/* The line of `zar cost` under limits: how many bits a run reads on average. The limits have the ranges of `zar_limits`; the codes of
 * ZAR_MASS_REFUSED are 13 and 14. */
zar_said zar_cost(const uint8_t *text, size_t text_length, uint64_t turns, uint64_t attempts, uint64_t rounds,
                  uint8_t *lines, size_t capacity);

/* The line of `zar cost` where nothing is limited: `bits P/Q`, or `bits unbounded` where there is no bound. The codes of
 * ZAR_MASS_REFUSED are those of zar_cost. */
zar_said zar_cost_in_the_limit(const uint8_t *text, size_t text_length, uint8_t *lines, size_t capacity);

/* The line of rounds of `zar cost --how-long`: `rounds P/Q`, how many a run begins on average where nothing is limited, or `rounds unbounded` where there
 * is no bound. The codes of ZAR_MASS_REFUSED are those of zar_cost_in_the_limit. */
zar_said zar_rounds_in_the_limit(const uint8_t *text, size_t text_length, uint8_t *lines, size_t capacity);

/* The lines of draws and of turns of loops of `zar cost --how-long`: `draws P/Q` and `turns P/Q`, how many a run makes on average where nothing is
 * limited, or `draws unbounded` and `turns unbounded` where there is no bound. Where the number is not found they are `draws unknown` and
 * `turns unknown`, which says nothing of the program. The status is never ZAR_MASS_REFUSED. */
zar_said zar_draws_in_the_limit(const uint8_t *text, size_t text_length, uint8_t *lines, size_t capacity);
zar_said zar_turns_in_the_limit(const uint8_t *text, size_t text_length, uint8_t *lines, size_t capacity);

/* The lines of `zar audit`: for each outcome the share of all strings of `depth` bits, 0 to 20, on which the run ends in it, and the share
 * of those on which it needs more. The limits have the ranges of `zar_limits`. The time may double with each bit. */
zar_said zar_audit(const uint8_t *text, size_t text_length, uint32_t depth, uint64_t turns, uint64_t attempts, uint64_t rounds,
                   uint8_t *lines, size_t capacity);

#ifdef __cplusplus
}
#endif
#endif
