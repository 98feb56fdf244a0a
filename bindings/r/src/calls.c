/* The calls of libzar as R makes them. Numbers of 64 bits are doubles in R, so whole ones up to 2^53. */
#include <R.h>
#include <R_ext/Rdynload.h>
#include <Rinternals.h>
#include <zar.h>

enum { BLOCK = 65536, ROOM = 1 << 24 };
static const int64_t GREATEST = INT64_C(1) << 53;

/* What a call answers: status, code, and place or NA; and what it wrote. */
static SEXP answer(zar_said said, SEXP first, SEXP second) {
    const char *names[] = {"status", "code", "place", "first", "second", ""};
    SEXP list = PROTECT(Rf_mkNamed(VECSXP, names));
    SET_VECTOR_ELT(list, 0, Rf_ScalarInteger(said.status));
    SET_VECTOR_ELT(list, 1, Rf_ScalarInteger(said.code));
    SET_VECTOR_ELT(list, 2, Rf_ScalarInteger(said.has_place ? (int)said.place : NA_INTEGER));
    SET_VECTOR_ELT(list, 3, first);
    SET_VECTOR_ELT(list, 4, second);
    UNPROTECT(1);
    return list;
}

/* Limits of runs: the budget, turns, attempts and rounds. */
static zar_limits limits_of(const double *of) {
    const zar_limits limits = {(uint64_t)of[0], (uint64_t)of[1], (uint64_t)of[2], (uint64_t)of[3]};
    return limits;
}

/* The calls of this package about lines, each with its numbers. */
enum { CHECK, SHOW, MASS, EXACT, VERSION, POSTERIOR, ENCLOSE, COST, AUDIT, TALLY, COST_IN_THE_LIMIT, ROUNDS_IN_THE_LIMIT,
       DRAWS_IN_THE_LIMIT, TURNS_IN_THE_LIMIT };

static zar_said lines_of(int ask, SEXP text, const double *given, uint8_t *lines, size_t room) {
    const uint8_t *bytes = RAW(text);
    size_t length = (size_t)XLENGTH(text);
    uint64_t n[7] = {0};
    for (int k = 0; k < 7 && given[k] >= 0; k++)
        n[k] = (uint64_t)given[k];
    switch (ask) {
    case CHECK: return zar_check(bytes, length);
    case SHOW: return zar_show(bytes, length, lines, room);
    case MASS: return zar_mass(bytes, length, n[0], n[1], n[2], lines, room);
    case EXACT: return zar_exact(bytes, length, lines, room);
    case POSTERIOR: return zar_posterior(bytes, length, n[0], lines, room);
    case ENCLOSE: return zar_enclose(bytes, length, n[0], n[1], n[2], n[3], lines, room);
    case COST: return zar_cost(bytes, length, n[0], n[1], n[2], lines, room);
    case COST_IN_THE_LIMIT: return zar_cost_in_the_limit(bytes, length, lines, room);
    case ROUNDS_IN_THE_LIMIT: return zar_rounds_in_the_limit(bytes, length, lines, room);
    case DRAWS_IN_THE_LIMIT: return zar_draws_in_the_limit(bytes, length, lines, room);
    case TURNS_IN_THE_LIMIT: return zar_turns_in_the_limit(bytes, length, lines, room);
    case AUDIT: return zar_audit(bytes, length, (uint32_t)n[0], n[1], n[2], n[3], lines, room);
    case TALLY: {
        const zar_limits limits = limits_of(given + 3);
        return zar_tally(bytes, length, n[0], n[1], n[2], &limits, lines, room);
    }
    default: return zar_version(lines, room);
    }
}

/* The lines of a call about a text, asked for again where they have no room at first. */
static SEXP call_lines(SEXP ask, SEXP text, SEXP limits) {
    size_t room = ROOM;
    for (;;) {
        uint8_t *lines = (uint8_t *)R_alloc(room, 1);
        zar_said said = lines_of(Rf_asInteger(ask), text, REAL(limits), lines, room);
        if (said.length <= room) {
            SEXP told = PROTECT(Rf_ScalarString(Rf_mkCharLenCE((const char *)lines, (int)said.length, CE_UTF8)));
            SEXP list = answer(said, told, R_NilValue);
            UNPROTECT(1);
            return list;
        }
        room = (size_t)said.length;
    }
}

/* A part of the runs on the streams of a seed, by the text, or of rolls by the weights. */
static zar_said part_of(SEXP from, SEXP limits, uint64_t seed, uint64_t first, int64_t *values, uint8_t *ends, size_t count) {
    const double *of = REAL(limits);
    if (TYPEOF(from) == RAWSXP) {
        const zar_limits run = limits_of(of);
        return zar_draws(RAW(from), (size_t)XLENGTH(from), seed, first, &run, values, count, ends, count);
    }
    const zar_roll_limits roll = {(uint64_t)of[0], (uint64_t)of[1]};
    size_t length = (size_t)XLENGTH(from);
    uint64_t *weights = (uint64_t *)R_alloc(length + 1, sizeof *weights);
    for (size_t k = 0; k < length; k++)
        weights[k] = (uint64_t)REAL(from)[k];
    return zar_roll(weights, length, seed, first, &roll, (uint64_t *)values, count, ends, count);
}

/* The runs or rolls on the streams of a seed, so many at a time that an interrupt is heard: values, NA where there is none, and ends. */
static SEXP call_runs(SEXP from, SEXP seed, SEXP first, SEXP count, SEXP limits) {
    size_t length = (size_t)Rf_asReal(count), done = 0;
    int64_t *values = (int64_t *)R_alloc(BLOCK, sizeof *values);
    uint8_t *ends = (uint8_t *)R_alloc(BLOCK, 1);
    SEXP numbers = PROTECT(Rf_allocVector(REALSXP, (R_xlen_t)length)), codes = PROTECT(Rf_allocVector(INTSXP, (R_xlen_t)length));
    zar_said said;
    do {
        size_t part = length - done < BLOCK ? length - done : BLOCK;
        const void *top = vmaxget();
        said = part_of(from, limits, (uint64_t)Rf_asReal(seed), (uint64_t)Rf_asReal(first) + done, values, ends, part);
        vmaxset(top);
        for (size_t k = 0; said.status == ZAR_DONE && k < part; k++) {
            if (values[k] < -GREATEST || values[k] > GREATEST)
                Rf_error("the value on stream %.0f is beyond 2^53", Rf_asReal(first) + (double)(done + k));
            REAL(numbers)[done + k] = ends[k] == ZAR_VALUE ? (double)values[k] : NA_REAL;
            INTEGER(codes)[done + k] = ends[k] + 1;
        }
        done += part;
        R_CheckUserInterrupt();
    } while (said.status == ZAR_DONE && done < length);
    SEXP list = answer(said, numbers, codes);
    UNPROTECT(2);
    return list;
}

/* A value as a double has it. */
static double number_of(int64_t value) {
    if (value < -GREATEST || value > GREATEST)
        Rf_error("a value is beyond 2^53");
    return (double)value;
}

/* The run on bits: its value and its end, and how many bits it read. */
static SEXP call_run(SEXP text, SEXP bits, SEXP limits) {
    zar_ran ran = {0, 0, ZAR_VALUE};
    const zar_limits of = limits_of(REAL(limits));
    zar_said said = zar_run(RAW(text), (size_t)XLENGTH(text), RAW(bits), (size_t)XLENGTH(bits), of.turns, of.attempts, of.rounds, &ran);
    SEXP number = PROTECT(Rf_ScalarReal(ran.end == ZAR_VALUE ? number_of(ran.value) : NA_REAL)), code = PROTECT(Rf_ScalarInteger(ran.end + 1));
    SEXP list = PROTECT(answer(said, number, code));
    Rf_setAttrib(list, Rf_install("bits"), PROTECT(Rf_ScalarReal((double)ran.read)));
    UNPROTECT(4);
    return list;
}

/* Runs in a row on a stream of a seed: their values, NA where there is none, and ends, and how many bits all of them read. */
static SEXP call_row(SEXP text, SEXP seed, SEXP stream, SEXP count, SEXP limits) {
    size_t length = (size_t)Rf_asReal(count);
    int64_t *values = (int64_t *)R_alloc(length + 1, sizeof *values);
    uint8_t *ends = (uint8_t *)R_alloc(length + 1, 1);
    uint64_t read = 0;
    const zar_limits of = limits_of(REAL(limits));
    zar_said said = zar_draws_in_a_row(RAW(text), (size_t)XLENGTH(text), (uint64_t)Rf_asReal(seed), (uint64_t)Rf_asReal(stream), &of, values, length,
                                       ends, length, &read);
    SEXP numbers = PROTECT(Rf_allocVector(REALSXP, (R_xlen_t)length)), codes = PROTECT(Rf_allocVector(INTSXP, (R_xlen_t)length));
    for (size_t k = 0; said.status == ZAR_DONE && k < length; k++) {
        REAL(numbers)[k] = ends[k] == ZAR_VALUE ? number_of(values[k]) : NA_REAL;
        INTEGER(codes)[k] = ends[k] + 1;
    }
    SEXP list = PROTECT(answer(said, numbers, codes));
    Rf_setAttrib(list, Rf_install("bits"), PROTECT(Rf_ScalarReal((double)read)));
    UNPROTECT(4);
    return list;
}

/* The first of so many streams of a seed whose run has this value and this end, or NA. */
static SEXP call_hunt(SEXP text, SEXP value, SEXP end, SEXP seed, SEXP first, SEXP count, SEXP limits) {
    zar_found found = {0, false};
    const zar_limits of = limits_of(REAL(limits));
    uint64_t from = (uint64_t)Rf_asReal(first);
    zar_said said = zar_hunt(RAW(text), (size_t)XLENGTH(text), (uint64_t)Rf_asReal(seed), from, from + (uint64_t)Rf_asReal(count), &of,
                             (int64_t)Rf_asReal(value), (uint8_t)Rf_asInteger(end), &found);
    SEXP list = answer(said, PROTECT(Rf_ScalarReal(found.found ? (double)found.stream : NA_REAL)), R_NilValue);
    UNPROTECT(1);
    return list;
}

/* What is found wrong with a text that is refused, or NA. */
static SEXP call_explain(SEXP text, SEXP code, SEXP place) {
    uint8_t lines[4096];
    zar_said said = zar_explain(RAW(text), (size_t)XLENGTH(text), (uint8_t)Rf_asInteger(code), (uint32_t)Rf_asInteger(place), lines, sizeof lines);
    if (said.status != ZAR_DONE || said.length < 2 || said.length > sizeof lines)
        return Rf_ScalarString(NA_STRING);
    return Rf_ScalarString(Rf_mkCharLenCE((const char *)lines, (int)said.length - 1, CE_UTF8));
}

/* The words of the code of a refusal, and those of all ends. */
static SEXP call_reason(SEXP code) { return Rf_mkString(zar_reason((uint8_t)Rf_asInteger(code))); }

static SEXP call_endings(void) {
    SEXP words = PROTECT(Rf_allocVector(STRSXP, ZAR_FLIPS + 1));
    for (int end = 0; end <= ZAR_FLIPS; end++)
        SET_STRING_ELT(words, end, Rf_mkChar(zar_ending((uint8_t)end)));
    UNPROTECT(1);
    return words;
}

void R_init_zar(DllInfo *library) {
    static const R_CallMethodDef calls[] = {
        {"call_lines", (DL_FUNC)&call_lines, 3},   {"call_runs", (DL_FUNC)&call_runs, 5}, {"call_reason", (DL_FUNC)&call_reason, 1},
        {"call_endings", (DL_FUNC)&call_endings, 0}, {"call_run", (DL_FUNC)&call_run, 3},   {"call_row", (DL_FUNC)&call_row, 5},
        {"call_hunt", (DL_FUNC)&call_hunt, 7},       {"call_explain", (DL_FUNC)&call_explain, 3}, {NULL, NULL, 0}};
    R_registerRoutines(library, NULL, calls, NULL, NULL);
    R_useDynamicSymbols(library, FALSE);
}
