# Programs and dice. The help of each function is in man/.

zar_version <- function() sub("zar ([^\n]*)\n", "\\1", lines_of(4L, ""))

zar_check <- function(text) {
    lines_of(0L, text)
    invisible(TRUE)
}

zar_show <- function(text) lines_of(1L, text)

zar_mass <- function(text, turns = 30, attempts = NULL, rounds = NULL) {
    limits <- c(whole("turns", turns), or_none("attempts", attempts), or_none("rounds", rounds))
    rows(lines_of(2L, text, limits))
}

zar_exact <- function(text) rows(lines_of(3L, text))

zar_posterior <- function(text, turns = 30) bounds(lines_of(5L, text, whole("turns", turns)))

zar_enclose <- function(text, turns = 30, attempts = NULL, rounds = NULL, all_turns = FALSE) {
    limits <- c(whole("turns", turns), or_none("attempts", attempts), or_none("rounds", rounds))
    bounds(lines_of(6L, text, c(limits, isTRUE(all_turns))))
}

zar_cost <- function(text, turns = NULL, attempts = NULL, rounds = NULL) {
    if (is.null(turns) && is.null(attempts) && is.null(rounds)) {
        line <- lines_of(10L, text)
    } else if (is.null(attempts) || is.null(rounds)) {
        stop("attempts and rounds are both to be given, or no limit at all", call. = FALSE)
    } else {
        turns <- if (is.null(turns)) 30 else turns
        line <- lines_of(7L, text, c(whole("turns", turns), whole("attempts", attempts), whole("rounds", rounds)))
    }
    exact <- sub("bits ([^\n]*)\n", "\\1", line)
    data.frame(exact = exact, bits = if (exact == "unbounded") Inf else rounded(exact))
}

zar_rounds <- function(text) {
    exact <- sub("rounds ([^\n]*)\n", "\\1", lines_of(11L, text))
    data.frame(exact = exact, rounds = if (exact == "unbounded") Inf else rounded(exact))
}

zar_expected_draws <- function(text) {
    exact <- sub("draws ([^\n]*)\n", "\\1", lines_of(12L, text))
    data.frame(exact = exact, draws = counted(exact))
}

zar_expected_turns <- function(text) {
    exact <- sub("turns ([^\n]*)\n", "\\1", lines_of(13L, text))
    data.frame(exact = exact, turns = counted(exact))
}

zar_audit <- function(text, depth, turns = 1000, attempts = 1000, rounds = 1000) {
    if (whole("depth", depth) > 20)
        stop("a number is out of its range", call. = FALSE)
    rows(lines_of(8L, text, c(depth, whole("turns", turns), whole("attempts", attempts), whole("rounds", rounds))))
}

zar_tally <- function(text, n, seed, first = 0, budget = 65536, turns = 1000, attempts = 1000, rounds = 1000) {
    streams <- c(whole("seed", seed), whole("first", first), first + whole("n", n))
    told <- split_at(lines_of(9L, text, c(streams, run_limits(budget, turns, attempts, rounds))), " count ")
    data.frame(outcome = told$outcome, value = told$value, count = as.double(told$rest))
}

zar_hunt <- function(text, outcome, n, seed, first = 0, budget = 65536, turns = 1000, attempts = 1000, rounds = 1000) {
    end <- if (is.numeric(outcome)) 0 else match(outcome, .Call(call_endings)[2:8])
    if (length(end) != 1 || is.na(end))
        stop("an outcome is a number, or the words of an end without one", call. = FALSE)
    value <- if (end) 0 else sign(outcome) * whole("outcome", abs(outcome))
    text <- bytes_of(text)
    limits <- run_limits(budget, turns, attempts, rounds)
    taken(.Call(call_hunt, text, value, end, whole("seed", seed), whole("first", first), whole("n", n), limits), text)$first
}

zar_run <- function(text, bits, turns = 1000, attempts = 1000, rounds = 1000) {
    if (!is.raw(bits))
        stop("bits are raw bytes", call. = FALSE)
    text <- bytes_of(text)
    said <- taken(.Call(call_run, text, bits, run_limits(0, turns, attempts, rounds)), text)
    cbind(frame(said), bits = attr(said, "bits"))
}

zar_in_a_row <- function(text, n, seed, stream = 0, budget = 1e9, turns = 1000, attempts = 1000, rounds = 1000) {
    text <- bytes_of(text)
    limits <- run_limits(budget, turns, attempts, rounds)
    said <- taken(.Call(call_row, text, whole("seed", seed), whole("stream", stream), whole("n", n), limits), text)
    structure(frame(said), bits = attr(said, "bits"))
}

zar_runs <- function(text, n, seed, first = 0, budget = 65536, turns = 1000, attempts = 1000, rounds = 1000) {
    frame(runs_of(bytes_of(text), n, seed, first, run_limits(budget, turns, attempts, rounds)))
}

zar_draws <- function(text, n, seed, first = 0, budget = 65536, turns = 1000, attempts = 1000, rounds = 1000) {
    values_of(zar_runs(text, n, seed, first, budget, turns, attempts, rounds), first)
}

zar_roll <- function(weights, n, seed, first = 0, budget = 65536, flips = 1000) {
    limits <- c(whole("budget", budget), whole("flips", flips))
    1 + values_of(frame(runs_of(whole("weights", weights, several = TRUE), n, seed, first, limits)), first)
}

# The limits of a run.
run_limits <- function(budget, turns, attempts, rounds) {
    c(whole("budget", budget), whole("turns", turns), whole("attempts", attempts), whole("rounds", rounds))
}

# A limit as the library takes it: 0 where there is none.
or_none <- function(name, limit) if (is.null(limit)) 0 else whole(name, limit, 1)

runs_of <- function(from, n, seed, first, limits) {
    said <- .Call(call_runs, from, whole("seed", seed), whole("first", first), whole("n", n), limits)
    taken(said, if (is.raw(from)) from else raw())
}

# The ends of runs, and their values.
frame <- function(said) {
    endings <- .Call(call_endings)
    data.frame(value = said$first, end = structure(said$second, levels = endings, class = "factor"))
}

# The values of runs, of which each must have one: to leave the others out would be to condition on their not coming.
values_of <- function(runs, first) {
    without <- which(runs$end != "value")
    if (length(without))
        stop(sprintf("the run on stream %.0f has no value: %s", first + without[1] - 1, runs$end[without[1]]), call. = FALSE)
    runs$value
}

# The rows of lines: an outcome, its value or NA, and what stands behind a word.
split_at <- function(lines, word) {
    lines <- strsplit(lines, "\n", fixed = TRUE)[[1]]
    outcome <- sub(paste0(word, ".*"), "", lines)
    value <- ifelse(startsWith(outcome, "value "), sub("value ", "", outcome), NA)
    list(outcome = outcome, value = as.double(value), rest = sub(paste0(".*", word), "", lines))
}

# Fractions as doubles.
rounded <- function(fractions) {
    vapply(strsplit(fractions, "/", fixed = TRUE), function(it) as.double(it[1]) / as.double(it[2]), 0)
}

# A count as a double.
counted <- function(exact) {
    switch(exact, unbounded = Inf, unknown = NA_real_, rounded(exact))
}

# Outcomes, each with its exact mass, and that rounded.
rows <- function(lines) {
    told <- split_at(lines, " mass ")
    data.frame(outcome = told$outcome, value = told$value, mass = told$rest, p = rounded(told$rest))
}

# Outcomes, each with two fractions between which its mass lies, and these rounded.
bounds <- function(lines) {
    told <- split_at(lines, " from ")
    low <- sub(" to .*", "", told$rest)
    high <- sub(".* to ", "", told$rest)
    data.frame(outcome = told$outcome, value = told$value, low = low, high = high, p_low = rounded(low), p_high = rounded(high))
}
