# The calls of the library, and why they have no answer.

# A whole number that a double has exactly, or several.
whole <- function(name, it, least = 0, several = FALSE) {
    if (!is.numeric(it) || (length(it) != 1 && !several) || anyNA(it) || any(it < least | it > 2^53 | it != floor(it)))
        stop(sprintf("%s is no whole number from %d to 2^53", name, least), call. = FALSE)
    as.double(it)
}

bytes_of <- function(text) {
    if (!is.character(text) || length(text) != 1 || is.na(text))
        stop("a text is one string", call. = FALSE)
    charToRaw(enc2utf8(text))
}

# An error of the class zar_refused, with its code, its line and column where it has a place in the text, and a sentence that says what is wrong
# there, where the library finds it.
refused <- function(code, place, text) {
    line <- column <- NA
    where <- ""
    if (!is.na(place)) {
        before <- text[seq_len(place)]
        start <- max(0, which(before == 10))
        line <- sum(before == 10) + 1
        column <- nchar(iconv(rawToChar(before[seq_len(place) > start]), "UTF-8", "UTF-8", sub = "?")) + 1
        where <- sprintf(", line %d, column %d", line, column)
    }
    hint <- if (is.na(place)) NA else .Call(call_explain, text, code, place)
    told <- sprintf("E%d %s%s%s", code, .Call(call_reason, code), where, if (is.na(hint)) "" else paste0(": ", hint))
    structure(
        class = c("zar_refused", "error", "condition"),
        list(message = told, call = NULL, code = code, line = line, column = column, hint = hint)
    )
}

# What a call answers, where its status is 0.
taken <- function(said, text = raw()) {
    if (said$status == 2)
        stop("a number is out of its range", call. = FALSE)
    if (said$status == 5)
        stop("libzar is out of memory", call. = FALSE)
    if (said$status != 0)
        stop(refused(said$code, said$place, text))
    said
}

lines_of <- function(ask, text, limits = 0) {
    text <- bytes_of(text)
    taken(.Call(call_lines, ask, text, c(as.double(limits), -1)), text)$first
}
