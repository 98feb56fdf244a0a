# What the library answers through the package, beside what is worked out by hand.
library(zar)

refused <- function(call) tryCatch({ call; "nothing" }, error = conditionMessage)

die <- "face ~ uniform(6); observe face % 2 = 1; return face + 1;"
masses <- zar_mass(die)
stopifnot(identical(masses$value, c(2, 4, 6)), identical(masses$mass, rep("1/3", 3)), identical(masses$p, rep(1 / 3, 3)))
stopifnot(identical(zar_mass(die, rounds = 2)$mass, rep("1/4", 4)), is.na(zar_mass(die, rounds = 2)$value[4]))

faulty <- "x ~ uniform(2); while x = 1 { skip; } return 1 / x;"
stopifnot(identical(zar_exact(faulty)$outcome, c("fault zero divisor", "endless")))
stopifnot(identical(zar_exact("return 0 - 5;")$value, -5))

# Parts of a range of streams are the whole, across the blocks that the package draws in.
coin <- "x ~ uniform(2); return x;"
whole <- zar_draws(coin, 100000, seed = 7)
stopifnot(all(whole %in% 0:1), identical(c(zar_draws(coin, 10, 7), zar_draws(coin, 99990, 7, first = 10)), whole))
stopifnot(identical(zar_draws(coin, 0, seed = 1), numeric()), nrow(zar_runs(coin, 0, seed = 1)) == 0)
runs <- zar_runs(coin, 3, seed = 1, budget = 0)
stopifnot(all(runs$end == "more bits"), all(is.na(runs$value)))

# The stream 0 of the seed 0 begins with 1010, on which the weights 3, 2 and 1 give the second label.
stopifnot(identical(zar_roll(c(3, 2, 1), 1, seed = 0), 2))

# Bounds, the strings of three bits of a choice of 2/3, and the bits of a die by single attempts.
waits <- zar_posterior("x ~ uniform(2); while x = 1 { x ~ uniform(2); } return x;", turns = 0)
stopifnot(identical(waits$outcome, c("value 0", "other")), identical(waits$low, c("1/2", "0/1")), identical(waits$p_high, c(1, 0.5)))
stopifnot(identical(zar_enclose("return 1;", all_turns = TRUE)$high[1], "1/1"))
two_thirds <- "choice 2/3 { x := 1; } or { x := 2; } return x;"
shares <- zar_audit(two_thirds, 3)
stopifnot(identical(shares$outcome, c("value 1", "value 2", "undecided")), identical(shares$mass, c("5/8", "1/4", "1/8")))
stopifnot(refused(zar_audit(two_thirds, 21)) == "a number is out of its range")
stopifnot(identical(zar_cost(die, attempts = 1, rounds = 1), data.frame(exact = "11/4", bits = 2.75)))
stopifnot(identical(zar_cost(die)$exact, "22/3"), refused(zar_cost(die, rounds = 1)) == "attempts and rounds are both to be given, or no limit at all")
stopifnot(identical(zar_cost("x ~ uniform(2); observe false; return x;")$bits, Inf))
stopifnot(identical(zar_rounds(die)$exact, "2/1"), identical(zar_rounds("observe false; return 0;")$rounds, Inf))
tossed <- "while x = 0 { x ~ uniform(2); y ~ uniform(2); } return x;"
stopifnot(identical(zar_expected_draws(tossed)$exact, "4/1"), identical(zar_expected_turns(tossed)$turns, 2))
stopifnot(identical(zar_expected_turns("while true { skip; } return 0;")$turns, Inf))
many <- "x ~ uniform(400); while i < 200 { x := 399 - x; i := i + 1; } return x;"
stopifnot(identical(zar_expected_draws(many), data.frame(exact = "unknown", draws = NA_real_)))

# The runs on streams, counted and sought.
ones <- which(whole == 1) - 1
stopifnot(identical(zar_tally(coin, 100000, 7)$count, as.double(c(100000 - length(ones), length(ones)))))
stopifnot(zar_hunt(coin, 1, 100000, 7) == ones[1], is.na(zar_hunt(coin, 2, 1000, 7)), zar_hunt(coin, 1, 1000, 7, first = ones[1] + 1) == ones[2])
stopifnot(zar_hunt(coin, "more bits", 9, 7, first = 3, budget = 0) == 3, refused(zar_hunt(coin, "never", 9, 7)) != "nothing")

# The bits of bytes, and of a stream in a row: the stream 0 of the seed 0 begins with the byte ad (RFC 8439, A.1, test vector 1).
four <- "x ~ uniform(4); return x;"
stopifnot(identical(zar_run(four, as.raw(0xb1))$value, 2), zar_run(four, as.raw(0xb1))$bits == 2, zar_run(four, raw())$end == "more bits")
row <- zar_in_a_row(four, 4, seed = 0)
stopifnot(identical(row$value, c(2, 2, 3, 1)), attr(row, "bits") == 8, all(zar_in_a_row(four, 2, 0, budget = 3)$end == c("value", "more bits")))

why <- tryCatch(zar_check("x := 1;\n\t# \u00e9\n\ty := x +;\nreturn y;"), zar_refused = identity)
hint <- "a number or a name is missing before this"
stopifnot(why$code == 5, why$line == 3, why$column == 10, why$hint == hint)
stopifnot(conditionMessage(why) == paste0("E5 unexpected, line 3, column 10: ", hint))
stopifnot(refused(zar_mass("observe false; return 1;")) == "E15 every round fails")
stopifnot(refused(zar_check("")) == "E5 unexpected, line 1, column 1: the program ends with its result, return EXPR;")
stopifnot(refused(zar_draws(coin, 9, seed = 1, first = 3, budget = 0)) == "the run on stream 3 has no value: more bits")
stopifnot(refused(zar_draws("return 9007199254740993;", 1, seed = 1)) == "the value on stream 0 is beyond 2^53")
stopifnot(refused(zar_draws(coin, 1:2, seed = 1)) == "n is no whole number from 0 to 2^53")
stopifnot(refused(zar_draws(coin, 1, seed = -1)) == "seed is no whole number from 0 to 2^53")
stopifnot(refused(zar_draws(coin, 1, seed = 1, rounds = 0)) == "a number is out of its range")
stopifnot(refused(zar_mass(coin, attempts = 0)) == "attempts is no whole number from 1 to 2^53")
for (weights in list(numeric(), 5, c(0, 5), c(2^62, 1)))
    stopifnot(refused(zar_roll(weights, 1, seed = 1)) %in% c("a number is out of its range", "weights is no whole number from 0 to 2^53"))
stopifnot(refused(zar_check(3)) == "a text is one string")
stopifnot(identical(zar_show("x:=1;return x;"), "x := 1;\nreturn x;\n"), grepl("^[0-9.]+$", zar_version()))
