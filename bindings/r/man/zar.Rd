\name{zar}
\alias{zar_audit}
\alias{zar_check}
\alias{zar_cost}
\alias{zar_rounds}
\alias{zar_draws}
\alias{zar_enclose}
\alias{zar_exact}
\alias{zar_expected_draws}
\alias{zar_expected_turns}
\alias{zar_hunt}
\alias{zar_in_a_row}
\alias{zar_mass}
\alias{zar_posterior}
\alias{zar_roll}
\alias{zar_run}
\alias{zar_runs}
\alias{zar_show}
\alias{zar_tally}
\alias{zar_version}
\title{Draws from probabilistic programs, and their exact probabilities}
\description{
A program of the language cpGCL is drawn from without rounding, and each outcome has its exact probability. The same seed and the same
streams give the same draws on any machine.
}
\usage{
zar_draws(text, n, seed, first = 0, budget = 65536, turns = 1000,
          attempts = 1000, rounds = 1000)
zar_runs(text, n, seed, first = 0, budget = 65536, turns = 1000,
         attempts = 1000, rounds = 1000)
zar_tally(text, n, seed, first = 0, budget = 65536, turns = 1000,
          attempts = 1000, rounds = 1000)
zar_hunt(text, outcome, n, seed, first = 0, budget = 65536,
         turns = 1000, attempts = 1000, rounds = 1000)
zar_in_a_row(text, n, seed, stream = 0, budget = 1e9, turns = 1000,
             attempts = 1000, rounds = 1000)
zar_run(text, bits, turns = 1000, attempts = 1000, rounds = 1000)
zar_mass(text, turns = 30, attempts = NULL, rounds = NULL)
zar_exact(text)
zar_posterior(text, turns = 30)
zar_enclose(text, turns = 30, attempts = NULL, rounds = NULL,
            all_turns = FALSE)
zar_audit(text, depth, turns = 1000, attempts = 1000, rounds = 1000)
zar_cost(text, turns = NULL, attempts = NULL, rounds = NULL)
zar_rounds(text)
zar_expected_draws(text)
zar_expected_turns(text)
zar_roll(weights, n, seed, first = 0, budget = 65536, flips = 1000)
zar_check(text)
zar_show(text)
zar_version()
}
\arguments{
\item{text}{the text of a program, one string}
\item{weights}{2 or more whole numbers from 0 on, of which none is the whole sum}
\item{n}{how many draws}
\item{seed, first}{the seed, and the number of the stream of the first draw; each draw has a stream of its own. Whole numbers from 0 to 2^53}
\item{stream}{the number of the stream of draws in a row, a whole number from 0 to 2^53}
\item{outcome}{a number, or the words of an end without one, as \code{"limit turns"}}
\item{bits}{raw bytes, each with its most significant bit first}
\item{depth}{how many bits the strings have, 0 to 20}
\item{all_turns}{whether the bounds are to hold at every greater limit of turns, too}
\item{budget}{how many bits of its stream a draw may read, and those in a row together, 0 to 10^9}
\item{turns}{how often each entry of a loop may turn, 0 to 10^9. What is weighed has 30 where none is given, and what is drawn 1000}
\item{attempts}{how often each draw of a run may be tried, 1 to 10^9; \code{NULL} is no limit}
\item{rounds}{how often a run may begin anew where an observation fails, 1 to 10^9; \code{NULL} is no limit}
\item{flips}{how many bits a roll may read, 0 to 10^9}
}
\value{
\code{zar_draws}: the values, as doubles. A run that ends without a value is an error, since to leave it out would be to condition on its not
coming. \code{zar_runs}: a data frame with a row for each run, its \code{value}, or \code{NA}, and its \code{end}.

\code{zar_tally}: a data frame with a row for each outcome that comes, and its \code{count}. \code{zar_hunt}: the first stream whose run ends
in the outcome, or \code{NA}.

\code{zar_in_a_row}: a data frame as that of \code{zar_runs}, of runs of which each reads on where the one before it stopped; the attribute
\code{bits} is how many bits all of them read. \code{zar_run}: such a row for the run on these bits, with how many \code{bits} it read.

\code{zar_mass} and \code{zar_exact}, the one under limits and the other where nothing is limited: a data frame with a row for each
\code{outcome}, its \code{value}, or \code{NA}, its exact \code{mass} as a text, and that rounded, \code{p}.

\code{zar_posterior} and \code{zar_enclose}: for each outcome two fractions between which its mass lies, \code{low} and \code{high}, and
these rounded; the one for each greater limit of turns, the other however wide the mass is. \code{zar_audit}: masses of all strings of so many
bits, with \code{undecided}, on which a run needs more. \code{zar_cost}: how many bits a run reads on average, \code{exact} as a text, and
rounded; \code{unbounded} and \code{Inf} where there is no bound. Nothing is limited where no limit is given; else \code{attempts} and
\code{rounds} are both to be given, and \code{turns} are 30 where they are not. \code{zar_rounds}: how many rounds a run begins on average where
nothing is limited, likewise. \code{zar_expected_draws} and \code{zar_expected_turns}: how many draws, and how many turns of loops, it makes,
likewise; \code{unknown} and \code{NA} where the number is not found, which says nothing of the program. A draw counts 1 once it is decided, and a
turn when its guard is found true.

\code{zar_roll}: places of the weights, from 1 on, by the fewest coin flips.

\code{zar_check}: \code{TRUE}; \code{zar_show}: the canonical text; \code{zar_version}: the version of the library.

A text that is no program, or has no masses that can be given, is an error of the class \code{zar_refused}, with \code{code}, \code{line},
\code{column}, and \code{hint}, which says what is wrong there, or \code{NA}. A number out of its range, a value beyond 2^53 and want of memory are errors, too.
}
\examples{
die <- "face ~ uniform(6); observe face \% 2 = 1; return face + 1;"
zar_draws(die, 10, seed = 1)
zar_mass(die)
zar_tally(die, 1000, seed = 1)
c("red", "green", "blue")[zar_roll(c(3, 2, 1), 5, seed = 1)]
tryCatch(zar_check("return y;"), zar_refused = function(why) why$code)
}
