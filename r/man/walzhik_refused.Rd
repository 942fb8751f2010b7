\name{walzhik_refused}
\alias{walzhik_refused}
\alias{walzhik_usage}
\alias{walzhik_unfitted}
\alias{walzhik_unreadable}
\title{Refusals as Conditions}
\description{
Input that the engine refuses is an error of class \code{walzhik_refused}, with the engine's number and place and both in words.
Arguments that can't be passed to the engine at all, such as text in place of numbers, give an error of class \code{walzhik_usage}.
What \code{\link{read_widths}} can't interpret in a Heidelberg file or a table, and a file without a series, give an error of class
\code{walzhik_unreadable}.
}
\section{Fields of walzhik_refused}{
\describe{
\item{\code{number}}{the reason, 2 to 26, as the manual lists them; 1 never occurs in R, which passes buffers that are long enough}
\item{\code{place}}{the breakpoint, stretch, join, entry, ring, series or line at fault. Lines count from 1, everything else from 0, as
in the manual; 4294967295 stands for a wrong count.}
\item{\code{words}}{what is wrong and where, by R's argument names; entries count from 1}
\item{\code{remedy}}{what to do}
\item{\code{series}}{the series at fault, if there is one}
}
The message has all of these, and the call is the one that the user wrote. \code{walzhik_unreadable} has the \code{line},
\code{words} and \code{remedy}; \code{walzhik_unfitted} is the warning of
\code{\link{detrend_curve}} about a series that can't be fitted; its field \code{series} names it. \code{\link{walzhik_notes}} is the message about what was changed or left out in a file.
}
\examples{
tryCatch(curve_space(c(0, 1, 3), c(1, 2), 1), walzhik_refused = function(refusal) {
  cat("number", refusal$number, "place", refusal$place, "\n")
  cat(refusal$words, "\n")
})

tryCatch(curve_space(c("0", "1"), 1), walzhik_usage = conditionMessage)
}
\keyword{error}
