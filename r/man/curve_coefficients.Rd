\name{curve_coefficients}
\alias{curve_coefficients}
\title{Coefficients from a Supplier's Ordinates}
\description{
Computes, with the proved call, the exact coefficients for the local ordinates of one wood part. They give back each ordinate exactly,
and no others do.
}
\usage{
curve_coefficients(space, ordinates)
}
\arguments{
\item{space}{a \code{\link[=curve_space]{walzhik_space}}.}
\item{ordinates}{the Bernstein ordinates of all segments in order, one more than its degree for each, in whole 256ths of a
thousandth of a millimetre, from -256,000,000 to 256,000,000.}
}
\value{
A data frame with \code{n} rows, \code{numerator} and \code{denominator} of each coefficient in 256ths of a thousandth of a millimetre,
in lowest terms. Ordinates that violate a condition of a join are refused with number 19: no coefficients of any size give them.
}
\examples{
space <- curve_space(c(0, 30, 60), c(3, 4), 2)
ordinates <- c(1843200, 1612800, 1477272, 1295060,
               1295060, 1158401, 998400, 844800, 691200)
curve_coefficients(space, ordinates)

# One 256th too many: the slopes don't agree.
ordinates[6] <- ordinates[6] + 1
try(curve_coefficients(space, ordinates))
}
\keyword{models}
