\name{summary.walzhik_fits}
\alias{summary.walzhik_fits}
\alias{summary.walzhik_curve}
\alias{summary.rwl}
\title{Tables of Widths, Fits and Curves}
\description{
A row for each series of widths or fits, or for each stretch of a curve.
}
\usage{
\method{summary}{rwl}(object, ...)

\method{summary}{walzhik_fits}(object, ...)

\method{summary}{walzhik_curve}(object, ...)
}
\arguments{
\item{object}{a data frame of widths, fitted curves, or a curve.}
\item{...}{none.}
}
\details{
The method for class \code{rwl} is registered only if dplR has not registered its own.
}
\value{
A data frame. For widths: \code{series}, \code{first} and \code{last} year, \code{year}, how many rings are measured, \code{mean} and
\code{stdev} in millimetres, \code{ar1}, the correlation of each ring with the one before, \code{sens1}, the mean sensitivity (twice
the difference of neighbouring rings over their sum, on average), and \code{absent}, how many rings are absent; absent rings count as
0 in all of these.

For fits: the years, how many \code{stretches}, coefficients (\code{n}), \code{scars} and fitted \code{rings}, the root mean square in
millimetres, the share \code{explained}, the \code{shape}, and whether it is proved that the curve never rises. For a curve: each stretch with
its rings, degree, the order at its end, and the curve at both of its ends in millimetres.
}
\references{
Cook, E. R. and Kairiukstis, L. A. (eds.) (1990) \emph{Methods of Dendrochronology}. Kluwer, Dordrecht.
}
\examples{
widths <- read_tucson(system.file("extdata", "oak.rwl", package = "walzhik"))
summary(widths)
fits <- fit_curve(widths)
summary(fits)
summary(fits$ROOF04E)
}
\keyword{models}
