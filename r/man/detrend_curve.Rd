\name{detrend_curve}
\alias{detrend_curve}
\title{From Ring Widths to Ring Indices in One Call}
\description{
Fits a growth curve to each series and divides the widths by it, as dplR's \code{detrend()} does with its own curves. It
takes a data frame of widths and returns one of indices.
}
\usage{
detrend_curve(rwl, shape = "auto", space = NULL, first = NULL, each_first = NULL,
              absent = c("NA", "zero"))
}
\arguments{
\item{rwl}{a data frame of widths in millimetres, as \code{\link{read_tucson}} gives it.}
\item{shape, space, first, each_first}{as in \code{\link{fit_curve}}.}
\item{absent}{the index of an absent ring (width 0): \code{"NA"}, so that it enters no mean, or \code{"zero"}.}
}
\details{
It is \code{ring_indices(rwl, fit_curve(rwl, ...))}, with one difference: a series that can't be fitted, such as one of a single ring,
gives a column of \code{NA} and a warning of class \code{walzhik_unfitted}, and all others are detrended.

The differences from dplR: an absent ring is \code{NA} unless \code{absent = "zero"}, where dplR's \code{detrend()} gives 0; indices are
rounded down to thousandths; and widths that are not whole thousandths are an error.
}
\value{
A data frame of class \code{c("rwi", "data.frame")} with the column names, row names and dimensions of \code{rwl}: 1 is a ring as
wide as the curve.
}
\references{
Cook, E. R. and Kairiukstis, L. A. (eds.) (1990) \emph{Methods of Dendrochronology}. Kluwer, Dordrecht.
}
\seealso{\code{\link{fit_curve}} for the curves themselves, \code{\link{ring_indices}}, \code{\link{plot.rwi}}}
\examples{
widths <- read_tucson(system.file("extdata", "oak.rwl", package = "walzhik"))
indices <- detrend_curve(widths)
indices[c("1703", "1750", "1751", "1752"), ]

# Absent rings as dplR has them, and only curves that fall.
detrend_curve(widths, shape = "falling", absent = "zero")["1751", ]
}
\keyword{manip}
