\name{ring_indices}
\alias{ring_indices}
\title{Ring Indices}
\description{
Divides each measured ring by its growth curve, as dplR's \code{detrend()} does with its own curves. The indices are those of the
proved call.
}
\usage{
ring_indices(rwl, curves, wood = NULL, first = NULL, each_first = NULL,
             absent = c("NA", "zero"))
}
\arguments{
\item{rwl}{a data frame of widths in millimetres, as \code{\link{read_tucson}} gives it.}
\item{curves}{what \code{\link{fit_curve}} gives, a list of curves with the series' names, or one curve for all series.}
\item{wood}{\code{"earlywood"} or \code{"latewood"}, one for all series or a vector with their names. It is required where a
curve has two wood parts, and may be omitted for curves of the whole ring.}
\item{first}{the ring of the curve that is the first width of the earliest series of \code{rwl}; the others keep their distance in
years. It means the same as \option{--first} of the command.}
\item{each_first}{the ring of each series' own first width: one number for all series, or a vector with their names. Give \code{first}
or \code{each_first}, not both.}
\item{absent}{the index of an absent ring (width 0): \code{"NA"}, or \code{"zero"} as in dplR.}
}
\details{
Without \code{first} and \code{each_first} rings are matched by year. On a fitted curve a year is the ring that it was when the curve
was fitted, so that a subset of the years has the same indices. On any other curve rings are years. A ring outside the curve is refused
with number 7. A curve that was fitted to one series with counted rings is not used for another unless \code{first} or \code{each_first}
gives its first ring.

An index is the greatest whole number of thousandths that is not above 1000 times the width over the curve's value. A width that is not a
whole number of thousandths is an error. A missing width within a series has no index.
}
\value{
A data frame of class \code{c("rwi", "data.frame")} with the column names, row names and dimensions of \code{rwl}: 1 is a ring as
wide as the curve, \code{NA} marks years outside a series and absent rings.
}
\seealso{\code{\link{detrend_curve}}, \code{\link{fit_curve}}, \code{\link{growth_curve}}, \link{walzhik_refused}}
\examples{
widths <- read_tucson(system.file("extdata", "oak.rwl", package = "walzhik"))
fits <- fit_curve(widths)
indices <- ring_indices(widths, fits)
indices[c("1703", "1750", "1751", "1752"), ]

# A subset of the years has the same indices.
ring_indices(widths[c("1750", "1751", "1752"), ], fits)

# One pair of curves for the two wood parts of a beam, its rings being years.
pair <- growth_curve(curve_space(c(1703, 1740, 1802), c(3, 2), 1),
                     cbind(c(3000, 2500, 2000, 1500, 700), c(700, 600, 500, 400, 300)))
head(ring_indices(widths, pair, wood = c(ROOF04E = "earlywood", ROOF04L = "latewood")))

# A curve of rings counted from the pith, the first width being ring 4.
aged <- growth_curve(curve_space(c(1, 110), 1), c(2500, 600))
head(ring_indices(widths["ROOF04E"], aged, each_first = 4))
}
\keyword{manip}
