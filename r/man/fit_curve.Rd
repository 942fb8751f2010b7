\name{fit_curve}
\alias{fit_curve}
\alias{fit_pair}
\alias{print.walzhik_fits}
\alias{[.walzhik_fits}
\title{Fit Growth Curves to Ring Widths}
\description{
Fits a curve of the whole ring to each series by least squares on the exact weights of a space. The curve falls, unless one hump is
better by a test. \code{fit_pair()} fits earlywood and latewood of one sample in one space.
}
\usage{
fit_curve(rwl, space = NULL, first = NULL, shape = "auto", each_first = NULL)

fit_pair(rwl, earlywood, latewood, space = NULL, first = NULL, shape = "auto",
         each_first = NULL)

\method{print}{walzhik_fits}(x, ...)

\method{[}{walzhik_fits}(x, i)
}
\arguments{
\item{rwl}{a data frame of widths in millimetres, as \code{\link{read_tucson}} gives it.}
\item{space}{a \code{\link[=curve_space]{walzhik_space}} for all series, or \code{NULL} for the \link[=template_space]{template} of
each series' length.}
\item{first}{the ring of the first width of the earliest series of \code{rwl}; the others keep their distance in years, so that a
year is one ring in all of them. It means the same as \option{--first} of the command. \code{NULL}: rings are years.}
\item{shape}{the shape of the curve. \code{"falling"}: the coefficients do not rise. \code{"hump"}: they rise once and then fall.
\code{"auto"}: falling, unless one hump is better. \code{"free"}: plain least squares. Each part between scars has a shape of
its own.}
\item{each_first}{the ring of each series' own first width, as where rings are counted from the pith: one number for all series, or a
vector with their names. Give \code{first} or \code{each_first}, not both.}
\item{earlywood, latewood}{the names of two series of \code{rwl}.}
\item{x}{fitted curves.}
\item{i}{names or numbers of series.}
\item{...}{not used.}
}
\details{
Every coefficient is at least one thousandth of a millimetre, so that the curve is above zero everywhere. The differences of the
coefficients are fitted by \code{\link[nnls]{nnls}}, the algorithm of Lawson and Hanson, to deviations relative to the curve: a first
fit without weights, then two with the weights 1 / curve. A hump is tried where coefficients of any sign would reduce the sum
of squares so far that \eqn{n}{n} times the logarithm of the ratio is over \eqn{\ln n}{ln n}. It is taken where
\eqn{n \ln(D_1 / D_2)}{n ln(D1 / D2)} is over \eqn{2 \ln n}{2 ln n}. Here \eqn{n}{n} is the number of present rings, \eqn{r}{r} is width over
curve, and \eqn{D_1}{D1} and \eqn{D_2}{D2} are the means of \eqn{r - 1 - \ln r}{r - 1 - ln r} over these rings, for the falling curve and for
the curve with the hump. The coefficients are rounded to whole thousandths. Absent and missing rings are left out. The engine tests rings
and widths first. Series whose rings don't determine all coefficients are an error; \code{\link{detrend_curve}} gives a warning instead and
continues.

A fit is a choice in floating point and is not proved; the values of its coefficients are the engine's. It is proved that where the
coefficients of a part do not rise and no order within it is above 1, no value is above an earlier one.
}
\value{
\code{fit_curve()}: an object of class \code{walzhik_fits}, a list of \code{\link[=growth_curve]{walzhik_curve}} objects with the
series' names. Each has a field \code{fit} with \code{rings}, how many were fitted, \code{mean_square}, in square millimetres,
\code{explained}, the share of the widths' spread that the curve explains, both from the engine's values, \code{shapes},
\code{"falling"}, \code{"hump"} or \code{"free"} for each part, \code{never_rises}, whether it is proved that the curve never rises, \code{least_rows},
the coefficients at the minimum, and \code{series}, \code{first_year}, \code{first_ring} and \code{widths}, in thousandths, 0 for an absent
and \code{NA} for a missing ring, by which \code{\link{ring_indices}} matches rings by year.

\code{fit_pair()}: one \code{walzhik_curve} with two columns; its \code{fit} holds the same fields for \code{earlywood} and
\code{latewood}.
}
\references{
Cook, E. R. and Kairiukstis, L. A. (eds.) (1990) \emph{Methods of Dendrochronology}. Kluwer, Dordrecht.

Speleers, H. (2019) Algorithm 999: Computation of multi-degree B-splines. \emph{ACM Transactions on Mathematical Software}
\bold{45}(4), article 43.
}
\seealso{\code{\link{detrend_curve}}, \code{\link{ring_indices}}, \code{\link{fitted.walzhik_fits}},
\code{\link{summary.walzhik_fits}}, \code{\link{plot.walzhik_fits}}}
\examples{
widths <- read_tucson(system.file("extdata", "oak.rwl", package = "walzhik"))
fits <- fit_curve(widths)
fits
fits$ROOF04E

# A space of one's own: a scar after 1750.
scarred <- curve_space(c(1703, 1720, 1750, 1802), c(3, 2, 2), c(1, -1))
fit_curve(widths["ROOF04E"], scarred)

# The template with a scar after 1748.
fit_curve(widths["ROOF04E"], template_space(100, 1703, scars = 1748))

# Earlywood and latewood of one beam, in one space.
fit_pair(widths, "ROOF04E", "ROOF04L")
}
\keyword{models}
