\name{plot.walzhik_fits}
\alias{plot.walzhik_fits}
\alias{plot.walzhik_curve}
\title{Pictures of Curves, Widths and Indices}
\description{
Draws growth curves with base graphics: for fits the measured widths behind the curve and the ring indices below, for a single
curve one or both wood parts.
}
\usage{
\method{plot}{walzhik_fits}(x, series = names(x), main = series, col = "#0072B2", ...)

\method{plot}{walzhik_curve}(x, wood = NULL, xlab = "Ring", ylab = "Ring width (mm)",
     xlim = NULL, ylim = NULL, main = NULL, col = NULL, ...)
}
\arguments{
\item{x}{fitted curves, or a curve.}
\item{series}{the names of the series to draw, at most 9 in one picture.}
\item{wood}{the wood parts to draw; all without it.}
\item{xlab, ylab, xlim, ylim, main}{as in \code{\link{plot.default}}; \code{main} of fits is one for each series.}
\item{col}{the colour of each curve.}
\item{...}{passed on to \code{\link{plot.default}}.}
}
\details{
Lines go through values of the proved curve call, 512 for each part between scars. A scar breaks the lines of curve and widths and is
a vertical line; other breakpoints are dotted. An absent ring is a cross at 0 and a gap among the indices. A device that is too small
for all series is an error that gives the size they need.
}
\value{
\code{x}, invisibly.
}
\seealso{\code{\link{plot.rwl}}}
\examples{
widths <- read_tucson(system.file("extdata", "oak.rwl", package = "walzhik"))
plot(fit_curve(widths), main = c("Earlywood", "Latewood"))

space <- curve_space(c(0, 30, 80, 120), c(3, 2, 1), c(1, -1))
plot(growth_curve(space, cbind(c(2600, 2500, 1900, 1700, 1500, 1900, 1300),
                               c(500, 620, 700, 660, 640, 720, 500))))
}
\keyword{hplot}
