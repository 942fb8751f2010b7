\name{plot.rwl}
\alias{plot.rwl}
\alias{plot.rwi}
\title{Pictures of Ring Widths and Indices}
\description{
Draws all series of a data frame over the years: a bar for the span of each, or its line above the previous one.
}
\usage{
\method{plot}{rwl}(x, type = c("segments", "spaghetti"), xlab = "Year", ylab = "",
     xlim = NULL, ylim = NULL, main = NULL, col = "grey30", ...)

\method{plot}{rwi}(x, type = c("spaghetti", "segments"), xlab = "Year", ylab = "",
     xlim = NULL, ylim = NULL, main = NULL, col = "grey30", ...)
}
\arguments{
\item{x}{a data frame of widths or of indices.}
\item{type}{\code{"segments"}: a bar for each series, from its first to its last year, with gaps where it has no width;
\code{"spaghetti"}: its line.}
\item{xlab, ylab, xlim, ylim, main}{as in \code{\link{plot.default}}.}
\item{col}{the colour of each series, used again from the start where there are more series.}
\item{...}{passed on to \code{\link{plot.default}}.}
}
\details{
Series are ordered by their first year, the earliest at the bottom. These methods are registered only if dplR has not registered its own.
}
\value{
\code{x}, invisibly.
}
\seealso{\code{\link{plot.walzhik_fits}}}
\examples{
widths <- read_tucson(system.file("extdata", "pine.rwl", package = "walzhik"))
plot(widths, main = "Years of three pines")
plot(detrend_curve(widths), col = 1:3)
}
\keyword{hplot}
