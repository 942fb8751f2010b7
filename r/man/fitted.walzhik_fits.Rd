\name{fitted.walzhik_fits}
\alias{fitted.walzhik_fits}
\alias{fitted.walzhik_curve}
\alias{residuals.walzhik_fits}
\alias{residuals.walzhik_curve}
\alias{coef.walzhik_fits}
\alias{coef.walzhik_curve}
\alias{predict.walzhik_fits}
\alias{predict.walzhik_curve}
\title{Values, Residuals and Coefficients of Curves}
\description{
R's generic functions for curves and fits. All values are those of the proved call, in millimetres; rows and entries are named
by rings or years.
}
\usage{
\method{predict}{walzhik_curve}(object,
        newdata = seq(min(object$space$breaks), max(object$space$breaks)), ...)

\method{predict}{walzhik_fits}(object, newdata = rownames(attr(object, "rwl")), ...)

\method{fitted}{walzhik_curve}(object, ...)

\method{fitted}{walzhik_fits}(object, ...)

\method{residuals}{walzhik_curve}(object, ...)

\method{residuals}{walzhik_fits}(object, ...)

\method{coef}{walzhik_curve}(object, ...)

\method{coef}{walzhik_fits}(object, ...)
}
\arguments{
\item{object}{a \code{\link[=growth_curve]{walzhik_curve}}, or what \code{\link{fit_curve}} gives.}
\item{newdata}{for a curve rings, counted as its breakpoints are; for fits years, whatever their rings are. Both go in steps of 1/256;
a number between two steps is an error that names both.}
\item{...}{none: any other argument is an error.}
}
\value{
\code{predict()} of a curve: a matrix with a row for each ring and one column, \code{ring}, or two, \code{earlywood} and
\code{latewood}. A ring outside the curve is refused with number 7. \code{predict()} of fits: a data frame with a row for each year and
a column for each series, \code{NA} where the curve has no such ring.

\code{fitted()} and \code{residuals()} (width minus curve) of a fitted curve: numbers named by the years of the series, or a matrix
of two columns for a pair; of fits: a data frame with the row names of the widths. An absent ring has no residual.

\code{coef()} of a curve: the coefficients in thousandths of a millimetre, which \code{\link{growth_curve}} accepts as they are; of fits: a
list of these.
}
\examples{
widths <- read_tucson(system.file("extdata", "oak.rwl", package = "walzhik"))
fits <- fit_curve(widths)
predict(fits, newdata = c(1710, 1720))
predict(fits$ROOF04E, newdata = 1710.5)
head(residuals(fits))
coef(fits)

again <- growth_curve(fits$ROOF04E$space, coef(fits$ROOF04E))
}
\keyword{models}
