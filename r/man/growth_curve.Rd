\name{growth_curve}
\alias{growth_curve}
\alias{curve_values}
\alias{print.walzhik_curve}
\title{Growth Curves and Their Values}
\description{
A curve of a space with given coefficients, and its values from the proved call.
}
\usage{
growth_curve(space, coefficients)

curve_values(curve, positions)

\method{print}{walzhik_curve}(x, ...)
}
\arguments{
\item{space}{a \code{\link[=curve_space]{walzhik_space}}.}
\item{coefficients}{whole thousandths of a millimetre, from -1,000,000 to 1,000,000: \code{n} numbers for a curve of the whole ring,
or a matrix with \code{n} rows and one column, or two, earlywood and latewood. The result of \code{coef()} is accepted as it is.}
\item{curve, x}{a curve.}
\item{positions}{up to 4,096 whole numbers in 256ths of a ring, in any order.}
\item{...}{not used.}
}
\details{
A position on a join is read from the segment that starts there, on a scar from the one that ends there: that ring belongs to
the wood before the wound.

Each value is within 4 units of 1/256 of a thousandth of the exact curve, and between the least and the greatest coefficient with
weight there.
}
\value{
\code{growth_curve()} gives an object of class \code{walzhik_curve}: a list with \code{space}, \code{coefficients} (a matrix of one
column, \code{ring}, or of two), and \code{whole}, whether it is a curve of the whole ring.

\code{curve_values()} gives the engine's whole numbers, in 256ths of a thousandth of a millimetre: a row for each position, a column
for each part of the curve. \code{\link[=predict.walzhik_curve]{predict}()} gives the same in millimetres, at rings.
}
\references{
Speleers, H. (2019) Algorithm 999: Computation of multi-degree B-splines. \emph{ACM Transactions on Mathematical Software}
\bold{45}(4), article 43.
}
\seealso{\code{\link{ring_indices}}, \code{\link{curve_reach}}, \code{\link{curve_pieces}}, \code{\link{plot.walzhik_curve}}}
\examples{
space <- curve_space(c(0, 1, 3), c(2, 2), 1)
curve <- growth_curve(space, c(0, 100, 0, 0))
curve_values(curve, c(256, 512))

pair <- growth_curve(space, cbind(earlywood = c(900, 700, 500, 400),
                                  latewood = c(300, 250, 250, 200)))
pair
predict(pair)
}
\keyword{models}
