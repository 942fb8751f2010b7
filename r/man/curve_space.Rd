\name{curve_space}
\alias{curve_space}
\alias{print.walzhik_space}
\title{The Space of a Growth Curve}
\description{
Breakpoints, degrees and orders of a growth curve, with the exact weights that the engine builds from them.
}
\usage{
curve_space(breaks, degrees, orders = integer())

\method{print}{walzhik_space}(x, ...)
}
\arguments{
\item{breaks}{the breakpoints in rings, strictly rising whole numbers from -10,000 to 10,000, one more than segments. Rings may be
counted from the pith or be years.}
\item{degrees}{a degree from 1 to 5 for each of 1 to 48 segments.}
\item{orders}{a continuity order for each join between two segments: -1 (a scar: the curve may jump), 0 (it is
continuous), 1 (its slope is too) or 2 (its bend is too), less than both neighbouring degrees.}
\item{x}{a space.}
\item{...}{not used.}
}
\details{
For those who measure wood: a \emph{stretch} (segment) is a run of rings over which the curve is one polynomial. Its \emph{degree} sets
how much it may bend: 1 is a straight line, 2 bends one way, 3 can change sides once. Young wood changes fast and takes degree 3 over
few rings, old wood degree 1 or 2 over many. A \emph{breakpoint} is the ring where one stretch ends and the next starts. The \emph{order}
of this join sets how smooth the curve is there: 0, it has no jump; 1, its slope has none either; 2, nor has its bend; -1 is a
\emph{scar}, where the wood was wounded or released and the curve may jump.

Between two scars there are at most 12 segments and 2,000 rings. Spaces of orders up to 1 are never refused for an intermediate result
of the build; at order 2 a fraction can become too large (number 8).
}
\value{
An object of class \code{walzhik_space}: a list with \code{breaks}, \code{degrees} and \code{orders}; \code{n}, how many
coefficients a curve of the space has; \code{columns}, how many local ordinates; and \code{weights}, a data frame of all non-zero
weights with \code{row}, \code{column}, \code{numerator} and \code{denominator}, in lowest terms, rows and columns counted from 0.
}
\references{
Speleers, H. (2019) Algorithm 999: Computation of multi-degree B-splines. \emph{ACM Transactions on Mathematical Software}
\bold{45}(4), article 43.
}
\seealso{\code{\link{growth_curve}}, \code{\link{template_space}}, \code{\link{fit_curve}}}
\examples{
space <- curve_space(c(0, 1, 3), c(2, 2), 1)
space
space$weights

# A scar at ring 80: no condition there.
curve_space(c(0, 30, 80, 120), c(3, 2, 1), c(1, -1))
}
\keyword{models}
