\name{curve_pieces}
\alias{curve_pieces}
\title{Pieces of a Curve for the Screen}
\description{
Gives the lines, quadratics and cubics of a curve with their exact Bernstein ordinates, from the proved call. A drawing program takes
them as a Bezier path.
}
\usage{
curve_pieces(curve, segments = seq_along(curve$space$degrees), wood = NULL)
}
\arguments{
\item{curve}{a \code{\link[=growth_curve]{walzhik_curve}}.}
\item{segments}{numbers of segments, counted from 1.}
\item{wood}{\code{"earlywood"} or \code{"latewood"}; required where the curve has two wood parts.}
}
\value{
A data frame with a row for each named segment: \code{segment}, \code{degree}, \code{start} and \code{end} in rings, and the
ordinates \code{o0} to \code{o3} in thousandths of a millimetre, \code{NA} past the degree. All numbers are exact. A segment of
degree 4 or 5, or one that doesn't exist, is refused with number 17.
}
\examples{
space <- curve_space(c(0, 30, 60), c(3, 1), 0)
curve <- growth_curve(space, c(2400, 2100, 1700, 1500, 900))
curve_pieces(curve)
}
\keyword{models}
