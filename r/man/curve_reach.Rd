\name{curve_reach}
\alias{curve_reach}
\title{When a Curve Reaches a Width}
\description{
Finds, with the proved call, the least position whose value reaches a width. Every position of the span is considered, on falling and
wavy curves and across scars too, and no position before the answer reaches the width.
}
\usage{
curve_reach(curve, width, wood = NULL)
}
\arguments{
\item{curve}{a \code{\link[=growth_curve]{walzhik_curve}}.}
\item{width}{a width in whole thousandths of a millimetre.}
\item{wood}{\code{"earlywood"} or \code{"latewood"}; required where the curve has two wood parts.}
}
\value{
The position, in 256ths of a ring. A width that no position reaches is refused with number 16.
}
\examples{
curve <- growth_curve(curve_space(c(0, 60), 2), c(600, 2400, 900))
position <- curve_reach(curve, 1200)
position / 256 # as a ring
curve_values(curve, position + c(-1, 0))[, "ring"] >= 256 * 1200

try(curve_reach(curve, 5000))
}
\keyword{models}
