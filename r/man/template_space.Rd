\name{template_space}
\alias{template_space}
\title{A Space for a Series of a Given Length}
\description{
The space that \code{\link{fit_curve}} uses by default: one long cubic stretch in young wood, then longer ones of degree 2, with
continuous slopes at the joins, and the same again after each scar. It is the template of the command \command{./walzhik fit}.
}
\usage{
template_space(rings, first = 0, scars = integer())
}
\arguments{
\item{rings}{how many rings the series has; each part between scars has 2 to 2,001.}
\item{first}{the number of its first ring.}
\item{scars}{the last ring before each scar, rising.}
}
\value{
A \code{\link[=curve_space]{walzhik_space}} from the first to the last ring.
}
\examples{
template_space(100, 1703)
template_space(100, 1703, scars = 1748)
}
\keyword{models}
