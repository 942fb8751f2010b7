\name{walzhik-package}
\alias{walzhik-package}
\alias{walzhik}
\docType{package}
\title{Proved Growth Curves for Tree Rings}
\description{
Growth curves in segments of different degree, joined smoothly or cut by a scar, and ring indices from them, for data frames in
the shapes that dplR has. Every answer comes from the Walzhik libraries, whose calls are proved: for every input they finish, do
nothing undefined, and return what their definitions say. The package around these calls is tested, not proved.
}
\details{
From a file to indices: \code{\link{read_tucson}} (or \code{\link{read_widths}} for Heidelberg files and tables), then \code{\link{detrend_curve}} in one call, or \code{\link{fit_curve}} and
\code{\link{ring_indices}} with given curves; \code{plot()} of the fits shows widths, curves and indices.
\code{vignette("walzhik")} shows a day's work. \code{\link{curve_space}} explains stretches, orders and scars.

\tabular{ll}{
\strong{what} \tab \strong{unit} \cr
widths in data frames, \code{predict()} \tab millimetres \cr
coefficients, the width of \code{curve_reach()}, ordinates of \code{curve_pieces()} \tab thousandths of a millimetre \cr
values of \code{curve_values()}, ordinates for \code{curve_coefficients()} \tab 256ths of a thousandth of a millimetre \cr
positions \tab 256ths of a ring: ring \eqn{r} is \eqn{256 r} \cr
indices \tab 1 is a ring as wide as the curve \cr
}

Segments (the laboratory's stretches), joins and the entries that a message names are counted from 1, as R does; the fields
\code{number} and \code{place} of a refusal, and rows and columns of \code{weights}, are the engine's and count from 0, as on the
sheet and in the manual.

No list of more than 16,777,216 entries is passed to the engine; whole numbers are from -2,147,483,647 to 2,147,483,647, the range of
R's integers.
}
\seealso{\link{walzhik_refused} for what happens when something is refused.}
\examples{
widths <- read_tucson(system.file("extdata", "oak.rwl", package = "walzhik"))
fits <- fit_curve(widths)
head(ring_indices(widths, fits))
}
\keyword{package}
