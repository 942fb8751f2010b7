\name{write_tucson}
\alias{write_tucson}
\title{Write Ring Widths as a Tucson Decadal File}
\description{
Writes a data frame of ring widths with the proved writer, always in thousandths of a millimetre. What is written reads back to the
same names, years and widths.
}
\usage{
write_tucson(rwl, file = NULL)
}
\arguments{
\item{rwl}{a data frame of widths in millimetres: consecutive years as row names, a column for each series, \code{NA} before and
after a series, 0 for an absent ring.}
\item{file}{the name of the file, or \code{NULL} for the bytes themselves. The file is written completely or not at all.}
}
\details{
Nothing is rounded or cut. A width must be a whole number of thousandths (\code{round(rwl, 3)} makes it one), a name has at most 8
bytes, and a series has no gaps: each of these is an error otherwise. The engine refuses a name, a year or a width that the
format does not allow, and names the series.
}
\value{
The name of the file, invisibly, or a raw vector.
}
\seealso{\code{\link{read_tucson}}, \code{\link{write_widths}} for other formats, \link{walzhik_refused}}
\examples{
widths <- data.frame(FEW = c(0.012, 0.009, 0.007), row.names = 1998:2000)
cat(rawToChar(write_tucson(widths)))

path <- tempfile(fileext = ".rwl")
write_tucson(widths, path)
read_tucson(path)
}
\keyword{IO}
