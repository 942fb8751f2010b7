\name{read_tucson}
\alias{read_tucson}
\alias{walzhik_notes}
\title{Read Ring Widths from a Tucson Decadal File}
\description{
Reads a Tucson file (\file{.rwl}), as laboratories have it, into a data frame as dplR's \code{read.rwl()} gives it. Two proved calls
read it: the first converts the file to the strict form, the second reads that form.
}
\usage{
read_tucson(file, strict = FALSE, header = NULL, unit = NULL)
}
\arguments{
\item{file}{the name of a file, a connection, or a raw vector with the text. A connection is read to its end; one that was open
stays open.}
\item{strict}{\code{TRUE} skips the first call: the file must be in the strict form as it is.}
\item{header}{how many lines at the top are a header, 0 to 99. With \code{NULL} only the three header lines of the International
Tree-Ring Data Bank are taken for one.}
\item{unit}{\code{"hundredths"} or \code{"thousandths"} of a millimetre: the unit of series that close with -999, which
does not define it. With \code{NULL} such a series is refused.}
}
\details{
A line is taken as an editor shows it, and it must then fit the strict columns: a name in columns 1 to 8, a year in 9 to 12, and
fields of six columns. Windows line ends, tabs, trailing blanks, blank lines, header lines, site names after the tenth field and
characters of a name that are not ASCII are removed, or replaced by blanks and ?. No digit moves to another column, no numbers are joined
or cut, and nothing is inserted. It is proved that every width that is read stands in the file in the columns of its year. What can't be
interpreted is refused, with the line and what to do.

One message of class \code{walzhik_notes} reports what was changed or left out, and what to check, such as an absent ring at the end of a
series, on which its date depends. \code{suppressMessages()} suppresses it, and a handler of that class can keep it: its field
\code{notes} is a data frame with the first and the last line of each note (\code{line}, \code{last}), its \code{words}, and its
\code{number}, 1 to 14, as the manual lists them.

A series closed by 999 is in hundredths of a millimetre, one closed by -9999 in thousandths.
}
\value{
A data frame of class \code{c("rwl", "data.frame")}: years as row names, a column for each series, widths in millimetres, 0 for an
absent ring and \code{NA} outside a series. Blanks at the end of a name are left out. A series without widths is a column of
\code{NA}; two series with the same name are refused, since columns have distinct names, and so is a file without a series.
}
\seealso{\code{\link{read_widths}} for other laboratories' files, \code{\link{write_tucson}}, \code{\link{fit_curve}},
\link{walzhik_refused}}
\examples{
widths <- read_tucson(system.file("extdata", "pine.rwl", package = "walzhik"))
widths[c("1903", "1911", "1920"), ]

# Windows line ends and a closing that does not define the unit.
text <- charToRaw("FEW     1998    12     9\r\nFEW     2000     7  -999\r\n")
read_tucson(text, unit = "hundredths")

# The notes as a table.
tryCatch(read_tucson(text, unit = "hundredths"),
         walzhik_notes = function(told) told$notes)

# A damaged text is refused with the line.
try(read_tucson(charToRaw("FEW     1998    12     9\n")))
}
\keyword{IO}
