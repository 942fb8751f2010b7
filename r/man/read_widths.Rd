\name{read_widths}
\alias{read_widths}
\alias{write_widths}
\title{Ring Widths from and to Tucson Files, Heidelberg Files and Tables}
\description{
\code{read_widths()} reads a Tucson file (\file{.rwl}), a Heidelberg file (\file{.fh}, as TSAP writes it) or a table (\file{.csv},
\file{.tsv}) into a data frame as dplR has it; \code{write_widths()} writes such a data frame in any of these formats.
}
\usage{
read_widths(file, from = NULL, unit = NULL, first = NULL, year_zero = NULL,
            rename = FALSE, round = FALSE, header = NULL, strict = FALSE)

write_widths(x, file = NULL, to = NULL)
}
\arguments{
\item{file}{to read: the name of a file, a connection, or a raw vector with the text. To write: the name of a file, which is written
completely or not at all, or \code{NULL} for the bytes themselves.}
\item{from, to}{the format: \code{"rwl"}, \code{"fh"}, \code{"csv"} or \code{"tsv"}. With \code{NULL} the extension of the file's name
gives it; else, in reading, the start of the file does.}
\item{unit}{the unit of the widths: \code{"mm"}, \code{"tenths"}, \code{"hundredths"} or \code{"thousandths"} of a millimetre, in a
table (millimetres without it) or a Heidelberg file without Unit. For a Tucson file as in \code{\link{read_tucson}}.}
\item{first}{the first year of Heidelberg series without DateBegin. Without it they are numbered from 1, and this is reported.}
\item{year_zero}{whether years below 1 are counted with a year 0. \code{FALSE} makes them one later, so that -1 is the year 0 here;
\code{NULL} takes them as they stand, and reports it.}
\item{rename}{whether names that are longer than eight columns or occur twice are cut and numbered; otherwise they are refused.}
\item{round}{whether widths finer than thousandths of a millimetre are rounded, halves upwards; otherwise they are refused.}
\item{header, strict}{for a Tucson file, as in \code{\link{read_tucson}}.}
\item{x}{a data frame of widths in millimetres, as in \code{\link{write_tucson}}.}
}
\details{
\emph{What is proved.} Proved calls read and write Tucson files. The readers and writers of Heidelberg files and tables are not proved:
they are tested against those of the command, which they follow step by step. The proved calls write what such a reader finds and read it
back, and only the result is used. What is written in these formats is read back and must give the same series.

\emph{Heidelberg files} have blocks HEADER:, with lines Key=Value, and DATA:Tree or DATA:Single, with ten values per line in six columns each or
one value per line. KeyCode, DateBegin, DateEnd, Length and Unit are used; other keys are reported and left out. \emph{Tables} have a header line
with the names, the year in their first column, a row for each year, and empty cells before a series' first and after its last width.
Commas, semicolons or tabs separate the cells; with semicolons, widths may have a decimal comma.

What can't be interpreted is refused with the line and what to do, as an error of class \code{walzhik_unreadable} with the fields \code{line},
\code{words} and \code{remedy}: no Unit, a DateEnd that does not fit, an empty cell within a series (an absent ring is 0), years that do not
follow each other, other kinds of data. One message of class \code{walzhik_notes} reports what is changed or left out.
}
\value{
\code{read_widths()} gives a data frame of class \code{c("rwl", "data.frame")} as \code{\link{read_tucson}} does. \code{write_widths()}
gives the name of the file, invisibly, or a raw vector.
}
\seealso{\code{\link{read_tucson}}, \code{\link{write_tucson}}, \link{walzhik_refused}}
\examples{
table <- charToRaw("year;OAK1;OAK2\n1998;1,23;\n1999;0;0,505\n")
widths <- read_widths(table)
widths

# Into a Heidelberg file and back.
path <- tempfile(fileext = ".fh")
write_widths(widths, path)
cat(readLines(path), sep = "\n")
identical(read_widths(path), widths)

# A year is missing.
try(read_widths(charToRaw("year,OAK1\n1998,1.23\n2000,0.98\n")))
}
\keyword{IO}
