# The facts of Tucson texts and series, for the words: the columns, fields and years of the line that the engine names. The line was
# refused by the engine; here it is only looked at.

name_columns <- 8L
head_columns <- 12L # name and year
field_columns <- 6L
most_fields <- 10L
fields_end <- head_columns + most_fields * field_columns
decade <- 10L
hundredths_closing <- 999L
thousandths_closing <- -9999L
closings <- c(hundredths = hundredths_closing, thousandths = thousandths_closing)
most_hundredths <- 9999L
blank <- as.raw(32)
last_printable <- as.raw(126)
backslash <- as.raw(92)
line_end <- as.raw(10)
carriage_return <- as.raw(13)
shown_bytes <- 40L # of a text that a message quotes

# The bytes between quotation marks in ASCII, cut where they are long.
quoted <- function(bytes, most = shown_bytes) {
  cut <- head(bytes, most)
  codes <- as.integer(cut)
  plain <- cut >= blank & cut <= last_printable & cut != backslash
  shown <- ifelse(plain, intToUtf8(pmax(codes, 1), multiple = TRUE), sprintf("\\x%02x", codes))
  paste0("'", paste(shown, collapse = ""), if (length(bytes) > most) "...", "'")
}

# The number that stands at the right of these bytes, or NA.
number_in <- function(bytes) {
  if (any(bytes == 0 | bytes > last_printable)) return(NA_integer_)
  text <- rawToChar(bytes)
  if (grepl("^ *(0|-?[1-9][0-9]*)$", text)) as.integer(text) else NA_integer_
}

# Each line's first and last byte without its end, and whether it has its end.
line_table <- function(text) {
  ends <- which(text == line_end)
  starts <- c(1, ends + 1)
  ended <- c(rep(TRUE, length(ends)), FALSE)
  lasts <- c(ends - 1, length(text))
  there <- ended | starts <= length(text)
  data.frame(start = starts, last = lasts, ended = ended)[there, ]
}

line_bytes <- function(text, lines, place) {
  if (place < 1 || place > nrow(lines)) return(raw())
  text[seq_len(lines$last[place] - lines$start[place] + 1) + lines$start[place] - 1]
}

# The bytes behind the one at `from`, up to the one at `to`.
slice <- function(bytes, from, to) bytes[seq_along(bytes) > from & seq_along(bytes) <= to]

tail_of <- function(fields) fields[length(fields)]

fields_of <- function(body) {
  starts <- head_columns + field_columns * (seq_len((length(body) - head_columns) %/% field_columns) - 1)
  vapply(starts, function(start) number_in(body[start + seq_len(field_columns)]), 0L)
}

year_of <- function(body) number_in(body[(name_columns + 1):head_columns])

name_of <- function(body) head(body, name_columns)

is_name <- function(bytes) all(bytes >= blank & bytes <= last_printable) && any(bytes != blank)

is_strict_line <- function(body) {
  fields <- (length(body) - head_columns) / field_columns
  fields %in% seq_len(most_fields) && is_name(name_of(body)) && !is.na(year_of(body)) && !anyNA(fields_of(body))
}

# 11: the columns of a line, and its fields where the columns are in order. Of the fields the first that is no width is told; the
# closing of a series is none where the line is its last.
of_line <- function(body, is_ended, is_last) {
  columns <- length(body)
  fields <- (columns - head_columns) / field_columns
  year <- slice(body, name_columns, head_columns)
  bad <- which(is.na(if (columns > head_columns) fields_of(body)))[1]
  start <- head_columns + field_columns * (if (is.na(bad)) 0 else bad - 1)
  c(list(is_ended = is_ended, has_return = columns > 0 && body[columns] == carriage_return, columns = columns,
         fields = if (fields > 0 && fields %% 1 == 0) fields else 0, is_strict = is_strict_line(body), is_name = is_name(name_of(body)),
         name_text = quoted(name_of(body)), first = number_in(year), year_text = quoted(year), bad_field = bad,
         field_text = quoted(slice(body, start, start + field_columns)), start = start + 1, end = start + field_columns),
    of_fields(body, is_last))
}

# How many fields a line's decade has room for, and its first field that is no width.
of_fields <- function(body, is_last) {
  if (!is_strict_line(body)) return(list(most = NA, decade_end = NA, before = NA, width = NA, year = NA))
  year <- year_of(body)
  fields <- fields_of(body)
  room <- decade - year %% decade
  is_closing <- is_last & seq_along(fields) == length(fields) & fields == thousandths_closing
  bad <- which(!is_closing & (fields < 0 | fields > most_width))[1]
  list(most = room, decade_end = year + room - 1, before = bad - 1, width = fields[bad], year = year + bad - 1)
}

# 12: the year of a later line, and that after the line before it.
of_year <- function(before, body, line) {
  following <- year_of(before) + length(fields_of(before))
  year <- year_of(body)
  list(year = year, `next` = following, name = quoted(name_of(body)), field = tail_of(fields_of(before)), line = line,
       missing = if (year - 1 == following) as_text(following) else paste(as_text(following), "to", as_text(year - 1)))
}

# 13: the last field of a series, its first width that is too large for hundredths, and the line behind the series, which is the damaged
# one where it has the next year under another name.
of_closing <- function(bodies, after, line) {
  fields <- unlist(lapply(bodies, fields_of))
  first <- year_of(bodies[[1]])
  over <- which(head(fields, -1) > most_hundredths)[1]
  list(name = quoted(name_of(bodies[[1]])), field = tail_of(fields), `next` = first + length(fields), line = line,
       year_after = number_in(slice(after, name_columns, head_columns)), other = quoted(name_of(after)), width = fields[over],
       year = first + over - 1)
}

# The lines of a strict text's series, up to the one at a place.
series_lines <- function(text, lines, place) {
  name <- name_of(line_bytes(text, lines, place))
  first <- place
  while (first > 1 && identical(name_of(line_bytes(text, lines, first - 1)), name)) first <- first - 1
  lapply(first:place, function(line) line_bytes(text, lines, line))
}

# The facts by number, of the strict text's line at a place where there is such a line.
of_text_line <- function(find) {
  function(given, place) {
    lines <- line_table(given$text)
    if (place >= 1 && place <= nrow(lines)) find(given$text, lines, place)
  }
}

text_facts <- list(
  "11" = of_text_line(function(text, lines, place) {
    body <- line_bytes(text, lines, place)
    of_line(body, lines$ended[place], !identical(name_of(line_bytes(text, lines, place + 1)), name_of(body)))
  }),
  "12" = of_text_line(function(text, lines, place) {
    bodies <- series_lines(text, lines, place)
    if (length(bodies) > 1) of_year(bodies[[length(bodies) - 1]], bodies[[length(bodies)]], place - 1)
  }),
  "13" = of_text_line(function(text, lines, place) {
    of_closing(series_lines(text, lines, place), line_bytes(text, lines, place + 1), place + 1)
  })
)

# What is told of the series, counted from 0, that could not be written.
of_series <- function(given, place) {
  name_at <- function(place) given$names[name_columns * place + seq_len(name_columns)]
  name <- name_at(place)
  first <- as.numeric(given$years[place + 1])
  count <- given$counts[place + 1]
  widths <- given$widths[sum(given$counts[seq_len(place)]) + seq_len(count)]
  bad <- which(widths < 0 | widths > most_width)[1]
  list(name = quoted(name), is_name = is_name(name), is_same = place > 0 && identical(name, name_at(place - 1)), first = first,
       last = first + count - 1, closing = first + count, width = widths[bad], year = first + bad - 1)
}

series_facts <- list("2" = function(given, place) list(), "11" = of_series)
