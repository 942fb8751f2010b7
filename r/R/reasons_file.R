# The facts of a laboratory's file that the call has refused, for the words: number and line are the call's, and what is shown there is
# found here. Nothing here decides whether a file is good.

tab_columns <- 8L # up to a multiple of which a tab goes
shown_line <- 80L # bytes of a line of widths that a message quotes

# A file's text without a mark at its start, up to the first Ctrl-Z.
file_text <- function(file) {
  if (starts_with(file, byte_order_mark)) file <- file[-seq_along(byte_order_mark)]
  end <- which(file == control_z)[1]
  if (is.na(end)) file else file[seq_len(end - 1)]
}

# The columns of a line as they are shown: no carriage return at its end, tabs as blanks, no trailing blanks.
in_columns <- function(bytes) {
  if (length(bytes) > 0 && bytes[length(bytes)] == carriage_return) bytes <- bytes[-length(bytes)]
  while (!is.na(at <- which(bytes == tab)[1])) {
    bytes <- c(bytes[seq_len(at - 1)], rep(blank, tab_columns - (at - 1) %% tab_columns), bytes[-seq_len(at)])
  }
  without_blanks(bytes)
}

without_blanks <- function(bytes) bytes[seq_len(max(0, which(bytes != blank)))]

# The line with ? for each byte that is not ASCII and, where it is UTF-8, with ? for each character.
in_question_marks <- function(body) {
  marked <- function(bytes) replace(bytes, bytes >= first_of_two, question_mark)
  by_bytes <- list(marked(body))
  if (any(body == 0) || !validUTF8(rawToChar(body))) return(by_bytes)
  c(by_bytes, list(marked(body[body < first_of_two | body >= as.raw(0xc0)])))
}

# A line as it is shown: its number, its bytes in the file, its columns without a site name, and these with ? for what is not ASCII where
# that is in order.
shown_of <- function(number, bytes) {
  columns <- in_columns(bytes)
  behind <- if (length(columns) > fields_end) by_byte(columns[-seq_len(fields_end)])
  if (isTRUE(grepl("^ +[A-Za-z]{2,4}[0-9]{3}[A-Za-z]?$", behind))) columns <- without_blanks(columns[seq_len(fields_end)])
  body <- if (is_ascii(columns)) columns else c(Filter(is_strict_line, in_question_marks(columns)), list(columns))[[1]]
  list(number = number, raw = bytes, columns = columns, body = body)
}

# The lines of a file's text, each as it is shown.
file_lines <- function(file) {
  text <- file_text(file)
  lines <- line_table(text)
  list(count = nrow(lines), at = function(place) if (place >= 1 && place <= nrow(lines)) shown_of(place, line_bytes(text, lines, place)))
}

# The next line that is not blank, upwards or downwards.
beside <- function(lines, place, step) {
  repeat {
    place <- place + step
    line <- lines$at(place)
    if (is.null(line) || length(line$body) > 0) return(line)
  }
}

# 21: the two bytes of UTF-16, or the first byte at fault of the line.
of_text <- function(given, place) {
  file <- given$file
  told <- function(bytes = NA, byte = NA, column = NA, follows = NA) list(bytes = bytes, byte = byte, column = column, follows = follows)
  if (place == largest_place) return(told())
  if (starts_with(file, as.raw(c(0xff, 0xfe))) || starts_with(file, as.raw(c(0xfe, 0xff)))) {
    return(told(toupper(paste(file[1:2], collapse = " "))))
  }
  if (starts_with(file, byte_order_mark)) file <- file[-seq_along(byte_order_mark)]
  lines <- line_table(file)
  body <- line_bytes(file, lines, place)
  leads <- which(body == byte_order_mark[1])
  ends_plain <- place <= nrow(lines) && lines$ended[place] && length(body) > 0 && body[length(body)] == carriage_return
  at <- c(which(body == 0)[1], leads[body[leads + 1] == byte_order_mark[2] & body[leads + 2] == byte_order_mark[3]][1],
          which(head(body, if (ends_plain) -1 else length(body)) == carriage_return)[1], which(body == control_z)[1])
  if (all(is.na(at))) return(told())
  column <- min(at, na.rm = TRUE)
  told(byte = as.integer(body[column]), column = column,
       follows = if (body[column] == control_z) following_end(file, lines$start[place] + column) else NA)
}

# The line that follows Ctrl-Z, between quotation marks.
following_end <- function(file, from) {
  rest <- file[seq_len(length(file) - from + 1) + from - 1]
  start <- which(!(rest %in% c(control_z, blank, tab, line_end, carriage_return)))[1]
  rest <- if (is.na(start)) raw() else rest[start:length(rest)]
  end <- which(rest == line_end)[1]
  quoted(if (is.na(end)) rest else rest[seq_len(end - 1)])
}

# 26: how many lines of a header are named, how many the file has, and the line at the place.
of_header <- function(given, place) {
  lines <- file_lines(given$file)
  header <- if (is.null(given$header)) NA else given$header
  list(named = header, header = if (is.na(header)) NA else count_of(header, "line"), lines = count_of(lines$count, "line"),
       text = if (place > 0) quoted(lines$at(place)$body, shown_line) else NA)
}

# 11: a line's columns and fields, and how it is shown.
of_shown <- function(given, place) {
  lines <- file_lines(given$file)
  line <- lines$at(place)
  if (is.null(line)) return(NULL)
  rest <- by_byte(slice(line$body, name_columns, length(line$body)))
  is_year <- grepl("^ *(0|-?[1-9][0-9]*)$", substr(rest, 1, head_columns - name_columns))
  last <- max(0, which(!(line$raw %in% c(blank, tab, carriage_return))))
  following <- beside(lines, place, 1)
  c(list(text = quoted(line$body, shown_line), has_tab = any(line$raw[seq_len(last)] == tab),
         is_prose = rest == "" || (grepl("[A-Za-z\u0080-\u00ff]", rest) && !is_year)),
    of_line(line$body, TRUE, is.null(following) || !identical(name_of(following$body), name_of(line$body))))
}

# 22: the first byte that is not ASCII, in how many ways the line is in order with ? for such bytes, and the line before it where that
# shows the same name.
of_bytes <- function(given, place) {
  lines <- file_lines(given$file)
  line <- lines$at(place)
  if (is.null(line)) return(NULL)
  before <- beside(lines, place, -1)
  is_same <- !is.null(before) && identical(name_of(before$body), name_of(line$body))
  found <- c(first_byte(line$columns), if (is_same) first_byte(name_bytes(before)), list(byte = NA, column = NA))[1:2]
  c(found, list(is_ascii = is_ascii(line$columns), has_tab = any(line$raw == tab), text = quoted(line$columns, shown_line),
                ways = sum(vapply(in_question_marks(line$columns), is_strict_line, NA)), name = quoted(name_of(line$body)),
                name_text = quoted(name_bytes(line)), line = if (is_same) before$number else NA,
                other = if (is_same) quoted(name_bytes(before)) else NA))
}

# The first byte that is not ASCII and its column, as words tell them.
first_byte <- function(bytes) {
  column <- which(bytes >= first_of_two)[1]
  if (!is.na(column)) list(byte = sprintf("%d (%02X)", as.integer(bytes[column]), as.integer(bytes[column])), column = column)
}

# What the file has for the name of a line.
name_bytes <- function(line) line$columns[seq_len(min(length(line$columns), length(line$columns) - length(line$body) + name_columns))]

# The lines of a series, from its first to the one at a place; none where that has not the columns of one.
series_up_to <- function(lines, place) {
  line <- lines$at(place)
  if (is.null(line) || !is_strict_line(line$body)) return(list())
  made <- list(line)
  repeat {
    before <- beside(lines, made[[1]]$number, -1)
    if (is.null(before) || !is_strict_line(before$body) || !identical(name_of(before$body), name_of(line$body))) return(made)
    made <- c(list(before), made)
  }
}

# 23, 24, 25: name and year of a line, what runs into the year, its closing, and the year that has 999.
of_series_line <- function(given, place) {
  body <- file_lines(given$file)$at(place)$body
  if (is.null(body) || !is_strict_line(body)) return(NULL)
  fields <- fields_of(body)
  text <- rawToChar(body[seq_len(head_columns)])
  sign <- c("-" = "minus", "?" = "?, which stands for what is not ASCII and may be a minus,")[substr(text, name_columns, name_columns)]
  list(shown = quoted(body[seq_len(head_columns)]), first = year_of(body), name = quoted(name_of(body)), sign = unname(sign),
       has_five = grepl("^.{6}[-? ][0-9]{5}$", text), closing = tail_of(fields), said = given$unit,
       closed = c(names(closings)[match(tail_of(fields), closings)], "")[1], year = year_of(body) + match(hundredths_closing, fields) - 1)
}

of_years <- function(given, place) {
  lines <- series_up_to(file_lines(given$file), place)
  last <- length(lines)
  if (last > 1) of_year(lines[[last - 1]]$body, lines[[last]]$body, lines[[last - 1]]$number)
}

of_end <- function(given, place) {
  lines <- file_lines(given$file)
  series <- lapply(series_up_to(lines, place), `[[`, "body")
  following <- beside(lines, place, 1)
  if (length(series) == 0) return(NULL)
  if (is.null(following)) of_closing(series, raw(), NA) else of_closing(series, following$body, following$number)
}

file_facts <- list("11" = of_shown, "12" = of_years, "13" = of_end, "21" = of_text, "22" = of_bytes, "23" = of_series_line,
                   "24" = of_series_line, "25" = of_series_line, "26" = of_header)
