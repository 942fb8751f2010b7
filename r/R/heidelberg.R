# Heidelberg files (.fh, as TSAP writes them): a front that makes series of a text, and a writer. Nothing here is proved. It uses
# KeyCode, DateBegin, DateEnd, Length and Unit, and refuses what it can't place; read_widths() has its series written and read by the
# engine before anything uses them.

heidelberg_keys <- c(keycode = "KeyCode", datebegin = "DateBegin", dateend = "DateEnd", length = "Length", unit = "Unit")
heidelberg_units <- c(`mm` = "mm", `1/10mm` = "tenths", `1/100mm` = "hundredths", `1/1000mm` = "thousandths")
values_a_line <- 10L

# The series of a text: names, first years, widths, and the line of each.
draw_heidelberg <- function(text, asked, notes) {
  lines <- text_lines(without_marks(text, notes), notes)
  bodies <- stripped(lines$body)
  starts <- which(toupper_ascii(bodies) == "HEADER:")
  if (length(bodies) > 0 && !(1 %in% starts)) {
    unreadable(lines$number[1], "it stands before the first HEADER:.", "Begin the file with HEADER:.")
  }
  unused <- new_notes()
  ends <- c(starts[-1] - 1, length(bodies))
  found <- Map(function(start, end) {
    heidelberg_series(heidelberg_block(lines, bodies, seq_len(end - start) + start, lines$number[start], unused), asked, notes)
  }, starts, ends[seq_along(starts)])
  for (place in seq_along(unused$words)) {
    at <- unused$lines[[place]]
    tell(notes, at[1], paste0("the key ", unused$words[place], " is not used (", with_commas(length(at)),
                              if (length(at) == 1) " header)" else " headers)"))
  }
  found
}

# Only the letters of ASCII, whatever the locale.
toupper_ascii <- function(texts) chartr("abcdefghijklmnopqrstuvwxyz", "ABCDEFGHIJKLMNOPQRSTUVWXYZ", texts)

# A header with its data: its own line, those of the keys that are used, and the lines of the data.
heidelberg_block <- function(lines, bodies, at, line, unused) {
  data_at <- at[startsWith(toupper_ascii(bodies[at]), "DATA:")][1]
  keys <- list()
  for (place in if (is.na(data_at)) at else at[at < data_at]) keys <- with_key(keys, bodies[place], lines$number[place], unused)
  if (is.na(data_at)) {
    unreadable(line, "the header has no DATA: line behind it.", "Put DATA:Tree before its values, or take the header out.")
  }
  kind <- stripped(substring(bodies[data_at], nchar("DATA:") + 1))
  if (!(toupper_ascii(kind) %in% c("TREE", "SINGLE"))) {
    unreadable(lines$number[data_at], paste0("its data are of the kind ", quoted(bytes_by(kind)), ", not Tree or Single."),
               "Export the series with one value a year, as DATA:Tree or DATA:Single.")
  }
  rest <- at[at > data_at]
  list(line = line, keys = keys, number = lines$number[rest], body = lines$body[rest])
}

# The keys with those of a line Key=Value.
with_key <- function(keys, body, line, unused) {
  if (!grepl("=", body, fixed = TRUE)) {
    unreadable(line, paste0(quoted(bytes_by(body)), " is no Key=Value line of a header."), "Correct it, or take it out.")
  }
  key <- stripped(sub("=.*", "", body))
  known <- names(heidelberg_keys)[match(toupper_ascii(key), toupper_ascii(names(heidelberg_keys)))]
  if (is.na(known)) {
    tell(unused, line, quoted(bytes_by(key)))
    return(keys)
  }
  if (!is.null(keys[[known]])) {
    unreadable(line, paste0(heidelberg_keys[[known]], " comes twice in one header."), "Take one of the two out.")
  }
  keys[[known]] <- list(line = line, text = stripped(sub("[^=]*=", "", body)))
  keys
}

key_text <- function(block, key) if (is.null(block$keys[[key]])) "" else block$keys[[key]]$text

key_line <- function(block, key) if (is.null(block$keys[[key]])) block$line else block$keys[[key]]$line

key_number <- function(block, key) {
  text <- key_text(block, key)
  if (nzchar(text)) year_in(text, heidelberg_keys[[key]], key_line(block, key))
}

heidelberg_series <- function(block, asked, notes) {
  if (!nzchar(key_text(block, "keycode"))) {
    unreadable(block$line, "the header has no KeyCode.", "Put a line KeyCode=NAME into it.")
  }
  scale <- heidelberg_unit(block, asked, notes)
  years <- heidelberg_years(block, asked, notes)
  values <- heidelberg_values(block)
  count <- length(values$text)
  if (count < years$length) {
    follow <- if (count == 1) "1 value follows" else paste(with_commas(count), "values follow")
    unreadable(key_line(block, "length"), paste0("Length is ", with_commas(years$length), ", but ", follow, "."),
               "Put in what is missing, or correct Length.")
  }
  past <- seq_len(count) > years$length
  bad <- which(past & !grepl("^0*$", values$text))[1]
  if (!is.na(bad)) {
    unreadable(values$line[bad], paste0("the value ", values$text[bad], " stands past Length, which is ", with_commas(years$length), "."),
               "Correct Length, or take out what does not belong to the series.")
  }
  tell(notes, values$line[past], "values of 0 past Length were left out")
  widths <- thousandths_in(values$text[!past], scale, asked, values$line[!past], notes)
  list(line = block$line, name = bytes_by(key_text(block, "keycode")), first = years$first, widths = widths)
}

heidelberg_unit <- function(block, asked, notes) {
  said <- key_text(block, "unit")
  if (!nzchar(said) && !is.null(asked$unit)) {
    tell(notes, block$line, paste0("the header has no Unit: ", asked$unit, " are taken, as unit asks"))
    return(asked$unit)
  }
  scale <- heidelberg_units[match(toupper_ascii(gsub(" ", "", said, fixed = TRUE)), toupper_ascii(names(heidelberg_units)))]
  if (is.na(scale)) {
    remedy <- "Put a line Unit=1/100 mm into the header, or mm, 1/10 mm or 1/1000 mm, whichever it is."
    words <- if (nzchar(said)) paste0("Unit is ", quoted(bytes_by(said)), ".") else "the header has no Unit."
    unreadable(key_line(block, "unit"), words, if (nzchar(said)) remedy else paste(remedy, "unit says it for all that have none."))
  }
  if (!is.null(asked$unit) && asked$unit != scale) {
    unreadable(key_line(block, "unit"), paste0("Unit is ", said, ", but unit asks for ", asked$unit, "."), "Leave unit out.")
  }
  unname(scale)
}

# The first year as the engine counts it, and how many there are.
heidelberg_years <- function(block, asked, notes) {
  begin <- key_number(block, "datebegin")
  end <- key_number(block, "dateend")
  length <- key_number(block, "length")
  if (is.null(begin) && !is.null(end)) {
    unreadable(key_line(block, "dateend"), "the header has a DateEnd and no DateBegin.",
               "Put DateBegin in, or take DateEnd out of an undated series.")
  }
  if (is.null(length) && (is.null(begin) || is.null(end))) {
    unreadable(block$line, "the header has no Length, and no DateBegin and DateEnd that tell it.", "Put a line Length=NUMBER into it.")
  }
  if (is.null(begin)) {
    first <- if (is.null(asked$first)) 1L else asked$first
    how <- if (is.null(asked$first)) "first = YEAR says otherwise" else "as first asks"
    tell(notes, block$line, paste0("the series has no DateBegin: its first year became ", as_text(first), " (", how, ")"))
  } else {
    if (isFALSE(asked$year_zero) && begin == 0) refuse_year_zero(key_line(block, "datebegin"))
    first <- placed_years(begin, asked, key_line(block, "datebegin"), notes)
    length <- heidelberg_length(block, begin, end, length, asked)
  }
  if (length < 1) unreadable(key_line(block, "length"), "the series has no widths.", "Take it out, or put its widths in.")
  list(first = first, length = length)
}

# How many years a dated series has; DateEnd must fit.
heidelberg_length <- function(block, begin, end, length, asked) {
  if (is.null(end)) return(length)
  line <- key_line(block, "dateend")
  is_crossing <- begin < 0 && end > 0
  if (is_crossing && is.null(length) && is.null(asked$year_zero)) {
    unreadable(line, "the series goes over the year 0, and has no Length that tells whether there is one.",
               "Give year_zero = TRUE or year_zero = FALSE.")
  }
  if (isFALSE(asked$year_zero) && end == 0) {
    unreadable(line, "DateEnd is 0, but year_zero = FALSE says that there is none.", "Give year_zero = TRUE.")
  }
  with_zero <- end - begin + 1
  counted <- with_zero - (is_crossing && isFALSE(asked$year_zero))
  if (is.null(length) || length == counted) return(counted)
  remedy <- "Correct the one that is wrong."
  if (is_crossing && abs(length - counted) == 1 && length %in% c(with_zero, with_zero - 1)) {
    remedy <- paste0("Correct the one that is wrong; or give year_zero = ", if (length < with_zero) "FALSE" else "TRUE",
                     ", with which they fit.")
  }
  unreadable(line, paste0("DateEnd is ", as_text(end), ", but ", with_commas(length), " years from ", as_text(begin), " on do not end there."), remedy)
}

# The values with their lines: one a line, or ten of six columns, fewer on the last line alone.
heidelberg_values <- function(block) {
  fields <- lapply(seq_along(block$body), function(place) heidelberg_fields(block$body[place], block$number[place]))
  counts <- lengths(fields)
  is_last <- seq_along(fields) == length(fields)
  bad <- if (!all(counts == 1)) which(counts != values_a_line & (!is_last | counts > values_a_line))[1] else NA
  if (!is.na(bad)) {
    unreadable(block$number[bad], paste0("it has ", counts[bad], " values, where a line before the last has ", values_a_line, "."),
               "Put in what is missing (0 for an absent ring), ten values a line.")
  }
  list(text = as.character(unlist(fields)), line = rep(block$number, counts))
}

heidelberg_fields <- function(body, line) {
  inner <- stripped(body)
  is_single <- !grepl(" ", inner, fixed = TRUE)
  starts <- seq(1, nchar(body), by = field_columns)
  pieces <- if (is_single) inner else substring(body, starts, starts + field_columns - 1)
  is_short <- !is_single & nchar(pieces) < field_columns
  bad <- which(is_short | !grepl("^ *-?[0-9.]+$", pieces))[1]
  if (!is.na(bad)) {
    is_missing <- stripped(pieces[bad]) == ""
    unreadable(line, if (is_missing) "a value is missing." else {
      paste0(quoted(bytes_by(pieces[bad])), " is no value at the right of its ", field_columns, " columns.")
    }, "Put each value into six columns, ten a line, or one a line; 0 is an absent ring.")
  }
  stripped(pieces)
}

# Series as a Heidelberg text, in thousandths.
heidelberg_text <- function(series) paste(vapply(series, heidelberg_lines, ""), collapse = "")

heidelberg_lines <- function(each) {
  count <- length(each$widths)
  rows <- split(sprintf("%*d", field_columns, each$widths), (seq_len(count) - 1) %/% values_a_line)
  head <- sprintf("HEADER:\nKeyCode=%s\nDateBegin=%d\nDateEnd=%d\nLength=%d\nUnit=1/1000 mm\nDATA:Tree\n", each$name, each$first,
                  each$first + count - 1L, count)
  paste0(head, paste0(vapply(rows, paste, "", collapse = ""), "\n", collapse = ""))
}
