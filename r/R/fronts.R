# What the fronts for Heidelberg files and tables share: what they refuse and tell, years, widths and names. Nothing here is proved:
# steps and words are those of the command's fronts, in R's arguments, and the engine writes and reads every series before it is used.

width_units <- c(mm = 3, tenths = 2, hundredths = 1, thousandths = 0) # decimals that a thousandth of a millimetre has
year_digits <- "^-?[0-9]{1,9}$"
most_width_digits <- 6L # before the point: so that thousandths of them fit the engine's numbers, which then refuses
byte_order_mark <- as.raw(c(0xef, 0xbb, 0xbf))
control_z <- as.raw(26)
tab <- as.raw(9)
first_of_two <- as.raw(128)
question_mark <- as.raw(63)
send_it <- "Send the file to the maintainers."

# What a front can't place: the line, what is wrong there, and what to do.
unreadable <- function(line, words, remedy) {
  stop(structure(class = c("walzhik_unreadable", "error", "condition"),
                 list(message = paste0("Line ", as_text(line), ": ", words, "\n", remedy), call = user_call(), line = as.numeric(line),
                      words = words, remedy = remedy)))
}

# Notes that are collected: for each sentence the lines that it is about.
new_notes <- function() {
  notes <- new.env(parent = emptyenv())
  notes$words <- character()
  notes$lines <- list()
  notes
}

tell <- function(notes, lines, words) {
  if (length(lines) == 0) return(invisible())
  at <- match(words, notes$words, nomatch = length(notes$words) + 1)
  notes$words[at] <- words
  notes$lines[[at]] <- c(if (at <= length(notes$lines)) notes$lines[[at]], lines)
}

# All notes by rising line; the same words on lines that follow each other are one note.
listed_notes <- function(notes) {
  runs <- Map(function(words, lines) {
    lines <- sort(unique(as.numeric(lines)))
    starts <- c(TRUE, diff(lines) > 1)
    data.frame(line = lines[starts], last = lines[c(starts[-1], TRUE)], words = words, number = NA_real_)
  }, notes$words, notes$lines)
  listed <- do.call(rbind, c(list(data.frame(line = numeric(), last = numeric(), words = character(), number = numeric())), unname(runs)))
  listed <- listed[order(listed$line, listed$last), ]
  rownames(listed) <- NULL
  listed
}

line_of_byte <- function(text, place) sum(text[seq_len(place - 1)] == line_end) + 1

starts_with <- function(text, bytes) length(text) >= length(bytes) && all(text[seq_along(bytes)] == bytes)

# The text without a byte order mark at its start and Ctrl-Z at its end.
without_marks <- function(text, notes) {
  if (starts_with(text, as.raw(c(0xff, 0xfe))) || starts_with(text, as.raw(c(0xfe, 0xff)))) {
    unreadable(1, "the file is written in UTF-16.", "Save it as plain text (ASCII or UTF-8).")
  }
  if (starts_with(text, byte_order_mark)) {
    tell(notes, 1, "a byte order mark was taken off")
    text <- text[-seq_along(byte_order_mark)]
  }
  refuse_bytes(text, which(text == 0)[1], "a zero byte")
  leads <- which(text == byte_order_mark[1])
  refuse_bytes(text, leads[text[leads + 1] == byte_order_mark[2] & text[leads + 2] == byte_order_mark[3]][1],
               "a byte order mark within the text")
  without_end(text, which(text == control_z)[1], notes)
}

refuse_bytes <- function(text, place, what) {
  if (is.na(place)) return(invisible())
  unreadable(line_of_byte(text, place), paste0("it holds ", what, "."), "Save the file as plain text, one file at a time.")
}

without_end <- function(text, end, notes) {
  if (is.na(end)) return(text)
  line <- line_of_byte(text, end)
  if (!all(text[end:length(text)] %in% c(control_z, blank, tab, line_end, carriage_return))) {
    unreadable(line, "Ctrl-Z (byte 26) ends the file here, but more text follows.", "Take out one of the two.")
  }
  tell(notes, line, "Ctrl-Z (byte 26) at the end was taken off")
  text[seq_len(end - 1)]
}

is_ascii <- function(bytes) all(bytes < first_of_two)

# Bytes as a text with a character for each byte, and back.
by_byte <- function(bytes) if (is_ascii(bytes)) rawToChar(bytes) else iconv(list(bytes), "ISO-8859-1", "UTF-8")

bytes_by <- function(text) iconv(text, "UTF-8", "ISO-8859-1", toRaw = TRUE)[[1]]

utf8_bytes <- function(text) charToRaw(enc2utf8(text))

stripped <- function(texts) gsub("^[ \t\r\n\v\f]+|[ \t\r\n\v\f]+$", "", texts)

# The lines that are not blank, without line ends and trailing blanks: their numbers in the file, and a character for each byte.
text_lines <- function(text, notes) {
  ends <- sum(text == line_end)
  bodies <- strsplit(by_byte(text), "\n", fixed = TRUE)[[1]]
  numbers <- seq_along(bodies)
  windows <- endsWith(bodies, "\r")
  refuse_carriage(which(windows & grepl("\r.*\r", bodies))[1])
  refuse_carriage(which(windows & numbers > ends)[1])
  tell(notes, which(windows), "the line end of Windows became a plain one")
  bodies[windows] <- substr(bodies[windows], 1, nchar(bodies[windows]) - 1)
  kept <- sub("[ \t]+$", "", bodies)
  is_blank <- kept == ""
  tell(notes, which(is_blank), "a blank line was taken out")
  tell(notes, which(!is_blank & kept != bodies), "trailing blanks were taken off")
  refuse_carriage(which(grepl("\r", kept, fixed = TRUE))[1])
  numbers <- numbers[!is_blank]
  if (length(numbers) > 0 && max(numbers) > ends) tell(notes, max(numbers), "a line end was put behind the last line")
  list(number = numbers, body = kept[!is_blank])
}

refuse_carriage <- function(line) {
  if (is.na(line)) return(invisible())
  unreadable(line, "it holds a carriage return (byte 13) without a line feed.", "Save the file with plain line ends.")
}

# A year, or another whole number of a header.
year_in <- function(text, what, line) {
  if (!grepl(year_digits, text)) {
    unreadable(line, paste0(what, " is ", quoted(utf8_bytes(text)), ", which is no whole number."),
               "Write it with the digits 0 to 9.")
  }
  as.integer(text)
}

# Years as the engine counts them, with a year 0; how those below 1 were taken is told.
placed_years <- function(years, asked, lines, notes) {
  early <- years < 1
  if (is.null(asked$year_zero)) {
    tell(notes, lines[early], "a year below 1 was taken as it stands, with a year 0 after -1 (year_zero = FALSE if there is none)")
  }
  if (!isFALSE(asked$year_zero)) return(years)
  tell(notes, lines[early & years != 0],
       "a year below 1 became one later, as year_zero = FALSE asks: the year before 1 is 0 from here on")
  ifelse(early, years + 1L, years)
}

refuse_year_zero <- function(line) {
  unreadable(line, "it has the year 0, but year_zero = FALSE says that there is none.", "Give year_zero = TRUE.")
}

# Widths, as they are written, in thousandths of a millimetre. The first that can't be read is refused.
thousandths_in <- function(texts, scale, asked, lines, notes) {
  room <- width_units[[scale]]
  is_width <- grepl("^[0-9]+([.][0-9]+)?$", texts) & nchar(sub("[.].*", "", texts)) <= most_width_digits
  part <- ifelse(is_width, sub("^[0-9]+[.]?", "", texts), "")
  is_fine <- nchar(part) > room
  bad <- which(!is_width | (is_fine & !asked$rounds))[1]
  if (!is.na(bad)) refuse_width(texts[bad], lines[bad], is_width[bad])
  tell(notes, lines[is_fine], "a width was rounded to a whole thousandth of a millimetre, halves upwards")
  digits <- substr(paste0(part, "000"), 1, room)
  whole <- as.numeric(sub("[.].*", "", texts)) * 10^room + if (room > 0) as.numeric(digits) else 0
  whole + (is_fine & substr(part, room + 1, room + 1) >= "5")
}

refuse_width <- function(text, line, is_width) {
  shown <- quoted(utf8_bytes(text))
  if (startsWith(text, "-")) {
    unreadable(line, paste0("the width ", shown, " is below 0."), "Put in the width, or 0 for an absent ring.")
  }
  if (!is_width) {
    unreadable(line, paste0(shown, " is no width."), "Write it with the digits 0 to 9, and a point where it has one.")
  }
  unreadable(line, paste0("the width ", shown, " is finer than a thousandth of a millimetre."),
             "Give round = TRUE, or write it in whole thousandths.")
}

# A name in ASCII without outer blanks, ? for each character that is not ASCII; byte by byte where it is no UTF-8.
plain_name <- function(bytes) {
  if (validUTF8(rawToChar(bytes))) bytes <- bytes[bytes < first_of_two | bytes >= as.raw(0xc0)]
  bytes[bytes >= first_of_two] <- question_mark
  gsub("^[ \t]+|[ \t]+$", "", rawToChar(bytes))
}

# The names in eight columns, all different; numbered where they are not and it is asked for.
fitting_names <- function(raws, lines, renames, notes) {
  names <- vapply(raws, plain_name, "")
  tell(notes, lines[!vapply(raws, is_ascii, NA)], "a character of a name that is not ASCII became ?")
  bad <- which(!grepl("^[ -~]+$", names))[1]
  if (!is.na(bad)) {
    unreadable(lines[bad], paste0("the name ", quoted(raws[[bad]]), " is empty, or holds what can't be printed."),
               "Give the series a name of letters and digits.")
  }
  taken <- names[!(names %in% names[duplicated(names)]) & nchar(names) <= name_columns]
  for (place in which(!(names %in% taken))) {
    made <- numbered_name(names[place], lines[place], taken, renames, notes)
    taken <- c(taken, made)
    names[place] <- made
  }
  names
}

numbered_name <- function(name, line, taken, renames, notes) {
  shown <- quoted(charToRaw(name))
  if (!renames) {
    why <- if (nchar(name) > name_columns) paste("is longer than", name_columns, "columns") else "comes more than once"
    unreadable(line, paste0("the name ", shown, " ", why, "."),
               "Give the series another name, or let it be numbered (rename = TRUE).")
  }
  number <- 0
  repeat {
    number <- number + 1
    made <- paste0(sub(" +$", "", substr(name, 1, name_columns - nchar(number))), number)
    if (!(made %in% taken)) break
  }
  tell(notes, line, paste0("the name ", shown, " became ", quoted(charToRaw(made))))
  made
}
