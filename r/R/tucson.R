# Tucson decadal files in the shape that dplR gives ring widths: a data frame of class rwl with years as row names, a column a
# series, millimetres, 0 for an absent ring and NA outside a series. Texts are read and written by the proved calls alone.

chunk_bytes <- 2^20

# All bytes of a file, a connection or a raw vector.
bytes_of <- function(file) {
  if (is.raw(file)) return(file)
  if (inherits(file, "connection")) {
    return(tryCatch(connection_bytes(file), error = function(fault) {
      usage("The connection can't be read: ", conditionMessage(fault))
    }))
  }
  if (!is.character(file) || length(file) != 1 || is.na(file)) {
    usage("file is the name of a file, a connection or a raw vector.")
  }
  if (!file.exists(file) || dir.exists(file)) usage("There is no file ", file, ".")
  opened <- tryCatch(base::file(file, "rb", raw = TRUE), error = identity, warning = identity)
  if (inherits(opened, "condition")) usage(file, " can't be read: ", conditionMessage(opened))
  on.exit(close(opened))
  connection_bytes(opened)
}

connection_bytes <- function(connection) {
  if (!isOpen(connection)) {
    open(connection, "rb")
    on.exit(close(connection))
  }
  chunks <- list()
  repeat {
    chunk <- readBin(connection, "raw", chunk_bytes)
    if (length(chunk) == 0) return(if (length(chunks) > 0) do.call(c, chunks) else raw())
    chunks[[length(chunks) + 1]] <- chunk
  }
}

tucson_units <- c(hundredths = 100L, thousandths = 1000L) # as the call has them: parts of a millimetre
no_unit <- 0L
no_header <- 100L

read_tucson <- function(file, strict = FALSE, header = NULL, unit = NULL) {
  one_flag(strict, "strict")
  said_unit(unit, names(tucson_units))
  if (!is.null(header)) header <- one_whole(header, "header", "lines")
  if (strict && !(is.null(header) && is.null(unit))) {
    usage("strict = TRUE takes a file as it is: header and unit go without it.")
  }
  text <- bytes_of(file)
  if (!strict) text <- strict_text(text, header, unit)
  read <- asked(.Call(C_tucson_read, text), list(text = text))
  if (length(read$name) == 0) unreadable(1, "the file holds no series.", "See that it is the right file, and whole.")
  names <- sub(" +$", "", read$name)
  twice <- names[duplicated(names)]
  if (length(twice) > 0) {
    usage("Two series have the name ", twice[1], ", and a data frame takes each name once: give one of them another name.")
  }
  rwl_frame(names, read$first, read$count, read$widths)
}

# A laboratory's file in the strict form, by the proved call; what it changed, left out or remarks on is told.
strict_text <- function(file, header, unit) {
  lines <- if (is.null(header)) no_header else if (header < 0 || header >= no_header) no_header + 1L else header
  parts <- if (is.null(unit)) no_unit else tucson_units[[unit]]
  made <- asked(.Call(C_tucson_clean, file, lines, parts), list(file = file, header = header, unit = unit))
  show_notes(tucson_notes(made$notes))
  made$text
}

# The call's notes, a number and a line each, in words.
tucson_notes <- function(cells) {
  notes <- new_notes()
  is_number <- seq_along(cells) %% 2 == 1
  number <- cells[is_number]
  line <- cells[!is_number]
  numbers <- unique(number)
  words <- vapply(numbers, function(number) refusal_words[[paste0("0 note-", number)]][["words"]], "")
  for (place in seq_along(numbers)) tell(notes, line[number == numbers[place]], words[place])
  listed <- listed_notes(notes)
  listed$number <- numbers[match(listed$words, words)]
  listed
}

# The data frame of series that have been read; years run from the first to the last that any series has.
rwl_frame <- function(names, first, count, widths) {
  filled <- count > 0
  years <- if (any(filled)) seq(min(first[filled]), max((first + count - 1)[filled])) else integer()
  ends <- cumsum(count)
  columns <- lapply(seq_along(names), function(place) {
    column <- rep(NA_real_, length(years))
    at <- seq_len(count[place])
    column[first[place] - years[1] + at] <- widths[ends[place] - count[place] + at] / per_mm
    column
  })
  structure(columns, names = names, row.names = as.character(years), class = c("rwl", "data.frame"))
}

write_tucson <- function(rwl, file = NULL) {
  text <- series_text(series_of(rwl))
  if (is.null(file)) return(text)
  write_whole(text, file)
  invisible(file)
}

# The text of series by the proved writer.
series_text <- function(series) {
  check_writable(series)
  given <- list(names = padded_names(vapply(series, `[[`, "", "name")), years = integers_of(series, "first"),
                counts = vapply(series, function(each) length(each$widths), 0L), widths = integers_of(series, "widths"))
  asked(.Call(C_tucson_write, given$names, given$years, given$counts, given$widths), given)$text
}

integers_of <- function(series, field) as.integer(unlist(lapply(series, `[[`, field)))

check_writable <- function(series) {
  names <- sub(" +$", "", vapply(series, `[[`, "", "name"))
  if (anyDuplicated(names)) {
    usage("Two series have the name ", names[duplicated(names)][1], " where blanks at the end are left out, as a file does.")
  }
  for (each in series) {
    if (length(each$widths) == 0) usage("Series ", each$name, " has no widths: leave its column out.")
    gap <- which(is.na(each$widths))[1]
    if (!is.na(gap)) {
      usage("Series ", each$name, " has no width for ", each$first + gap - 1,
            ", within its years: a Tucson series has no gaps, and an absent ring is 0.")
    }
  }
}

# Eight bytes a name, with blanks at its end. A longer name is refused: nothing is cut.
padded_names <- function(names) {
  bytes <- lapply(names, charToRaw)
  long <- which(lengths(bytes) > name_columns)[1]
  if (!is.na(long)) {
    usage("The name ", names[long], " has ", length(bytes[[long]]), " bytes: a Tucson file takes ", name_columns, ".")
  }
  padded <- lapply(bytes, function(name) c(name, rep(blank, name_columns - length(name))))
  as.raw(unlist(padded))
}

devices <- "^/(dev|proc)/(?!shm/)"

most_links <- 40L

# Where a file's symbolic links lead, be there something or not.
behind_links <- function(file) {
  path <- file
  for (link in seq_len(most_links)) {
    to <- Sys.readlink(path)
    if (is.na(to) || to == "") return(path)
    path <- if (startsWith(to, "/")) to else file.path(dirname(path), to)
  }
  usage(file, " is a symbolic link that leads nowhere.")
}

# The file whole or not at all: a temporary file in the same folder takes its place and has its mode. A symbolic link stays, and what it
# leads to is written. It must not take the place of a device.
write_whole <- function(bytes, file, temporary = tempfile(".walzhik", dirname(behind_links(file)))) {
  if (!is.character(file) || length(file) != 1 || is.na(file)) usage("file is the name of a file.")
  path <- behind_links(file)
  folder <- dirname(path)
  if (!dir.exists(folder)) usage("There is no folder ", folder, ".")
  if (dir.exists(file)) usage(file, " is a folder.")
  if (grepl(devices, normalizePath(path, mustWork = FALSE), perl = TRUE)) {
    usage(file, " is no plain file. Without a file the text is given back as bytes, which writeBin() takes.")
  }
  on.exit(unlink(temporary))
  written <- tryCatch({
    writeBin(bytes, temporary)
    if (file.exists(path)) Sys.chmod(temporary, file.mode(path), use_umask = FALSE)
    file.size(temporary) == length(bytes) && file.rename(temporary, path)
  }, error = function(fault) FALSE, warning = function(fault) FALSE)
  if (!isTRUE(written)) usage(file, " can't be written.")
}
