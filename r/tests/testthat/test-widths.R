# Files of widths in every form: the same series, notes and refusals as by Python (tests/r_widths.py makes the file), round trips of the
# examples byte for byte, and what read_widths() and write_widths() are asked.

text_from <- function(digits) rawToChar(bytes_from(digits))

# A file as it is kept: its text, what is asked, and what Python makes of it.
kept_file <- function(line) {
  words <- strsplit(line, " ")[[1]]
  entries <- setNames(as.list(sub("[^=]*=", "", words)), sub("=.*", "", words))
  asked <- list(from = entries$form, unit = entries$unit, first = if (!is.null(entries$first)) as.integer(entries$first),
                year_zero = if (!is.null(entries$year_zero)) entries$year_zero == "yes", rename = !is.null(entries$rename),
                round = !is.null(entries$round), header = if (!is.null(entries$header)) as.integer(entries$header))
  list(text = bytes_from(entries$text), asked = asked, python = entries)
}

# What read_widths() answers, with its notes as one text, or its condition.
answered <- function(text, asked) {
  told <- ""
  frame <- withCallingHandlers(tryCatch(do.call(read_widths, c(list(text), asked)), error = identity), walzhik_notes = function(notes) {
    told <<- paste0(told, conditionMessage(notes))
    tryInvokeRestart("muffleMessage")
  })
  list(frame = frame, told = told)
}

# Places of series are counted from 0 by the command, from 1 here.
from_one <- function(words) {
  place <- regmatches(words, regexpr("(?<=Series )[0-9]+(?=, ')", words, perl = TRUE))
  if (length(place) == 0) words else sub("Series [0-9]+, '", paste0("Series ", as.integer(place) + 1, ", '"), words)
}

same_refusal <- function(condition, python, label) {
  if (is.null(python$line)) {
    expect_s3_class(condition, "walzhik_refused")
    expect_identical(c(condition$number, condition$place), numbers_from(python$reply), label = label)
  } else {
    expect_s3_class(condition, "walzhik_unreadable")
    expect_identical(condition$line, as.numeric(python$line), label = label)
  }
  expect_no_match(condition$words, "no words|[{}]", label = label)
  expect_identical(condition$words, from_one(text_from(python$words)), label = label)
  expect_identical(condition$remedy, text_from(python$remedy), label = label)
}

# The frame is that of the strict text which Python has.
same_series <- function(found, python, label) {
  made <- bytes_from(python$made)
  expect_identical(found$told, text_from(python$notes), label = label)
  twice <- grepl("Two series have the name", if (inherits(found$frame, "walzhik_usage")) conditionMessage(found$frame) else "")
  if (!twice && length(made) > 0) expect_identical(found$frame, read_tucson(made, strict = TRUE), label = label)
  if (length(made) == 0) expect_match(conditionMessage(found$frame), "the file holds no series", label = label)
}

test_that("files are read, told and refused as by Python", {
  lines <- readLines(test_path("widths", "files.txt"))
  expect_gt(length(lines), 1100)
  seen <- list()
  for (line in lines) {
    each <- kept_file(line)
    found <- answered(each$text, each$asked)
    label <- paste(each$asked$from, quoted(each$text, 400))
    if (is.null(each$python$made)) same_refusal(found$frame, each$python, label) else same_series(found, each$python, label)
    kind <- paste(each$asked$from, if (is.null(each$python$made)) "refused" else if (nzchar(found$told)) "told" else "read")
    seen[[kind]] <- sum(seen[[kind]], 1)
  }
  expect_setequal(names(seen), outer(c("rwl", "fh", "csv"), c("refused", "told", "read"), paste))
  expect_true(all(unlist(seen) >= 10), label = paste(names(seen), unlist(seen), collapse = ", "))
})

test_that("every number of a laboratory's file comes up with each of its cases' words", {
  lines <- readLines(test_path("widths", "files.txt"))
  replies <- unique(sub(",.*", "", sub(".* reply=", "", grep("form=rwl.* reply=", lines, value = TRUE))))
  expect_setequal(replies, c("11", "12", "13", "21", "22", "23", "24", "25", "26"))
})

test_that("rwl to fh to csv to tsv to rwl gives the engine's bytes", {
  folder <- tempfile()
  dir.create(folder)
  on.exit(unlink(folder, recursive = TRUE))
  for (name in c("oak.rwl", "pine.rwl", "few.rwl")) {
    widths <- read_example(name)
    expected <- write_tucson(widths)
    for (ending in c("fh", "csv", "tsv", "FH", "rwl")) {
      path <- file.path(folder, paste0("a.", ending))
      expect_identical(write_widths(widths, path), path)
      widths <- read_widths(path)
    }
    expect_identical(readBin(path, "raw", 1e5), expected)
    expect_identical(widths, read_tucson(expected))
    expect_identical(write_widths(widths, to = "rwl"), expected)
  }
})

test_that("random series go round trip in each form", {
  set.seed(53)
  letters_of_names <- strsplit("ABcxyz0129-_.,;=\"' ", "")[[1]]
  for (turn in 1:60) {
    names <- unique(trimws(replicate(sample(4, 1), paste(sample(letters_of_names, sample(8, 1), TRUE), collapse = ""))))
    names <- names[names != ""]
    if (length(names) == 0) next
    years <- seq(sample(-30:1900, 1), length.out = sample(c(1, 2, 9, 10, 11, 40), 1))
    columns <- lapply(names, function(name) {
      at <- range(sample(length(years), 2, TRUE))
      replace(rep(NA_real_, length(years)), at[1]:at[2], sample(0:99999, at[2] - at[1] + 1, TRUE) / 1000)
    })
    widths <- structure(columns, names = names, row.names = as.character(years), class = c("rwl", "data.frame"))
    expected <- write_tucson(widths)
    for (to in c("fh", "csv")) {
      text <- write_widths(widths, to = to)
      expect_identical(write_tucson(suppressMessages(read_widths(text, from = to))), expected)
    }
  }
})

test_that("forms are told apart by what is said, by ending, and by content", {
  widths <- read_example("few.rwl")
  for (to in c("fh", "csv", "tsv", "rwl")) {
    text <- write_widths(widths, to = to)
    expect_identical(read_widths(text), widths)
    held <- rawConnection(text)
    expect_identical(read_widths(held), widths)
    close(held)
    expect_identical(read_widths(text, from = to), widths)
  }
  table <- charToRaw("Jahr;A\n1998;1,5\n")
  expect_refused(read_widths(table), 11, 1)
  expect_identical(read_widths(table, from = "csv"), structure(data.frame(A = 1.5, row.names = "1998"), class = c("rwl", "data.frame")))
  path <- file.path(tempdir(), "a.b.TSV")
  expect_identical(ending_of(path), "tsv")
  expect_identical(ending_of("a.b/c"), "")
  expect_error(read_widths(write_widths(widths, to = "csv"), from = "fh"), class = "walzhik_unreadable")
})

test_that("what a front changes is one message that can be caught and left out", {
  text <- charToRaw("year,A\r\n1998,1\r\n,\r\n1999,1.2345\r\n")
  notes <- tryCatch(read_widths(text, round = TRUE), walzhik_notes = identity)
  expect_s3_class(notes, c("walzhik_notes", "message", "condition"), exact = TRUE)
  expect_identical(notes$notes$line, c(3, 4))
  expect_identical(conditionMessage(notes), paste0("Line 3: an empty row was left out.\n",
                                                   "Line 4: a width was rounded to a whole thousandth of a millimetre, halves upwards.\n"))
  expect_silent(suppressMessages(read_widths(text, round = TRUE)))
  expect_identical(notes$call, quote(read_widths(text, round = TRUE)))
})

test_that("a table that may be cut off within its last width is told", {
  notes <- tryCatch(read_widths(charToRaw("year,A\n1998,1\n1999,1.23")), walzhik_notes = identity)
  expect_identical(conditionMessage(notes), "Line 3: no line end stands behind the last row; see that it is whole.\n")
  expect_silent(read_widths(charToRaw("year,A\n1998,1\n1999,1.234\n")))
})

test_that("a front's refusal has line, words, remedy and call", {
  refusal <- caught(read_widths(charToRaw("year,A\n1998,1\n2000,1\n")))
  expect_identical(class(refusal), c("walzhik_unreadable", "error", "condition"))
  expect_identical(refusal$line, 3)
  expect_match(conditionMessage(refusal), "^Line 3: the year 2000 stands where 1999 comes next[.]\nPut a row for each year")
  expect_identical(refusal$call, quote(read_widths(charToRaw("year,A\n1998,1\n2000,1\n"))))
})

test_that("options that are wrong, or of another form, are told", {
  text <- charToRaw("year,A\n1998,1\n")
  few <- readBin(example_file("few.rwl"), "raw", 1000)
  expect_usage(read_widths(text, from = "xls"), "from is \"rwl\", \"fh\", \"csv\" or \"tsv\"")
  expect_usage(read_widths(text, unit = "inch"), "unit is \"mm\" or \"tenths\"")
  expect_usage(read_widths(text, first = 1.5), "first[1] is 1.5")
  expect_usage(read_widths(text, year_zero = NA), "year_zero is TRUE or FALSE")
  expect_usage(read_widths(text, rename = "yes"), "rename is TRUE or FALSE")
  expect_usage(read_widths(text, round = NULL), "round is TRUE or FALSE")
  expect_usage(read_widths(text, strict = TRUE), "strict and header are for Tucson files")
  expect_usage(read_widths(text, header = 1), "strict and header are for Tucson files")
  expect_usage(read_widths(few, rename = TRUE), "first, year_zero, rename and round are for others")
  expect_usage(read_widths(few, first = 1), "are for others")
  expect_usage(read_widths("no such.fh"), "There is no file no such.fh")
})

test_that("what a form can't hold is not written", {
  frame <- function(...) structure(data.frame(..., row.names = "1998", check.names = FALSE), class = c("rwl", "data.frame"))
  expect_usage(write_widths(frame(A = 1)), "to says which")
  expect_usage(write_widths(frame(A = 1), "a.xls"), "Widths are written as .rwl, .fh, .csv or .tsv")
  expect_usage(write_widths(frame(A = 1), to = "xls"), "to is \"rwl\"")
  expect_usage(write_widths(frame(), to = "csv"), "There are no series to write")
  expect_usage(write_widths(frame(` A` = 1), to = "fh"), "' A' begins with a blank")
  expect_usage(write_widths(frame(A = NA_real_), to = "csv"), "Series A has no widths")
  expect_usage(write_widths(frame(A = 1, `A ` = 2), to = "rwl"), "Two series have the name A where blanks")
  expect_refused(write_widths(frame(A = 100), to = "csv"), 11, 0)
  expect_refused(write_widths(setNames(frame(A = 1), "\u00e9"), to = "fh"), 11, 0)
  expect_identical(rawToChar(write_widths(frame(`A "1",` = 1.5), to = "csv")), "year,\"A \"\"1\"\",\"\n1998,1.500\n")
  expect_identical(rawToChar(write_widths(frame(`A ` = 1.5), to = "fh")),
                   "HEADER:\nKeyCode=A\nDateBegin=1998\nDateEnd=1998\nLength=1\nUnit=1/1000 mm\nDATA:Tree\n  1500\n")
})
