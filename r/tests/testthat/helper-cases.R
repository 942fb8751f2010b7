# Cases of the rational program, a call a line, and what the tests share.

bytes_from <- function(digits) {
  if (!nzchar(digits)) return(raw())
  starts <- seq_len(nchar(digits) / 2) * 2 - 1
  as.raw(strtoi(substring(digits, starts, starts + 1), 16))
}

numbers_from <- function(text) if (nzchar(text)) as.numeric(strsplit(text, ",")[[1]]) else numeric()

in_digits <- c("text", "names", "made")
in_letters <- "wood"

# The words of a line by their names.
case_from <- function(line) {
  words <- strsplit(line, " ")[[1]]
  names <- sub("=.*", "", words)
  entries <- sub("[^=]*=", "", words)
  setNames(Map(function(name, text) {
    if (name %in% in_digits) bytes_from(text) else if (name %in% in_letters) text else numbers_from(text)
  }, names, entries), names)
}

cases_of <- function(call) lapply(readLines(test_path("cases", paste0(call, ".txt"))), case_from)

whole <- function(x) as.integer(x)

# The condition of a call, or NULL.
caught <- function(call) tryCatch({
  call
  NULL
}, error = identity)

expect_refused <- function(call, number, place) {
  condition <- caught(call)
  expect_s3_class(condition, "walzhik_refused")
  expect_identical(c(condition$number, condition$place), c(number, place))
  expect_no_match(condition$words, "no words|[{}]")
  expect_match(conditionMessage(condition), condition$words, fixed = TRUE)
  invisible(condition)
}

expect_usage <- function(call, words) {
  condition <- caught(call)
  expect_s3_class(condition, "walzhik_usage")
  expect_match(conditionMessage(condition), words, fixed = TRUE)
}

example_file <- function(name) system.file("extdata", name, package = "walzhik", mustWork = TRUE)

# An example without what is told of it: the oak's file has series in both units, which is a remark.
read_example <- function(name) suppressMessages(read_tucson(example_file(name)), "walzhik_notes")

w1 <- function() curve_space(c(0, 1, 3), c(2, 2), 1)
