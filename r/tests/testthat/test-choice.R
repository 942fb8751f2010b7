# The choice of words: words/cases.tsv, which the command's tests walk too (python/tests/test_word_choice.py), has inputs for every row of
# the table that R can choose. The engine is not asked here.

# Bytes from a text in which \\n and \\xNN stand for bytes.
bytes_from <- function(text) {
  pieces <- regmatches(text, gregexpr("\\\\x[0-9a-f]{2}|\\\\n|.", text, perl = TRUE))[[1]]
  code <- function(piece) if (nchar(piece) == 1) utf8ToInt(piece) else if (piece == "\\n") 10L else strtoi(substring(piece, 3), 16L)
  as.raw(vapply(pieces, code, 0L))
}

# Whole numbers from a list in which 0*3 stands for three zeros.
listed_from <- function(text) {
  parts <- strsplit(strsplit(text, ",", fixed = TRUE)[[1]], "*", fixed = TRUE)
  as.integer(unlist(lapply(parts, function(part) rep(part[1], if (length(part) > 1) as.integer(part[2]) else 1))))
}

# What a case's call was given, as words_for takes it.
given_in <- function(case) {
  parts <- strsplit(case$asked, " ", fixed = TRUE)[[1]]
  asked <- setNames(as.list(sub("[^=]*=", "", parts)), sub("=.*", "", parts))
  switch(case$given,
         text = list(text = bytes_from(case$text)),
         file = list(file = bytes_from(case$text), header = if (!is.null(asked$header)) as.integer(asked$header), unit = asked$unit),
         series = c(lapply(asked[c("years", "counts", "widths")], listed_from),
                    list(names = charToRaw(paste(formatC(strsplit(paste0(asked$names, ","), ",")[[1]], width = -8), collapse = "")))),
         lists = {
           made <- lapply(asked[setdiff(names(asked), c("pairs", "values"))], listed_from)
           if (!is.null(asked$pairs)) made$coefs <- listed_from(gsub(":", ",", asked$pairs))
           c(made, list(latewood = 0L))
         })
}

word_cases <- function() {
  read.delim(test_path("words", "cases.tsv"), quote = "", colClasses = c("numeric", "character", "numeric", rep("character", 3)))
}

# The rows that are chosen for a case, by their names in the table.
rows_chosen <- function(case) {
  given <- given_in(case)
  facts <- c(facts_of(case$number, case$place, given), list(place = case$place))
  rows <- list(chosen(case$number, kind_of(given), facts), chosen(case$number, paste0(kind_of(given), "-then"), facts))
  names(refusal_words)[vapply(refusal_words, function(row) any(vapply(rows, identical, NA, row)), NA)]
}

test_that("each case gets the row that the command gives it, and its words are whole", {
  cases <- word_cases()
  expect_gt(nrow(cases), 90)
  for (at in seq_len(nrow(cases))) {
    case <- cases[at, ]
    label <- paste(case$number, case$case, case$given)
    expect_identical(kind_of(given_in(case)), case$given, label = label)
    expect_true(paste(case$number, case$case) %in% rows_chosen(case), label = label)
    expect_no_match(words_for(case$number, case$place, given_in(case))$words, "no words|[{}]|\\bNA\\b", label = label)
  }
})

test_that("every row but the notes has a case", {
  cases <- word_cases()
  expect_setequal(unique(paste(cases$number, cases$case)), grep("^0 ", names(refusal_words), invert = TRUE, value = TRUE))
})

test_that("conditions hold as the command's do", {
  facts <- list(ring = 0, other = NA, is_so = FALSE, text = "a")
  for (condition in c("ring", "no other", "no is_so", "text", "ring = 0", "ring <= ring", "ring outside 1..2")) {
    expect_true(holds(condition, facts), label = condition)
  }
  for (condition in c("other", "is_so", "no ring", "ring < other", "other outside 0..1", "ring outside -1..0")) {
    expect_false(holds(condition, facts), label = condition)
  }
  expect_error(holds("nothing", facts), "which is no fact")
  expect_null(chosen(99, "lists", facts))
})
