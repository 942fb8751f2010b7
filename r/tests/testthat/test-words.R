# The words of refusals: those of the command's table, with what they tell put in, for every number that R can meet.

# A sheet's lists by their names.
sheet_from <- function(file) {
  lines <- readLines(file, warn = FALSE)
  lapply(setNames(sub("[^=]*=", "", lines), sub("=.*", "", lines)), function(text) numbers_from(gsub(":", ",", text)))
}

ask_sheet <- function(sheet) {
  curve <- growth_curve(curve_space(sheet$breaks, sheet$degrees, sheet$orders), matrix(sheet$coefs, ncol = 2, byrow = TRUE))
  curve_values(curve, sheet$at)
}

explained <- function(file) {
  lines <- readLines(sub("[.][a-z]+$", ".explained", file))
  list(reply = as.numeric(regmatches(lines[1], gregexpr("[0-9]+", lines[1]))[[1]]), words = lines[2])
}

# The command's words with the numbers of places taken out, and without the names that R's arguments have instead.
without_places <- function(words) {
  words <- gsub("(Stretch|stretch|Join) [0-9]+( \\((degrees|orders)\\[[0-9]+\\]\\))?", "\\1", words)
  gsub("Breakpoint [0-9]+|breakpoint [0-9]+|breaks\\[[0-9]+\\]", "breakpoint", words)
}

test_that("refused sheets are explained as by the command, in R's arguments and counted from 1", {
  files <- list.files(test_path("refusals"), "[.]sheet$", full.names = TRUE)
  expect_gt(length(files), 10)
  for (file in files) {
    expected <- explained(file)
    condition <- expect_refused(ask_sheet(sheet_from(file)), expected$reply[1], expected$reply[2])
    expect_no_match(condition$words, "[a-z]=|Entry|Pair")
    if (expected$reply[1] %in% c(3, 4, 5, 8, 15)) {
      expect_identical(without_places(condition$words), without_places(expected$words))
      argument <- c("3" = "breaks", "4" = "degrees", "5" = "orders", "8" = "orders", "15" = "degrees")[[as.character(expected$reply[1])]]
      expect_match(condition$words, paste0(argument, "[", expected$reply[2] + 1, "]"), fixed = TRUE)
    }
  }
})

test_that("R's arguments are named as they are given", {
  expect_match(expect_refused(growth_curve(w1(), 1:3), 6, largest_place)$words,
               "coefficients lists 3 coefficients, but this curve takes 4 coefficients")
  expect_match(expect_refused(growth_curve(w1(), matrix(1, 3, 2)), 6, largest_place)$words,
               "coefficients lists 3 rows, but this curve takes 4 rows")
  expect_match(expect_refused(growth_curve(w1(), c(1, 2e6, 1, 1)), 6, 2)$words, "coefficients[2] is 2000000", fixed = TRUE)
  expect_match(expect_refused(growth_curve(w1(), cbind(1:4, c(1, 1, 2e6, 1))), 6, 5)$words,
               "coefficients[3, \"latewood\"] is 2000000", fixed = TRUE)
  expect_match(expect_refused(curve_values(growth_curve(w1(), 1:4), c(0, 999)), 7, 1)$words, "positions[2] is 999", fixed = TRUE)
  expect_match(expect_refused(curve_space(c(0, 5, 3), c(1, 1), 0), 3, 2)$words, "breaks[3] is 3, but breaks[2], before it, is 5",
               fixed = TRUE)
  expect_match(expect_refused(curve_pieces(growth_curve(w1(), 1:4), 3), 17, 2)$words, "There is no stretch 3: the curve has 2 stretches.",
               fixed = TRUE)
  expect_match(conditionMessage(caught(curve_space(c(0, 2), 9))), "\n(no=4,0)", fixed = TRUE)
})

test_that("refused Tucson texts are explained as by the command", {
  files <- list.files(test_path("refusals"), "[.]rwl$", full.names = TRUE)
  expect_gt(length(files), 5)
  for (file in files) {
    expected <- explained(file)
    condition <- expect_refused(read_tucson(file, strict = TRUE), expected$reply[1], expected$reply[2])
    expect_identical(condition$words, expected$words)
  }
})

test_that("a text's faults have words for each column", {
  line <- "ABC01   1998    12 -9999\n"
  told <- function(text) expect_refused(read_tucson(charToRaw(text), strict = TRUE), 11, 1)$words
  expect_match(told(sub("\n", "\r\n", line)), "carriage return")
  expect_match(told(sub("ABC01", "     ", line)), "'        ' for a name")
  expect_match(told(sub("1998", "19 8", line)), "'19 8' for a year")
  expect_match(told(sub("12", "1x", line)), "'    1x' for a field: a whole number at the right of columns 13 to 18")
  expect_match(told(sub("\n", "", line)), "no line end")
  expect_match(told("ABC01   1998 -9999    12\n"), "closing -9999 for 1998")
  nul <- charToRaw(line)
  nul[1] <- as.raw(0)
  expect_match(expect_refused(read_tucson(nul, strict = TRUE), 11, 1)$words, "'\\x00BC01   ' for a name", fixed = TRUE)
})

test_that("what is refused in writing is told of the series", {
  frame <- function(widths, name = "A", first = 1900) {
    structure(setNames(data.frame(widths, row.names = first - 1 + seq_along(widths)), name), class = c("rwl", "data.frame"))
  }
  expect_match(expect_refused(write_tucson(frame(1, " ")), 11, 0)$words, "'        ': a name is printable")
  expect_match(expect_refused(write_tucson(frame(1, "\u00e9")), 11, 0)$words, "a name is printable")
  expect_match(expect_refused(write_tucson(frame(c(1, 100))), 11, 0)$words, "has 100000 for 1901")
  expect_match(expect_refused(write_tucson(frame(-1)), 11, 0)$words, "has -1000 for 1900")
  expect_match(expect_refused(write_tucson(frame(1, first = 9999)), 11, 0)$words, "from 9999 to 9999")
  expect_match(expect_refused(write_tucson(frame(1, first = -1000)), 11, 0)$words, "from -1000 to -1000")
})

test_that("the refusals of curves tell ring, wood and width", {
  curve <- growth_curve(w1(), cbind(c(0, 100, 0, 0), c(0, -100, 0, 0)))
  expect_match(expect_refused(curve_reach(curve, 200, "latewood"), 16, 0)$words,
               "ring 0 to ring 3 reaches 0.200 mm in the latewood")
  expect_match(expect_refused(curve_pieces(curve, 3, "earlywood"), 17, 2)$words, "no stretch 3: the curve has 2 stretches")
  steep <- growth_curve(curve_space(c(0, 9), 4), rep(5, 5))
  expect_match(expect_refused(curve_pieces(steep), 17, 0)$words, "from ring 0 to ring 9, has degree 4")
  rwl <- data.frame(A = c(0.1, 0.2), row.names = 1:2)
  low <- expect_refused(ring_indices(rwl, curve, "latewood"), 14, 0)
  expect_match(low$words, "ring 1, is 100, but the curve of the latewood is at -0.067 mm there")
  expect_identical(low$series, "A")
  expect_match(conditionMessage(low), "^Series A: ")
  far <- data.frame(A = 0.1, row.names = 4)
  expect_match(expect_refused(ring_indices(far, curve, "earlywood"), 7, 0)$words,
               "is ring 4, past the curve's last breakpoint, ring 3")
  expect_refused(ring_indices(data.frame(A = 100, row.names = 1), curve, "earlywood"), 14, 0)
})

test_that("the refusals of coefficients tell the join and what differs", {
  expect_match(expect_refused(curve_coefficients(w1(), c(0, 256, 513, 512, 1024, 1)), 19, 0)$words,
               "the values on its two sides differ by -1/256 thousandths")
  expect_match(expect_refused(curve_coefficients(w1(), c(0, 256, 512, 512, 1025, 1)), 19, 0)$words,
               "the slopes on its two sides differ by 1/256 thousandths of a millimetre a ring")
  bends <- curve_space(0:2, c(3, 3), 2)
  expect_match(expect_refused(curve_coefficients(bends, c(0, 0, 0, 0, 0, 0, 256, 0)), 19, 0)$words,
               "the bends .* differ by 6 thousandths")
  expect_match(expect_refused(curve_coefficients(w1(), 1:5), 18, largest_place)$words, "ordinates lists 5 ordinates")
  expect_match(expect_refused(curve_coefficients(w1(), c(256000001, 0, 0, 0, 0, 0)), 18, 0)$words, "ordinates[1] is 256000001", fixed = TRUE)
  steep <- curve_space(c(0, 1, 512), c(2, 2), 1)
  expect_refused(curve_coefficients(steep, rep(256 * 16384, 6)), 20, 0)
})

test_that("every row of the table can be filled in, and none is empty", {
  for (row in refusal_words) {
    expect_true(nzchar(row[["words"]]))
    names <- gsub("[{}]", "", regmatches(row[["words"]], gregexpr("\\{[a-z_]+\\}", row[["words"]]))[[1]])
    expect_no_match(filled(row[["words"]], setNames(as.list(rep("{place}", length(names))), names)), "\\{(?!place\\})", perl = TRUE)
  }
})

test_that("a refusal without words keeps its number and place", {
  condition <- refusal_condition(99, 7, list(), NULL)
  expect_identical(c(condition$number, condition$place), c(99, 7))
  expect_match(conditionMessage(condition), "no=99,7")
})
