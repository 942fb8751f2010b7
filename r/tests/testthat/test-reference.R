# Every call against the rational program: the answer, or number and place of the refusal, and words for each of these.

expect_reply <- function(answer, case, given) {
  expect_identical(unname(answer$reply), case$reply)
  if (case$reply[2] == 0) return(TRUE)
  expect_no_match(words_for(case$reply[2], case$reply[3], given)$words, "no words|[{}]")
  FALSE
}

lists_of <- function(case, more = NULL) lapply(case[c("breaks", "degrees", "orders", more)], whole)

test_that("weights are those of the rational program, over whole beams", {
  scarred <- 0
  for (case in cases_of("build")) {
    given <- lists_of(case)
    built <- .Call(C_build, given$breaks, given$degrees, given$orders)
    if (!expect_reply(built, case, given)) {
      expect_refused(curve_space(case$breaks, case$degrees, case$orders), case$reply[2], case$reply[3])
      next
    }
    scarred <- scarred + (scar %in% case$orders)
    space <- curve_space(case$breaks, case$degrees, case$orders)
    expect_identical(as.vector(t(as.matrix(space$weights))), case$weights)
    expect_identical(space$n, case$reply[1])
  }
  expect_gt(scarred, 0)
})

test_that("values are those of the rational program", {
  for (case in cases_of("curve")) {
    given <- lists_of(case, c("coefs", "at"))
    names(given)[5] <- "positions"
    read <- .Call(C_curve, given$breaks, given$degrees, given$orders, given$coefs, given$positions)
    if (!expect_reply(read, case, given)) next
    curve <- growth_curve(curve_space(case$breaks, case$degrees, case$orders), matrix(case$coefs, ncol = 2, byrow = TRUE))
    expect_identical(as.numeric(t(curve_values(curve, case$at))), case$values)
  }
})

test_that("indices are those of the rational program", {
  for (case in cases_of("indices")) {
    given <- c(lists_of(case, c("coefs", "first", "widths")), list(latewood = case$wood == "latewood"))
    divided <- .Call(C_indices, given$breaks, given$degrees, given$orders, given$coefs, given$first, given$widths, given$latewood)
    if (expect_reply(divided, case, given)) expect_identical(divided$indices, case$indices)
  }
})

test_that("the first reach is that of the rational program", {
  for (case in cases_of("reach")) {
    given <- c(lists_of(case, c("coefs", "width")), list(latewood = case$wood == "latewood"))
    found <- .Call(C_reach, given$breaks, given$degrees, given$orders, given$coefs, given$width, given$latewood)
    case$reply[1] <- 0
    if (!expect_reply(found, case, given)) next
    expect_equal(found$position, case$position)
    curve <- growth_curve(curve_space(case$breaks, case$degrees, case$orders), matrix(case$coefs, ncol = 2, byrow = TRUE))
    expect_equal(curve_reach(curve, case$width, case$wood), case$position)
  }
})

test_that("pieces are those of the rational program, exactly", {
  for (case in cases_of("piece")) {
    given <- c(lists_of(case, c("coefs", "segment")), list(latewood = case$wood == "latewood"))
    drawn <- .Call(C_piece, given$breaks, given$degrees, given$orders, given$coefs, given$segment, given$latewood)
    case$reply[1] <- 0
    if (!expect_reply(drawn, case, given)) next
    curve <- growth_curve(curve_space(case$breaks, case$degrees, case$orders), matrix(case$coefs, ncol = 2, byrow = TRUE))
    piece <- curve_pieces(curve, case$segment + 1, case$wood)
    ordinates <- as.numeric(piece[paste0("o", 0:3)])
    expect_identical(c(piece$start, piece$end, 256 * ordinates[!is.na(ordinates)]), case$piece)
    expect_identical(sum(!is.na(ordinates)), as.integer(piece$degree) + 1L)
  }
})

test_that("coefficients are those of the rational program", {
  for (case in cases_of("coefficients")) {
    given <- lists_of(case, "ordinates")
    recovered <- .Call(C_coefficients, given$breaks, given$degrees, given$orders, given$ordinates)
    if (!expect_reply(recovered, case, given)) next
    answer <- curve_coefficients(curve_space(case$breaks, case$degrees, case$orders), case$ordinates)
    expect_identical(list(answer$numerator, answer$denominator), list(case$numerator, case$denominator))
  }
})

test_that("laboratories' files are cleaned as the rational program cleans them", {
  for (case in cases_of("tucson_clean")) {
    made <- .Call(C_tucson_clean, case$text, whole(case$header), whole(case$unit))
    expect_equal(unname(made$reply), case$reply)
    expect_identical(made[c("text", "lines", "notes")], list(text = case$made, lines = case$lines, notes = case$notes))
    unit <- names(tucson_units)[match(case$unit, tucson_units)]
    if (case$reply[2] == 0 || case$header > 100 || !(case$unit %in% c(0, tucson_units))) next
    expect_refused(read_tucson(case$text, header = if (case$header != 100) case$header, unit = if (!is.na(unit)) unit),
                   case$reply[2], case$reply[3])
  }
})

test_that("Tucson texts are read as the rational program reads them", {
  for (case in cases_of("tucson_read")) {
    read <- .Call(C_tucson_read, case$text)
    if (!expect_reply(read, case, list(text = case$text))) {
      expect_refused(read_tucson(case$text, strict = TRUE), case$reply[2], case$reply[3])
      next
    }
    expect_identical(charToRaw(paste(read$name, collapse = "")), case$names)
    expect_equal(read$first, case$years)
    expect_identical(read$count, case$counts)
    expect_equal(read$widths, case$widths)
  }
})

test_that("Tucson texts are written as the rational program writes them", {
  for (case in cases_of("tucson_write")) {
    given <- list(names = case$names, years = whole(case$years), counts = whole(case$counts), widths = whole(case$widths))
    written <- .Call(C_tucson_write, given$names, given$years, given$counts, given$widths)
    if (expect_reply(written, case, given)) expect_identical(written$text, case$text)
  }
})
