# Random series with what Python gives for them (tests/r_series.py makes the file): the same coefficients, values and indices.

kept_series <- function(line) {
  words <- strsplit(line, " ")[[1]]
  entries <- setNames(sub("[^=]*=", "", words), sub("=.*", "", words))
  c(list(shape = entries[["shape"]]), lapply(entries[-1], numbers_from))
}

test_that("200 random series are fitted, read and divided as by Python", {
  kept <- lapply(readLines(test_path("fits", "series.txt")), kept_series)
  expect_length(kept, 200)
  for (each in kept) {
    rwl <- data.frame(A = each$widths / 1000, row.names = each$first - 1 + seq_along(each$widths))
    fits <- fit_curve(rwl, shape = each$shape)
    expect_identical(unname(coef(fits)$A), as.integer(each$coefs))
    expect_identical(fitted(fits)$A, each$values / 256000)
    expected <- ifelse(each$indices < 0, NA, each$indices / 1000)
    expect_identical(detrend_curve(rwl, shape = each$shape)$A, expected)
    expect_identical(ring_indices(rwl, fits, absent = "zero")$A, ifelse(each$indices < 0, 0, expected))
  }
})
