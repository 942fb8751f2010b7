# How rings are counted, as the command counts them, and matched by year where a fit has counted them.

pine <- function() read_example("pine.rwl")

first_years <- function(rwl) vapply(rwl, function(column) as.integer(rownames(rwl)[which(!is.na(column))[1]]), 0L)

test_that("first is the ring of the earliest series' first width, and each_first that of each series'", {
  pair <- data.frame(A = c(NA, NA, NA, NA, 0.9, 0.8), B = c(0.95, 0.94, NA, NA, NA, NA), row.names = 1801:1806)
  rings <- function(...) first_rings(series_of(pair), ...)
  expect_identical(rings(NULL, NULL), c(A = 1805L, B = 1801L))
  expect_identical(rings(1, NULL), c(A = 5L, B = 1L))
  expect_identical(rings(NULL, 1), c(A = 1L, B = 1L))
  expect_identical(rings(NULL, c(B = 4, A = 2)), c(A = 2L, B = 4L))
  curve <- growth_curve(curve_space(c(1, 9), 1), c(1000, 900))
  expect_usage(ring_indices(pair, curve, first = 1, each_first = 1), "Give first or each_first, not both")
  expect_usage(ring_indices(pair, curve, first = c(A = 1, B = 2)), "each_first takes one for each series' own")
  expect_usage(ring_indices(pair, curve, first = .Machine$integer.max), "rings are at most 2,147,483,647")
})

test_that("a part of the years gets the indices of the whole", {
  oak <- read_example("oak.rwl")
  rows <- as.character(1760:1790)
  for (fits in list(fit_curve(oak), fit_curve(oak, first = 1), fit_curve(oak, each_first = 4))) {
    expect_identical(ring_indices(oak[rows, ], fits), ring_indices(oak, fits)[rows, ])
    expect_identical(ring_indices(oak[rows, 1, drop = FALSE], fits$ROOF04E)$ROOF04E, ring_indices(oak, fits)[rows, 1])
  }
})

test_that("years that a fit does not have are refused", {
  oak <- read_example("oak.rwl")
  fits <- fit_curve(oak, first = 1)
  later <- oak
  rownames(later) <- 1 + as.integer(rownames(oak))
  refusal <- expect_refused(ring_indices(later, fits), 7, 99)
  expect_match(refusal$words, "Width 100 of the series is ring 101, past the curve's last breakpoint, ring 100")
})

test_that("a fit with counted rings is not taken for another series in silence", {
  rwl <- pine()
  fits <- fit_curve(rwl, each_first = 1)
  expect_usage(ring_indices(rwl["WAL01B"], fits$WAL01A),
               "say which ring the first width of series WAL01B is, by first or each_first")
  expect_s3_class(ring_indices(rwl["WAL 02"], fits$WAL01A, each_first = 1), "rwi")
})

test_that("series of over 4,096 rings are fitted, divided and refused by their own places", {
  set.seed(51)
  rings <- 5000
  widths <- round(runif(rings, 0.5, 2), 3)
  rwl <- data.frame(A = widths, row.names = seq_len(rings))
  space <- curve_space(c(1, 1800, 3600, 5000), c(2, 2, 1), c(-1, -1))
  fits <- fit_curve(rwl, space)
  indices <- ring_indices(rwl, fits)$A
  expect_identical(indices[4090:4110], ring_indices(rwl[4090:4110, , drop = FALSE], fits)$A)
  expect_identical(nrow(fitted(fits)), 5000L)
  expect_identical(detrend_curve(rwl, space = space)$A, indices)
  rwl$A[4500] <- 100
  refusal <- expect_refused(ring_indices(rwl, fits), 14, 4499)
  expect_match(refusal$words, "Width 4500 of the series, ring 4500, is 100000")
  expect_identical(nrow(predict(fits$A)), 5000L)
})

test_that("years past 99,999 are years, however R prints them", {
  curve <- growth_curve(curve_space(c(0, 10), 1), c(1000, 1000))
  for (names in list(99999:100001, c(99999, 1e5, 100001), c("99999", "1e+05", "100001"))) {
    rwl <- data.frame(A = c(1, 2, 3), row.names = names)
    expect_identical(years_of(rwl), 99999:100001)
    expect_identical(ring_indices(rwl, curve, first = 1)$A, c(1, 2, 3))
  }
  rownames(rwl) <- c("1", "2", "3e+08")
  expect_usage(ring_indices(rwl, curve), " comes after 2")
  rownames(rwl) <- c("1", "2", "3e+10")
  expect_usage(ring_indices(rwl, curve), "3e+10 is none")
})
