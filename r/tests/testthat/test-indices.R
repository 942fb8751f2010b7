# Ring indices in dplR's shape: the names, years and dimensions of the widths, index/1000, NA for absent rings and outside.

test_that("indices have the shape of the widths", {
  rwl <- read_example("pine.rwl")
  fits <- fit_curve(rwl)
  rwi <- ring_indices(rwl, fits)
  expect_identical(class(rwi), c("rwi", "data.frame"))
  expect_identical(dimnames(rwi), dimnames(rwl))
  expect_identical(is.na(rwi), is.na(rwl) | rwl == 0)
  expect_true(is.na(rwi["1911", "WAL01B"]))
  expect_true(all(rwi > 0, na.rm = TRUE))
})

test_that("each index is the floor of the width over the curve's value, in thousandths", {
  rwl <- read_example("oak.rwl")
  space <- curve_space(c(1703, 1740, 1802), c(3, 2), 1)
  pair <- growth_curve(space, cbind(c(3000, 2500, 2000, 1500, 700), c(700, 600, 500, 400, 300)))
  wood <- c(ROOF04E = "earlywood", ROOF04L = "latewood")
  rwi <- ring_indices(rwl, pair, wood)
  values <- curve_values(pair, 256 * (1703:1802))
  for (name in names(rwl)) {
    expected <- floor(256000 * round(1000 * rwl[[name]]) / values[, wood[[name]]]) / 1000
    expect_identical(rwi[[name]], ifelse(rwl[[name]] == 0, NA, expected))
  }
  expect_identical(ring_indices(rwl[2:1], pair, rev(wood)), rwi[2:1])
  expect_usage(ring_indices(rwl, pair), "wood = \"earlywood\"")
  expect_usage(ring_indices(rwl, pair, wood[1]), "wood has no entry for series ROOF04L")
})

test_that("rings may be counted from the pith", {
  rwl <- read_example("pine.rwl")
  aged <- growth_curve(curve_space(c(1, 50), 1), c(1500, 900))
  expect_refused(ring_indices(rwl, aged), 7, 0)
  rwi <- ring_indices(rwl, aged, each_first = 1)
  young <- rwl["1920", "WAL 02"] / predict(aged, 1)[, "ring"]
  expect_equal(rwi["1920", "WAL 02"], unname(young), tolerance = 1e-3)
  by_name <- ring_indices(rwl, aged, each_first = c(WAL01A = 1, WAL01B = 1, "WAL 02" = 20))
  expect_identical(by_name[1:2], rwi[1:2])
  expect_false(identical(by_name[["WAL 02"]], rwi[["WAL 02"]]))
  expect_refused(ring_indices(rwl, aged, each_first = 2^31 - 1), 7, 0)
  expect_usage(ring_indices(rwl, aged, each_first = c(WAL01A = 1)), "each_first has no entry for series WAL01B")
  expect_usage(ring_indices(rwl, aged, first = 1:2), "first is one number, the ring of the first width of the earliest series")
  expect_usage(ring_indices(rwl, aged, first = "1"), "first is of type character")
})

test_that("a gap has no index, and the rings behind it keep their years", {
  curve <- growth_curve(curve_space(c(1900, 1910), 1), c(2000, 1000))
  full <- data.frame(A = c(1, 1.1, 1.2, 1.3), row.names = 1900:1903)
  gap <- full
  gap["1901", "A"] <- NA
  expected <- ring_indices(full, curve)
  expected["1901", "A"] <- NA
  expect_identical(ring_indices(gap, curve), expected)
})

test_that("a column without widths stays empty, and rings past the curve are refused", {
  curve <- growth_curve(curve_space(c(0, 2000), 1), c(2000, 1000))
  rwl <- data.frame(A = c(1, 2), B = NA_real_, row.names = 1:2)
  expect_identical(ring_indices(rwl, curve)$B, c(NA_real_, NA_real_))
  long <- data.frame(A = rep(1, 4097), row.names = 1:4097)
  expect_refused(ring_indices(long, curve), 7, 2000)
})

test_that("rings far along keep their rows, however their numbers are printed", {
  curve <- growth_curve(curve_space(c(0, 10), 1), c(1000, 1000))
  rwl <- data.frame(A = c(NA, 1, 2), row.names = c("99999", "100000", "100001"))
  expect_identical(ring_indices(rwl, curve, first = 1)$A, c(NA, 1, 2))
})

test_that("curves are found by the series' names", {
  rwl <- read_example("oak.rwl")
  fits <- fit_curve(rwl)
  expect_identical(ring_indices(rwl, fits[2:1]), ring_indices(rwl, fits))
  expect_usage(ring_indices(rwl, fits[1]), "curves has no entry for series ROOF04L")
  expect_usage(ring_indices(rwl, list(1, 2)), "curves is a curve, or a list")
  expect_usage(ring_indices(rwl, list(ROOF04E = 1, ROOF04L = 2)), "curve is no curve")
  expect_usage(ring_indices(as.matrix(rwl), fits), "rwl is no data frame")
})
