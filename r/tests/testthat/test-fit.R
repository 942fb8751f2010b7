# Fitted curves: what is in the space is found again, coefficients stay at one thousandth or more, absent rings are left out.

rwl_of <- function(widths, first = 1900) data.frame(A = widths, row.names = first - 1 + seq_along(widths))

test_that("the design has the curve's own values", {
  space <- curve_space(c(0, 4, 10, 15, 30), c(3, 2, 4, 1), c(1, -1, 0))
  coefs <- c(1000, 1400, 900, 1200, 800, 700, 1300, 650, 600, 500, 450)
  curve <- growth_curve(space, coefs)
  exact <- design_matrix(space, 0:30) %*% coefs
  expect_equal(rowSums(design_matrix(space, 0:30)), rep(1, 31))
  expect_lt(max(abs(256 * exact - curve_values(curve, 256 * 0:30)[, 1])), 4)
})

test_that("a curve of the space is found again", {
  space <- curve_space(c(1900, 1910, 1925, 1960), c(3, 2, 1), c(1, 0))
  curve <- growth_curve(space, c(2600, 2400, 1900, 1500, 1300, 900))
  widths <- round(curve_values(curve, 256 * (1900:1960))[, 1] / 256) / 1000
  fits <- fit_curve(rwl_of(widths), space)
  expect_lte(max(abs(fits$A$coefficients - curve$coefficients)), 2)
  expect_gt(fits$A$fit$explained, 0.9999)
  expect_identical(fits$A$fit$rings, 61L)
})

test_that("no coefficient is below one thousandth", {
  widths <- c(3, 1, 0.3, 0.01, 0.001, 0.001, 0.001, 0.001, 0.001, 0.001)
  for (shape in c("auto", "falling", "hump")) {
    expect_gte(min(fit_curve(rwl_of(widths), curve_space(c(1900, 1910), 3), shape = shape)$A$coefficients), 1L)
  }
  fit <- fit_curve(rwl_of(widths), curve_space(c(1900, 1910), 3), shape = "free")$A
  expect_identical(min(fit$coefficients), 1L)
  expect_identical(fit$fit$least_rows, which(fit$coefficients[, 1] == 1L))
  expect_output(print(fit), "; at the least allowed, 0.001 mm, coefficient ")
  free <- qr.coef(qr(design_matrix(fit$space, 1900:1909)), 1000 * widths)
  expect_lt(min(free), 0)
  expect_true(all(curve_values(fit, 256 * (1900:1910)) >= 256))
})

test_that("absent and missing rings are left out", {
  widths <- seq(2, 1, length.out = 11)
  line <- curve_space(c(1900, 1910), 1)
  full <- fit_curve(rwl_of(widths), line)$A
  holed <- fit_curve(rwl_of(replace(widths, c(4, 7), c(0, NA))), line)$A
  expect_identical(holed$coefficients, full$coefficients)
  expect_identical(holed$fit$widths[c(4, 7)], c(0L, NA))
  expect_identical(unname(residuals(holed)[c(4, 7)]), c(NA_real_, NA))
  expect_identical(holed$fit$rings, 9L)
})

test_that("what the engine refuses of rings is refused before fitting", {
  line <- curve_space(c(1900, 1910), 1)
  expect_refused(fit_curve(rwl_of(rep(1, 12)), line), 7, 11)
  expect_refused(fit_curve(rwl_of(c(1, 100, 1)), line), 14, 1)
  expect_refused(fit_curve(rwl_of(c(1, -1, 1)), line), 14, 1)
  expect_refused(fit_curve(rwl_of(rep(1, 4097), 1), line), 7, 0)
})

test_that("a fit that the rings can't tell is refused", {
  expect_usage(fit_curve(rwl_of(c(1, 1.1)), curve_space(c(1900, 1910), 3)), "2 rings in these places can't tell the 4 coefficients")
  split <- curve_space(c(1900, 1905, 1910), c(1, 1), -1)
  expect_usage(fit_curve(rwl_of(rep(1, 5)), split), "can't tell the 4 coefficients")
  expect_usage(fit_curve(rwl_of(c(0, 0))), "Series A has no widths to fit")
  expect_usage(fit_curve(1:3), "rwl is no data frame")
  expect_usage(fit_curve(rwl_of(1:3), space = 1), "space is no space")
})

test_that("a constant series is fitted, with nothing to explain", {
  fit <- fit_curve(rwl_of(rep(1.5, 20)), curve_space(c(1900, 1919), 2))$A
  expect_identical(unique(as.vector(fit$coefficients)), 1500L)
  expect_identical(fit$fit$mean_square, 0)
  expect_true(is.na(fit$fit$explained))
})

test_that("rings are counted from where the fit says, in the indices too", {
  rwl <- read_example("pine.rwl")
  fits <- fit_curve(rwl, curve_space(c(1, 80), 2), first = 1)
  expect_identical(ring_indices(rwl, fits), ring_indices(rwl, unclass(fits), first = 1))
  aged <- fit_curve(rwl, curve_space(c(1, 60), 2), each_first = 1)
  expect_identical(ring_indices(rwl, aged), ring_indices(rwl, unclass(aged), each_first = 1))
})

test_that("templates cover the series, by its length", {
  for (rings in c(2, 5, 6, 49, 50, 124, 125, 219, 220, 449, 450, 2001)) {
    space <- template_space(rings, 1800)
    expect_identical(range(space$breaks), c(1800L, 1799L + as.integer(rings)))
    expect_true(all(space$orders <= 1))
    expect_lte(space$n, rings)
    expect_identical(qr(design_matrix(space, 1800 - 1 + seq_len(rings)))$rank, as.integer(space$n))
  }
  expect_identical(template_space(100, 1703)$breaks, c(1703L, 1733L, 1802L))
  expect_usage(template_space(1), "There is 1 ring: a curve needs at least 2")
  expect_usage(template_space(2002), "There are 2,002 rings, and a curve has at most 2,001 without a scar")
  expect_usage(template_space(NA_real_), "rings[1] is missing")
  expect_usage(fit_curve(rwl_of(1)), "Series A: There is 1 ring")
})

test_that("a template begins anew after a scar, and is the engine's wherever it starts", {
  space <- template_space(200, 1801, scars = c(1900, 1903))
  expect_identical(space$breaks, c(1801L, 1831L, 1900L, 1903L, 1933L, 2000L))
  expect_identical(space$degrees, c(3L, 2L, 1L, 3L, 2L))
  expect_identical(space$orders, c(1L, -1L, -1L, 1L))
  expect_equal(space$weights, curve_space(space$breaks, space$degrees, space$orders)$weights)
  expect_usage(template_space(200, 1801, 1801), "In a part between scars there is 1 ring")
  expect_usage(template_space(200, 1801, 2500), "In a part between scars there are no rings")
  expect_refused(template_space(100, 9950), 3, 2)
})

test_that("the command's fits of the examples are these too", {
  coefs <- function(name) lapply(unclass(fit_curve(read_example(name))), function(fit) fit$coefficients[, 1])
  expect_equal(coefs("oak.rwl"), list(ROOF04E = c(2462, 2462, 1658, 1170, 612),
                                      ROOF04L = c(425, 1128, 604, 421, 247)), ignore_attr = c("rwl", "first"))
  expect_equal(coefs("pine.rwl"), list(WAL01A = c(2008, 1159, 1159), WAL01B = c(1593, 1557, 1143),
                                       `WAL 02` = c(1235, 1215, 1050)), ignore_attr = c("rwl", "first"))
})

test_that("fits are printed, and a part of them is fits", {
  fits <- fit_curve(read_example("oak.rwl"))
  expect_output(print(fits), "2 fitted curves\n  ROOF04E: 2 stretches from ring 1703 to ring 1802, n = 5\n    Fitted to 99 rings")
  expect_output(print(fits), "root mean square 0.334 mm, 70.7 % explained, falling; by proof it never rises and stays above zero")
  expect_output(print(fits["ROOF04L"]), "explained, hump$")
  expect_match(describe_fit(replace(fits$ROOF04E$fit, "explained", -2e-16)), ", 0.0 % explained", fixed = TRUE)
  expect_s3_class(fits["ROOF04L"], "walzhik_fits")
  expect_identical(names(attr(fits["ROOF04L"], "rwl")), "ROOF04L")
  expect_output(print(fits$ROOF04E), "Curve of the whole ring: .*Fitted to 99 rings")
})

# The series and fits of a line of fits/fits.txt, which python/tests/fit_cases.py makes.
kept_fit <- function(line) {
  words <- strsplit(line, " ")[[1]]
  entries <- setNames(sub("[^=]*=", "", words), sub("=.*", "", words))
  list(shape = entries[["shape"]], first = numbers_from(entries[["first"]]), scars = numbers_from(entries[["scars"]]),
       widths = numbers_from(entries[["widths"]]), coefs = numbers_from(entries[["coefs"]]),
       shapes = strsplit(entries[["shapes"]], ",")[[1]])
}

test_that("the command's fits of random series are these too", {
  kept <- lapply(readLines(test_path("fits", "fits.txt")), kept_fit)
  expect_gte(length(kept), 100)
  for (each in kept) {
    space <- template_space(length(each$widths), each$first, each$scars)
    made <- fit_curve(rwl_of(each$widths / 1000, each$first), space, shape = each$shape)$A
    expect_identical(as.vector(made$coefficients[, 1]), as.integer(each$coefs))
    expect_identical(made$fit$shapes, each$shapes)
  }
})

test_that("a falling fit never rises and stays above zero", {
  set.seed(47)
  for (turn in 1:40) {
    rings <- sample(20:400, 1)
    widths <- pmax(round(exp(rnorm(rings, 6.5, runif(1, 0, 0.8)))), 1) / 1000
    fit <- fit_curve(rwl_of(widths), shape = "falling")$A
    values <- curve_values(fit, round(seq(256 * 1900, 256 * (1899 + rings), length.out = 1000)))[, 1]
    expect_true(fit$fit$never_rises && all(diff(values) <= 0) && all(values >= 256))
  }
})

test_that("orders above 1 are promised nothing, and each part has its shape", {
  falls <- round(3 * exp(-(0:99) / 40) + 0.3, 3)
  humps <- round(0.3 + 2 * (0:99) / 20 * exp(1 - (0:99) / 20), 3)
  expect_false(fit_curve(rwl_of(falls), curve_space(c(1900, 1950, 1999), c(3, 3), 2))$A$fit$never_rises)
  both <- fit_curve(rwl_of(c(falls, humps)), template_space(200, 1900, scars = 1999))$A
  expect_identical(both$fit$shapes, c("falling", "hump"))
  expect_output(print(both), "part 1 falling, part 2 hump")
  twice <- fit_curve(rwl_of(c(falls, falls)), template_space(200, 1900, scars = 1999))$A
  expect_output(print(twice), "by proof it never rises (in each part) and stays above zero", fixed = TRUE)
})

test_that("series that lie alike share a design and a template", {
  first <- design_for(template_space(150, 1700), 1700, 150)
  before <- length(kept_designs)
  expect_identical(design_for(template_space(150, 900), 900, 150), first)
  expect_identical(length(kept_designs), before)
})

test_that("nearly dependent columns are factored another way, with the same end", {
  widths <- c(900, 850, 800, 780, 700, 650, 640, 600, 560, 555, 500, 470)
  part <- design_for(template_space(12, 0), 0, 12)$parts[[1]]
  expect_equal(shaped(part, widths, "falling", by_orthogonal_factors), shaped(part, widths, "falling"), tolerance = 1e-8)
  expect_equal(part$orthogonal %*% part$triangle, part$steps)
  expect_error(by_normal_equations(cbind(1, 1 + 1e-12 * (1:50), 1:50), 50))
})

test_that("a shape that there is none of is an error", {
  for (shape in list("round", NA_character_, c("auto", "free"), 1)) {
    expect_usage(fit_curve(rwl_of(1:9 / 10), shape = shape), "shape is one of \"auto\", \"falling\", \"hump\", \"free\"")
  }
})
