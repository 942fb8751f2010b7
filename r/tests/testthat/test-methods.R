# What R's own generics say of curves and fits, named by rings or years.

oak <- read_example("oak.rwl")
fits <- fit_curve(oak)

test_that("predict takes newdata, and names its rows by rings", {
  curve <- fits$ROOF04E
  expect_identical(predict(curve, newdata = 1710), predict(curve)["1710", , drop = FALSE])
  expect_identical(rownames(predict(curve)), as.character(1703:1802))
  expect_identical(colnames(predict(curve, 1710)), "ring")
  expect_identical(rownames(predict(curve, 1710.5)), "1710.5")
  expect_usage(predict(curve, rings = 1710), "There is no argument rings")
  expect_refused(predict(curve, newdata = 1802.5), 7, 0)
})

test_that("a ring between two positions is refused with both", {
  curve <- growth_curve(w1(), 1:4)
  expect_usage(predict(curve, c(1, 0.3)),
               "newdata[2] is 0.3: rings go in steps of 1/256, and the nearest to it are 0.296875 and 0.30078125")
  expect_usage(predict(fits, 1710.001), "the nearest to it are 1710 and 1710.00390625")
})

test_that("fits are predicted by year, with NA outside a curve", {
  expect_identical(predict(fits, c(1702, 1710))$ROOF04E, c(NA, predict(fits$ROOF04E, 1710)[[1]]))
  expect_identical(dimnames(predict(fits, c(1702, 1710))), list(c("1702", "1710"), names(oak)))
  counted <- fit_curve(oak, first = 1)
  expect_equal(predict(counted, 1710), predict(fits, 1710))
  expect_identical(predict(counted), fitted(counted))
  expect_usage(predict(fits, c(1710, 1710)), "the year 1710 twice")
})

test_that("fitted and residuals add up to the widths, by year", {
  both <- fitted(fits) + residuals(fits)
  expect_identical(dimnames(fitted(fits)), dimnames(oak))
  expect_equal(as.matrix(both)[oak > 0], as.matrix(oak)[oak > 0])
  expect_identical(is.na(residuals(fits)), oak == 0, ignore_attr = TRUE)
  expect_identical(unname(fitted(fits$ROOF04E)), fitted(fits)$ROOF04E)
  expect_identical(names(residuals(fits$ROOF04L)), as.character(1703:1802))
  expect_usage(fitted(growth_curve(w1(), 1:4)), "was not fitted to widths")
  expect_equal(sqrt(mean(residuals(fits$ROOF04E)^2, na.rm = TRUE)), sqrt(fits$ROOF04E$fit$mean_square))
})

test_that("a curve is made again from its coefficients", {
  for (name in names(fits)) {
    curve <- fits[[name]]
    again <- growth_curve(curve$space, coef(curve))
    expect_identical(again$coefficients, curve$coefficients)
    expect_identical(coef(fits)[[name]], coef(curve))
    expect_identical(dim(curve$coefficients), c(length(coef(curve)), 1L))
  }
  pair <- growth_curve(w1(), cbind(1:4, 5:8))
  expect_identical(growth_curve(w1(), coef(pair))$coefficients, pair$coefficients)
  expect_identical(growth_curve(w1(), cbind(1:4))$whole, TRUE)
})

test_that("earlywood and latewood are fitted in one call", {
  pair <- fit_pair(oak, "ROOF04E", "ROOF04L")
  expect_identical(unname(pair$coefficients), unname(cbind(coef(fits$ROOF04E), coef(fits$ROOF04L))))
  expect_equal(fitted(pair), as.matrix(setNames(fitted(fits), wood_parts)))
  expect_equal(dimnames(residuals(pair)), list(rownames(oak), wood_parts))
  wood <- c(ROOF04E = "earlywood", ROOF04L = "latewood")
  expect_identical(ring_indices(oak, pair, wood), ring_indices(oak, fits))
  counted <- fit_pair(oak, "ROOF04E", "ROOF04L", first = 1)
  expect_identical(ring_indices(oak["1760", ], counted, wood), ring_indices(oak, fits)["1760", ])
  expect_output(print(pair), "earlywood: Fitted to 99 rings")
  expect_usage(fit_pair(oak, "ROOF04E", "NONE"), "latewood is the name of a series of rwl")
})

test_that("one call goes from widths to indices", {
  expect_identical(detrend_curve(oak), ring_indices(oak, fits))
  for (shape in shape_names) expect_identical(detrend_curve(oak, shape = shape), ring_indices(oak, fit_curve(oak, shape = shape)))
  zero <- detrend_curve(oak, absent = "zero")
  expect_identical(as.matrix(zero)[oak == 0], c(0, 0))
  expect_identical(as.matrix(zero)[oak > 0], as.matrix(detrend_curve(oak))[oak > 0])
  expect_usage(detrend_curve(oak, absent = "none"), "absent is \"NA\" or \"zero\"")
  expect_usage(detrend_curve(oak, space = 1), "space is no space")
})

test_that("a series that can't be fitted is NA with a warning, and the others stand", {
  more <- cbind(oak, SHORT = replace(rep(NA_real_, nrow(oak)), 5, 1), NONE = 0, WIDE = replace(rep(1, nrow(oak)), 7, 100))
  seen <- list()
  rwi <- withCallingHandlers(detrend_curve(more), warning = function(condition) {
    seen[[length(seen) + 1]] <<- condition
    invokeRestart("muffleWarning")
  })
  expect_identical(vapply(seen, `[[`, "", "series"), c("SHORT", "NONE", "WIDE"))
  expect_s3_class(seen[[1]], "walzhik_unfitted")
  expect_match(conditionMessage(seen[[1]]), "Series SHORT is not fitted, and its indices are NA: There is 1 ring")
  expect_identical(deparse(conditionCall(seen[[3]])), "detrend_curve(more)")
  expect_true(all(is.na(rwi[3:5])))
  expect_identical(rwi[1:2], detrend_curve(oak), ignore_attr = TRUE)
})

test_that("summaries are a row a series or a stretch", {
  table <- summary.rwl(oak)
  expect_identical(names(table), c("series", "first", "last", "year", "mean", "stdev", "ar1", "sens1", "absent"))
  expect_identical(table$absent, c(1L, 1L))
  expect_equal(table$ar1[1], stats::acf(oak[[1]], lag.max = 1, plot = FALSE)$acf[2])
  expect_equal(table$mean[2], mean(oak[[2]]))
  expect_identical(mean_sensitivity(c(1, 3, 0, 0)), mean(c(1, 2)))
  expect_identical(summary(fits)$n, c(5, 5))
  expect_identical(summary(fits)$shape, c("falling", "hump"))
  stretches <- summary(fits$ROOF04E)
  expect_identical(stretches$from, c(1703L, 1733L))
  expect_identical(stretches$ring_to, unname(predict(fits$ROOF04E, c(1733, 1802))[, 1]))
  expect_identical(names(summary(growth_curve(w1(), cbind(1:4, 5:8))))[6:9],
                   c("earlywood_from", "earlywood_to", "latewood_from", "latewood_to"))
})

test_that("nothing to sum up is told", {
  expect_usage(summary.rwl(oak[0]), "There are no series")
  expect_usage(summary(fits[0]), "There are no fitted curves")
})

test_that("many fits are printed in few lines", {
  many <- structure(rep(unclass(fits)[1], 40), names = paste0("S", 1:40), class = "walzhik_fits")
  expect_lt(length(capture.output(print(many))), 30)
  expect_output(print(many), "and 28 more: summary() lists all", fixed = TRUE)
  expect_identical(nrow(summary(many)), 40L)
})

test_that("conditions have the call that the user wrote", {
  called <- function(call) deparse(conditionCall(caught(call)))[1]
  expect_identical(called(fit_curve(oak, shape = "round")), "fit_curve(oak, shape = \"round\")")
  expect_identical(called(fit_curve(oak[1:3])), "`[.data.frame`(oak, 1:3)")
  expect_identical(called(ring_indices(oak, fit_curve(oak, space = 3))), "fit_curve(oak, space = 3)")
  expect_identical(called(ring_indices(oak, fits[1])), "ring_indices(oak, fits[1])")
  expect_identical(called(template_space(1)), "template_space(1)")
  expect_identical(called(fit_curve(oak[1, ])), "fit_curve(oak[1, ])")
  expect_identical(called(predict(fits, "1")), "predict.walzhik_fits(fits, \"1\")")
  expect_identical(called(curve_space(c(0, 2), 9)), "curve_space(c(0, 2), 9)")
  expect_identical(called(write_tucson(1)), "write_tucson(1)")
  expect_identical(called(curve_pieces(fits$ROOF04E, 9)), "curve_pieces(fits$ROOF04E, 9)")
  expect_identical(called(read_tucson("nowhere.rwl")), "read_tucson(\"nowhere.rwl\")")
})

test_that("an empty column name is told", {
  nameless <- setNames(oak, c("", "A"))
  for (ask in list(fit_curve, detrend_curve, write_tucson, summary.rwl)) expect_usage(ask(nameless), "Column 1 of rwl has no name")
})
