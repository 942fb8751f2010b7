# Pictures: what is drawn is the engine's, a scar breaks the line, and the device is left as it was.

with_device <- function(code) {
  grDevices::pdf(NULL)
  on.exit(grDevices::dev.off())
  force(code)
}

test_that("the drawn path has the curve's values, and a break at each scar", {
  curve <- growth_curve(curve_space(c(0, 1, 2), c(1, 1), -1), cbind(c(0, 10, 20, 30), c(30, 20, 10, 0)))
  path <- curve_path(curve, "latewood")
  gaps <- which(is.na(path[, 1]))
  expect_length(gaps, 2)
  expect_identical(path[gaps[1] - 1, ], c(1, 0.02))
  expect_identical(path[gaps[1] + 1, 1], 257 / 256)
  there <- path[!is.na(path[, 1]), ]
  expect_identical(there[, 2], unname(curve_values(curve, 256 * there[, 1])[, "latewood"]) / 256000)
  expect_identical(range(there[, 1]), c(0, 2))
})

test_that("the line of widths is broken behind the ring of a scar", {
  line <- broken_at(1:4, c(1, 2, 3, 4), c(2, 9))
  expect_identical(line$ring, c(1, 2, 2.5, 3, 4, 9.5))
  expect_identical(line$width, c(1, 2, NA, 3, 4, NA))
  expect_identical(broken_at(1:2, c(1, NA), integer())$width, c(1, NA))
})

test_that("a long span is drawn by enough positions, all within it", {
  positions <- drawn_positions(curve_space(c(-1000, 900, 1000), c(1, 1), 0))
  expect_length(positions, 1)
  expect_length(positions[[1]], positions_drawn)
  expect_identical(range(positions[[1]]), c(-256000, 256000))
})

test_that("curves and fits are drawn, and the layout is put back", {
  rwl <- read_example("pine.rwl")
  fits <- fit_curve(rwl)
  pair <- growth_curve(w1(), cbind(1:4, 5:8))
  with_device({
    before <- graphics::par("mar", "mfrow")
    expect_identical(plot(fits), fits)
    expect_identical(graphics::par("mar", "mfrow"), before)
    expect_identical(plot(fits, series = "WAL 02"), fits)
    expect_identical(plot(pair), pair)
    expect_identical(graphics::par("usr")[1:2], c(-0.12, 3.12))
    expect_identical(plot(pair, wood = "latewood", main = "Latewood"), pair)
  })
})

test_that("what can't be drawn is told", {
  fits <- fit_curve(read_example("oak.rwl"))
  many <- fits[rep(1, 10)]
  names(many) <- LETTERS[1:10]
  with_device({
    expect_usage(plot(many), "at most 9 series, and there are 10")
    expect_usage(plot(fits, series = "NONE"), "series are names")
    expect_usage(plot(growth_curve(w1(), 1:4), wood = "bark"), "wood is")
  })
})

test_that("a device that is too small is told, and left as it was", {
  fits <- fit_curve(read_example("oak.rwl"))
  nine <- structure(rep(unclass(fits)[1], 9), names = LETTERS[1:9], class = "walzhik_fits")
  grDevices::pdf(NULL, width = 3, height = 3)
  on.exit(grDevices::dev.off())
  before <- graphics::par("mar", "mfrow")
  expect_usage(plot(nine), "The device, 3 by 3 inches, is too small for 9 pictures")
  expect_identical(graphics::par("mar", "mfrow"), before)
})

test_that("widths and indices are drawn as bars and as lines, with the words and colours that are asked for", {
  rwl <- read_example("pine.rwl")
  rwi <- detrend_curve(rwl)
  with_device({
    for (type in c("segments", "spaghetti")) {
      expect_identical(plot.rwl(rwl, type = type, main = "Pine", col = 2:4, cex.main = 0.8), rwl)
      expect_identical(plot.rwi(rwi, type = type, main = "Pine", col = "red"), rwi)
    }
    expect_identical(plot(rwl), rwl)
    expect_identical(plot(fit_curve(rwl), main = "Pines", col = "red", cex.lab = 0.7), fit_curve(rwl))
    plot(growth_curve(w1(), cbind(1:4, 5:8)), col = c("red", "blue"), bty = "l")
    expect_usage(plot.rwl(rwl, type = "bars"), "type is")
    expect_usage(plot.rwl(rwl[0, ]), "no series to draw")
    rwl[] <- NA_real_
    expect_usage(plot.rwl(rwl), "no widths or indices to draw")
  })
})

test_that("fits are drawn by the rings that they count, without a copy of the widths", {
  fits <- fit_curve(read_example("oak.rwl"), first = 1)
  with_device({
    plot(fits["ROOF04E"])
    expect_identical(plot(fits), fits)
  })
})
