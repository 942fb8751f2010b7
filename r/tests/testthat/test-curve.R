# Spaces and curves as objects: what they hold, how they print, and millimetres for rings.

test_that("a space holds its exact weights, columns and rows from 0", {
  space <- w1()
  expect_identical(space$n, 4)
  expect_identical(space$columns, 6)
  expect_identical(with(space$weights, paste0(row, ",", column, ",", numerator, "/", denominator)),
                   c("0,0,1/1", "1,1,1/1", "1,2,2/3", "1,3,2/3", "2,2,1/3", "2,3,1/3", "2,4,1/1", "3,5,1/1"))
})

test_that("a beam's parts each have their weights", {
  beam <- curve_space(c(0, 1, 3, 4, 6), c(2, 2, 2, 2), c(1, -1, 1))
  one <- w1()$weights
  expect_identical(beam$weights[1:8, ], one)
  expect_identical(beam$weights$row[9:16], one$row + 4)
  expect_identical(beam$weights$column[9:16], one$column + 6)
  expect_identical(beam$weights$numerator[9:16], one$numerator)
})

test_that("spaces and curves print what they are", {
  expect_output(print(curve_space(c(0, 5, 9), c(1, 2), -1)), "Space: 2 stretches from ring 0 to ring 9, n = 5, scar at ring 5")
  expect_output(print(growth_curve(w1(), cbind(1:4, 5:8))), "Curve of earlywood and latewood: 2 stretches")
  expect_output(print(growth_curve(w1(), 1:4)), "Curve of the whole ring")
})

test_that("values are whole 256ths, and predictions millimetres", {
  curve <- growth_curve(w1(), cbind(c(0, 100, 0, 0), c(0, -100, 0, 0)))
  values <- curve_values(curve, c(512, 256))
  expect_identical(values, cbind(earlywood = c(4267L, 17067L), latewood = c(-4266L, -17067L)))
  expect_identical(unname(predict(curve, c(2, 1))), unname(values / 256000))
  expect_identical(nrow(predict(curve)), 4L)
  expect_identical(unname(predict(curve, 1 + 1 / 256)), unname(curve_values(curve, 257) / 256000))
  expect_identical(dim(curve_values(curve, integer())), c(0L, 2L))
})

test_that("a scar is read from the stretch that ends there", {
  curve <- growth_curve(curve_space(0:2, c(1, 1), -1), c(0, 10, 20, 30))
  expect_identical(curve_values(curve, c(256, 257))[, "ring"], c(2560L, 5130L))
  expect_identical(curve_reach(curve, 20), 257L)
})

test_that("pieces have the degree's ordinates and nothing behind", {
  curve <- growth_curve(curve_space(c(0, 10, 20, 30), c(1, 2, 3), c(0, 1)), c(1000, 900, 800, 700, 600, 500))
  pieces <- curve_pieces(curve)
  expect_identical(pieces$segment, 1:3)
  expect_identical(pieces$degree, c(1, 2, 3))
  expect_identical(rowSums(is.na(pieces[paste0("o", 0:3)])), c(2, 1, 0), ignore_attr = TRUE)
  expect_identical(pieces$start, c(0, 10, 20))
  expect_identical(curve_pieces(curve, integer())$segment, integer())
})

test_that("coefficients come back from a curve's ordinates", {
  coefs <- 3 * 256 * c(7, 6, 5, 3)
  recovered <- curve_coefficients(w1(), round(as.vector(coefs %*% weight_matrix(w1()))))
  expect_identical(recovered, data.frame(numerator = coefs, denominator = 1))
  ordinates <- c(1843200, 1612800, 1477272, 1295060, 1295060, 1158401, 998400, 844800, 691200)
  bent <- curve_coefficients(curve_space(c(0, 30, 60), c(3, 4), 2), ordinates)
  expect_identical(bent$numerator / bent$denominator, c(1843200, 1612800, 6912012 / 5, 998400, 844800, 691200))
  expect_identical(bent$denominator[3], 5)
})
