# Against dplR itself, where it is installed (Debian has no package of it): reading, writing, and what detrending divides by.

dplr <- function(name) getExportedValue("dplR", name)

test_that("dplR reads and writes the same widths", {
  skip_if_not_installed("dplR")
  path <- tempfile(fileext = ".rwl")
  on.exit(unlink(path))
  for (name in c("oak.rwl", "pine.rwl")) {
    ours <- read_example(name)
    utils::capture.output(read <- dplr("read.tucson")(example_file(name)))
    expect_equal(as.matrix(read), as.matrix(ours), ignore_attr = TRUE)
    utils::capture.output(dplr("write.tucson")(ours, path, prec = 0.001))
    utils::capture.output(back <- dplr("read.tucson")(path))
    expect_equal(as.matrix(back), as.matrix(ours), ignore_attr = TRUE)
  }
})

test_that("dplR's detrending by our curve gives our indices", {
  skip_if_not_installed("dplR")
  ours <- read_example("oak.rwl")
  mean_curve <- dplr("detrend")(ours, method = "Mean")
  flat <- lapply(ours, function(widths) growth_curve(curve_space(c(1703, 1802), 1), rep(round(1000 * mean(widths)), 2)))
  expect_equal(as.matrix(ring_indices(ours, flat, absent = "zero")), as.matrix(mean_curve), tolerance = 2e-3, ignore_attr = TRUE)
})
