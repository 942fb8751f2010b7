# Arguments of every wrong kind in every place: each call answers, or stops with a condition of the package's classes.

garbage <- list(null = NULL, na = NA, true = TRUE, text = "1", texts = c("a", "b"), empty = character(), inf = Inf, nan = NaN,
                fraction = 0.5, huge = 1e300, negative = -1L, none = integer(), list = list(1, "a"), factor = factor(1:2),
                date = as.Date("2020-01-01"), complex = 1i, raw = as.raw(1:3), fun = sum, env = globalenv(), name = quote(x),
                formula = y ~ x, frame = data.frame(a = 1:2, b = c("x", "y")), matrix = matrix("a", 2, 2),
                wide = matrix(1, 2, 3), time = as.POSIXlt("2020-01-01", tz = "UTC"), nested = list(list(list())),
                external = structure(list(), class = "walzhik_curve"), space = structure(list(), class = "walzhik_space"))

ok_rwl <- data.frame(A = seq(2, 1.05, by = -0.05), row.names = 1901:1920)
ok_space <- curve_space(c(1901, 1920), 2)
ok_curve <- growth_curve(ok_space, c(2000, 1500, 1000))
ok_fits <- fit_curve(ok_rwl)
ok_text <- write_tucson(ok_rwl)
ok_fh <- write_widths(ok_rwl, to = "fh")

garbage_calls <- list(
  breaks = function(x) curve_space(x, 1), degrees = function(x) curve_space(0:1, x), orders = function(x) curve_space(0:2, c(1, 1), x),
  of_space = function(x) growth_curve(x, 1:3), coefficients = function(x) growth_curve(ok_space, x),
  curve = function(x) curve_values(x, 0), positions = function(x) curve_values(ok_curve, x),
  reach = function(x) curve_reach(ok_curve, x), reach_wood = function(x) curve_reach(ok_curve, 1, x),
  pieces = function(x) curve_pieces(ok_curve, x), ordinates = function(x) curve_coefficients(ok_space, x),
  rings = function(x) template_space(x), scars = function(x) template_space(100, 0, x),
  fit_rwl = function(x) fit_curve(x), fit_space = function(x) fit_curve(ok_rwl, x), fit_first = function(x) fit_curve(ok_rwl, first = x),
  each_first = function(x) fit_curve(ok_rwl, each_first = x), shape = function(x) fit_curve(ok_rwl, shape = x),
  earlywood = function(x) fit_pair(ok_rwl, x, "A"),
  index_rwl = function(x) ring_indices(x, ok_fits), curves = function(x) ring_indices(ok_rwl, x),
  wood = function(x) ring_indices(ok_rwl, ok_fits, wood = x), absent = function(x) detrend_curve(ok_rwl, absent = x),
  detrend = function(x) detrend_curve(x), read = function(x) read_tucson(x), write = function(x) write_tucson(x),
  strict = function(x) read_tucson(ok_text, strict = x), header = function(x) read_tucson(ok_text, header = x),
  unit = function(x) read_tucson(ok_text, unit = x), read_from = function(x) read_widths(ok_text, from = x),
  read_table = function(x) read_widths(x, from = "csv"), read_fh = function(x) read_widths(x, from = "fh"),
  first_year = function(x) read_widths(ok_fh, first = x), year_zero = function(x) read_widths(ok_fh, year_zero = x),
  fh_unit = function(x) read_widths(ok_fh, unit = x), rename = function(x) read_widths(ok_fh, rename = x),
  round = function(x) read_widths(ok_fh, round = x), write_x = function(x) write_widths(x, to = "csv"),
  write_file = function(x) write_widths(ok_rwl, x), write_to = function(x) write_widths(ok_rwl, to = x),
  file = function(x) write_tucson(ok_rwl, x), newdata = function(x) predict(ok_fits, x), at = function(x) predict(ok_curve, x),
  column = function(x) {
    rwl <- ok_rwl
    rwl$A <- if (is.atomic(x) && length(x) > 0) rep_len(x, 20) else I(rep(list(x), 20))
    fit_curve(rwl)
  })

is_of_the_package <- function(condition) {
  is.null(condition) || inherits(condition, c("walzhik_usage", "walzhik_refused", "walzhik_unreadable", "walzhik_unfitted", "walzhik_notes"))
}

test_that("wrong kinds in every place give the package's own conditions", {
  folder <- tempfile()
  dir.create(folder)
  before <- setwd(folder)
  on.exit({
    setwd(before)
    unlink(folder, recursive = TRUE)
  })
  asked <- 0
  for (name in names(garbage_calls)) {
    for (kind in names(garbage)) {
      condition <- tryCatch({
        garbage_calls[[name]](garbage[[kind]])
        NULL
      }, condition = identity)
      asked <- asked + 1
      said <- if (!is.null(condition)) conditionMessage(condition)
      expect_true(is_of_the_package(condition), label = paste(c(name, kind, class(condition)[1], said), collapse = " "))
    }
  }
  expect_gte(asked, 280)
})
