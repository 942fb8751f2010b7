# Tables of what is known of widths and fits, a row a series.

# The mean of twice the difference of neighbouring rings over their sum; two absent rings have none.
mean_sensitivity <- function(widths) {
  sums <- widths[-1] + widths[-length(widths)]
  steps <- abs(diff(widths))
  at <- which(sums > 0)
  if (length(at) == 0) NA_real_ else mean(2 * steps[at] / sums[at])
}

# The correlation of each ring with the one before it, as acf() has it.
first_autocorrelation <- function(widths) {
  if (length(widths) < 2 || min(widths) == max(widths)) return(NA_real_)
  about <- widths - mean(widths)
  sum(about[-1] * about[-length(about)]) / sum(about^2)
}

summary.rwl <- function(object, ...) {
  no_more(...)
  series <- series_of(object)
  if (length(series) == 0) usage("There are no series.")
  rows <- lapply(series, function(each) {
    widths <- each$widths[!is.na(each$widths)] / per_mm
    none <- length(widths) == 0
    data.frame(series = each$name, first = each$first, last = each$first + length(each$widths) - 1L, year = length(widths),
               mean = if (none) NA_real_ else mean(widths), stdev = if (length(widths) < 2) NA_real_ else sd(widths),
               ar1 = first_autocorrelation(widths), sens1 = mean_sensitivity(widths), absent = sum(widths == 0))
  })
  do.call(rbind, c(unname(rows), list(make.row.names = FALSE)))
}

fit_row <- function(name, space, record) {
  data.frame(series = name, first = record$first_year, last = record$first_year + length(record$widths) - 1L,
             stretches = length(space$degrees), n = space$n, scars = length(scars_of(space)), rings = record$rings,
             rms = sqrt(record$mean_square), explained = record$explained, shape = paste(record$shapes, collapse = ", "),
             never_rises = record$never_rises)
}

summary.walzhik_fits <- function(object, ...) {
  no_more(...)
  if (length(object) == 0) usage("There are no fitted curves.")
  rows <- lapply(names(object), function(name) fit_row(name, object[[name]]$space, object[[name]]$fit))
  do.call(rbind, rows)
}

# The stretches with the engine's curve at both ends of each, in millimetres.
summary.walzhik_curve <- function(object, ...) {
  no_more(...)
  check_curve(object)
  space <- object$space
  segments <- seq_along(space$degrees)
  values <- predict(object, space$breaks)
  ends <- lapply(colnames(values), function(part) {
    setNames(data.frame(values[segments, part], values[segments + 1, part]), paste0(part, c("_from", "_to")))
  })
  data.frame(stretch = segments, from = space$breaks[segments], to = space$breaks[segments + 1], degree = space$degrees,
             order = c(space$orders, NA), ends, row.names = NULL)
}
