# What a fit says of the years it was fitted to: the curve there and what is left of the widths, named by years; and the curve in any
# other years. Rings are matched by year: a fit keeps the year and the ring of its first width.

fitted_years <- function(record) record$first_year + seq_along(record$widths) - 1

fitted_rings <- function(record) record$first_ring + seq_along(record$widths) - 1

check_fitted <- function(curve) {
  check_curve(curve)
  if (length(fit_records(curve)) == 0) usage("This curve was not fitted to widths: predict() gives its values at rings.")
}

# The curve at the rings of a record, or what it leaves of the widths there; an absent or a missing ring leaves nothing.
record_values <- function(curve, part, record, left) {
  values <- unname(millimetres_at(curve, as.integer(unit * fitted_rings(record)))[, part])
  if (left) values <- ifelse(record$widths == 0, NA, record$widths / per_mm - values)
  setNames(values, fitted_years(record))
}

# A named vector for the whole ring, a table with a column for each wood part otherwise.
curve_record_values <- function(curve, left) {
  check_fitted(curve)
  records <- fit_records(curve)
  columns <- Map(function(part, record) record_values(curve, part, record, left), names(records), records)
  if (curve$whole) return(columns[[1]])
  years <- sort(unique(unlist(lapply(records, fitted_years))))
  vapply(columns, function(column) setNames(column[as.character(years)], years), numeric(length(years)))
}

fitted.walzhik_curve <- function(object, ...) {
  no_more(...)
  curve_record_values(object, left = FALSE)
}

residuals.walzhik_curve <- function(object, ...) {
  no_more(...)
  curve_record_values(object, left = TRUE)
}

# The same of each series, in the shape of the data frame that was fitted.
fits_frame <- function(fits, left) {
  rwl <- attr(fits, "rwl")
  years <- rownames(rwl)
  columns <- lapply(unclass(fits), function(curve) unname(curve_record_values(curve, left)[plain_years(years)]))
  structure(columns, names = names(fits), row.names = years, class = "data.frame", rwl = NULL)
}

plain_years <- function(names) as.character(as.integer(as.numeric(names)))

fitted.walzhik_fits <- function(object, ...) {
  no_more(...)
  fits_frame(object, left = FALSE)
}

residuals.walzhik_fits <- function(object, ...) {
  no_more(...)
  fits_frame(object, left = TRUE)
}

coef.walzhik_fits <- function(object, ...) {
  no_more(...)
  lapply(structure(unclass(object), rwl = NULL), coef)
}

# Each curve in these years; NA outside its span.
predict.walzhik_fits <- function(object, newdata = rownames(attr(object, "rwl")), ...) {
  no_more(...)
  years <- if (missing(newdata)) as.numeric(newdata) else newdata
  positions <- positions_at(years)
  twice <- years[duplicated(years)]
  if (length(twice) > 0) usage("newdata has the year ", in_full(twice[1]), " twice, and rows have distinct names.")
  columns <- lapply(structure(unclass(object), rwl = NULL), function(curve) {
    at <- positions + unit * ring_shift(curve$fit)
    inside <- at >= unit * min(curve$space$breaks) & at <= unit * max(curve$space$breaks)
    replace(rep(NA_real_, length(at)), which(inside), millimetres_at(curve, as.integer(at[inside]))[, 1])
  })
  structure(columns, names = names(object), row.names = ring_names(years), class = "data.frame")
}
