# Ring indices of a data frame of widths, in its shape, as dplR's detrend() gives them. Each index is worked out by the proved
# call; here it only finds its place.

per_index <- 1000 # the engine's index of a ring as wide as the curve
absent_kinds <- c("NA", "zero")

# One entry for each series: one for all, or one by each name.
for_series <- function(x, names, what) {
  if (is.null(names(x))) {
    if (length(x) != 1) usage(what, " is one for all series, or has the series' names.")
    return(setNames(rep(x, length(names)), names))
  }
  missing <- setdiff(names, names(x))
  if (length(missing) > 0) usage(what, " has no entry for series ", missing[1], ".")
  x[names]
}

curves_for <- function(curves, names) {
  if (inherits(curves, "walzhik_curve")) return(setNames(rep(list(curves), length(names)), names))
  if (!is.list(curves) || is.null(names(curves))) usage("curves is a curve, or a list of curves with the series' names.")
  for_series(curves, names, "curves")
}

# The ring of each series' first width, as the command counts them (python/src/walzhik/counting.py). Without a number rings are years.
# `first` is the ring of the first width of the earliest series, and the others keep their distance in years; `each_first` is that of
# each series' own first width.
first_rings <- function(series, first, each_first) {
  years <- vapply(series, `[[`, 0L, "first")
  if (!is.null(first) && !is.null(each_first)) usage("Give first or each_first, not both.")
  if (!is.null(each_first)) {
    whole <- whole_numbers(each_first, "each_first", "rings")
    return(for_series(setNames(as.vector(whole), names(each_first)), names(series), "each_first"))
  }
  if (is.null(first) || all(is.na(years))) return(years)
  whole <- whole_numbers(first, "first", "rings")
  if (length(whole) != 1 || !is.null(names(first))) {
    usage("first is one number, the ring of the first width of the earliest series: each_first takes one for each series' own.")
  }
  rings <- as.numeric(whole) + years - min(years, na.rm = TRUE)
  if (any(abs(rings) > most_whole, na.rm = TRUE)) usage("first is ", whole, ": rings are at most ", with_commas(most_whole), ".")
  setNames(as.integer(rings), names(series))
}

# How far a fitted curve's rings are from years.
ring_shift <- function(record) if (is.null(record)) 0L else record$first_ring - record$first_year

# The ring of a series' first width on a curve that nothing more is said of: its year, or, where the curve was fitted to this series
# with its rings counted, the ring that this year had then.
ring_by_year <- function(each, curve) {
  records <- fit_records(curve)
  for (record in records) if (identical(record$series, each$name)) return(each$first + ring_shift(record))
  for (record in records) {
    if (ring_shift(record) == 0) next
    usage("The curve of series ", record$series, " counts rings, its year ", record$first_year, " being ring ", record$first_ring,
          ": say which ring the first width of series ", each$name, " is, by first or each_first.")
  }
  each$first
}

engine_indices <- function(given) {
  blocks <- asked_in_blocks(length(given$widths), given, function(at) {
    .Call(C_indices, given$breaks, given$degrees, given$orders, given$coefs, given$first + (at[1] - 1L), given$widths[at],
          given$latewood)
  })
  if (length(blocks) == 1) blocks[[1]]$indices else unlist(lapply(blocks, `[[`, "indices"))
}

check_absent <- function(absent) {
  if (identical(absent, absent_kinds)) return(absent_kinds[1])
  if (!is.character(absent) || length(absent) != 1 || !(absent %in% absent_kinds)) usage("absent is \"NA\" or \"zero\".")
  absent
}

# The indices of one series, 1 being a ring as wide as the curve. A gap has no width, and so is handed on as an absent ring.
series_indices <- function(each, curve, first, latewood, absent) {
  widths <- each$widths
  gaps <- is.na(widths)
  widths[gaps] <- 0L
  given <- c(curve_lists(curve), list(first = first, widths = widths, latewood = latewood, series = each$name))
  indices <- engine_indices(given)
  none <- indices < 0
  indices <- indices / per_index
  indices[none] <- if (absent == "zero") 0 else NA
  indices[gaps] <- NA
  indices
}

rwi_frame <- function(columns, rwl) {
  structure(columns, names = names(rwl), row.names = rownames(rwl), class = c("rwi", "data.frame"))
}

ring_indices <- function(rwl, curves, wood = NULL, first = NULL, each_first = NULL, absent = c("NA", "zero")) {
  absent <- check_absent(absent)
  series <- series_of(rwl)
  curves <- curves_for(curves, names(series))
  if (!is.null(wood) && !is.character(wood)) usage("wood is \"earlywood\" or \"latewood\", one for all series or with their names.")
  woods <- if (!is.null(wood)) for_series(wood, names(series), "wood")
  by_year <- is.null(first) && is.null(each_first)
  rings <- first_rings(series, first, each_first)
  columns <- lapply(series, function(each) {
    column <- rep(NA_real_, nrow(rwl))
    if (length(each$widths) == 0) return(column)
    curve <- check_curve(curves[[each$name]])
    latewood <- is_latewood(curve, if (!is.null(woods)) woods[[each$name]])
    ring <- if (by_year) ring_by_year(each, curve) else rings[[each$name]]
    column[each$rows] <- series_indices(each, curve, ring, latewood, absent)
    column
  })
  rwi_frame(columns, rwl)
}

# The indices of a series by its own fit; all NA, with a warning, where it can't be fitted.
detrended <- function(each, space, ring, shape, absent, rows) {
  column <- rep(NA_real_, rows)
  if (length(each$widths) == 0) return(column)
  unfitted <- function(condition) {
    said <- sub("^Series [^:]*: ", "", conditionMessage(condition))
    warning(structure(class = c("walzhik_unfitted", "warning", "condition"), list(
      message = paste0("Series ", each$name, " is not fitted, and its indices are NA: ", said), call = user_call(),
      series = each$name)))
  }
  tryCatch({
    curve <- fit_series(each, space, ring, shape)
    column[each$rows] <- series_indices(each, curve, ring, FALSE, absent)
    column
  }, walzhik_refused = function(condition) {
    unfitted(condition)
    column
  }, walzhik_usage = function(condition) {
    unfitted(condition)
    column
  })
}

detrend_curve <- function(rwl, shape = "auto", space = NULL, first = NULL, each_first = NULL, absent = c("NA", "zero")) {
  check_shape(shape)
  absent <- check_absent(absent)
  if (!is.null(space)) check_space(space)
  series <- series_of(rwl)
  rings <- first_rings(series, first, each_first)
  rwi_frame(lapply(series, function(each) detrended(each, space, rings[[each$name]], shape, absent, nrow(rwl))), rwl)
}
