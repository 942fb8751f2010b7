# Curves fitted to measured widths: least squares on the exact weights of a space, in a shape, every coefficient at least one
# thousandth, so that no ring is divided by zero or less. The engine tests rings and widths before anything is fitted; the solver
# (nnls) and the rounding to whole thousandths are not proved.

proved_order <- 1 # up to it, coefficients that do not rise give values that do not
near_half <- 1e-6 # of a thousandth: what is so near below a half is rounded up as it is, or last digits would decide
most_printed <- 12 # series of fits

# What the engine refuses of these rings whatever the curve is: those outside the span, widths out of range.
check_rings <- function(space, each, first, widths) {
  given <- c(space_lists(space), list(coefs = rep(least_coefficient, 2 * space$n), whole = TRUE, first = first, widths = widths,
                                      latewood = FALSE, series = each$name))
  engine_indices(given)
}

# The coefficients of a series, in whole thousandths.
fitted_coefficients <- function(design, widths, shape, solver) {
  found <- if (shape == "free") {
    present <- widths != 0
    free_coefficients(design$matrix[present, , drop = FALSE], widths[present])
  } else if (length(design$parts) == 1) {
    shaped(design$parts[[1]], widths, shape, solver)
  } else {
    unlist(lapply(design$parts, function(part) shaped(part, widths[part$rings], shape, solver)))
  }
  as.integer(floor(found + (1 / 2 + near_half)))
}

# The same, by the solver that is quick, and by the other where that one stops.
solved_series <- function(design, each, widths, shape) {
  if (!is_determined(design, widths != 0)) {
    usage("Series ", each$name, ": ", count_of(sum(widths != 0), "ring"), " in these places can't tell the ",
          count_of(ncol(design$matrix), "coefficient"), " of the space. Take fewer stretches, lower degrees or higher orders.")
  }
  given_up <- function(condition) usage("Series ", each$name, ": the solver has given up.")
  found <- tryCatch(fitted_coefficients(design, widths, shape, by_normal_equations),
                    walzhik_unsolved = given_up, error = function(condition) NULL)
  if (is.null(found)) {
    found <- tryCatch(fitted_coefficients(design, widths, shape, by_orthogonal_factors), walzhik_unsolved = given_up)
  }
  found
}

# The curve of coefficients, with how close the engine's values of it are to the present widths, in millimetres.
fitted_curve <- function(space, coefs, rings, widths) {
  table <- matrix(coefs, dimnames = list(NULL, whole_part))
  curve <- structure(list(space = space, coefficients = table, whole = TRUE), class = "walzhik_curve")
  widths <- widths / per_mm
  left <- widths - millimetres_at(curve, as.integer(unit * rings))[, 1]
  spread <- sum((widths - mean(widths))^2)
  explained <- if (min(widths) < max(widths)) 1 - sum(left^2) / spread else NA_real_
  curve$fit <- list(rings = length(rings), mean_square = mean(left^2), explained = explained)
  curve
}

# The template of a series; what is wrong with its length is told with its name.
series_template <- function(each, first) {
  tryCatch(template_space(length(each$widths), first),
           walzhik_usage = function(condition) usage("Series ", each$name, ": ", conditionMessage(condition)))
}

fit_series <- function(each, space, first, shape) {
  widths <- each$widths
  widths[is.na(widths)] <- 0L
  present <- which(widths != 0)
  if (length(present) == 0) usage("Series ", each$name, " has no widths to fit a curve to: leave its column out.")
  if (is.null(space)) space <- series_template(each, first)
  check_rings(space, each, first, widths)
  design <- design_for(space, first, length(widths))
  coefs <- solved_series(design, each, widths, shape)
  curve <- fitted_curve(space, coefs, first + present - 1, widths[present])
  shapes <- vapply(design$parts, function(part) shape_of(coefs[part$rows], shape), "")
  curve$fit <- c(curve$fit, list(shapes = shapes, least_rows = which(coefs == least_coefficient),
                                 never_rises = all(shapes == "falling") && all(space$orders <= proved_order),
                                 series = each$name, first_year = each$first, first_ring = first, widths = each$widths))
  curve
}

check_shape <- function(shape) {
  if (!is.character(shape) || length(shape) != 1 || !(shape %in% shape_names)) {
    usage("shape is one of ", paste0("\"", shape_names, "\"", collapse = ", "), ".")
  }
}

fit_curve <- function(rwl, space = NULL, first = NULL, shape = "auto", each_first = NULL) {
  check_shape(shape)
  series <- series_of(rwl)
  if (!is.null(space)) check_space(space)
  rings <- first_rings(series, first, each_first)
  fits <- lapply(series, function(each) fit_series(each, space, rings[[each$name]], shape))
  structure(fits, class = "walzhik_fits", rwl = rwl)
}

# One curve of two columns: both wood parts in one space, which covers the rings of both.
fit_pair <- function(rwl, earlywood, latewood, space = NULL, first = NULL, shape = "auto", each_first = NULL) {
  check_shape(shape)
  series <- series_of(rwl)
  names <- list(earlywood = earlywood, latewood = latewood)
  for (part in wood_parts) {
    name <- names[[part]]
    if (!is.character(name) || length(name) != 1 || !(name %in% names(series))) usage(part, " is the name of a series of rwl.")
  }
  series <- series[unlist(names)]
  if (!is.null(space)) check_space(space)
  rings <- first_rings(series, first, each_first)
  if (is.null(space)) {
    last <- max(rings + lengths(lapply(series, `[[`, "widths")) - 1)
    if (is.na(last)) usage("A series of the pair has no widths to fit a curve to.")
    space <- template_space(last - min(rings) + 1, min(rings))
  }
  curves <- lapply(names, function(name) fit_series(series[[name]], space, rings[[name]], shape))
  pair <- growth_curve(space, vapply(curves, function(curve) curve$coefficients[, 1], integer(space$n)))
  pair$fit <- lapply(curves, `[[`, "fit")
  pair
}

`[.walzhik_fits` <- function(x, i) structure(unclass(x)[i], class = "walzhik_fits", rwl = attr(x, "rwl")[i])

# What is known of each part's fit, by the part; an empty list for a curve that was not fitted.
fit_records <- function(curve) {
  if (!is.list(curve$fit)) return(list())
  if (curve$whole) list(ring = curve$fit) else curve$fit
}

describe_shapes <- function(shapes) {
  if (length(shapes) == 1) return(shapes)
  paste(sprintf("part %d %s", seq_along(shapes), shapes), collapse = ", ")
}

describe_fit <- function(fit) {
  shared <- if (is.na(fit$explained)) "" else sprintf(", %.1f %% explained", round(100 * fit$explained, 1) + 0)
  parts <- if (length(fit$shapes) > 1) " (in each part)" else ""
  proved <- if (fit$never_rises) paste0("; by proof it never rises", parts, " and stays above zero") else ""
  least <- if (length(fit$least_rows) > 0) {
    paste0("; at the least allowed, ", least_coefficient / per_mm, " mm, coefficient ", paste(fit$least_rows, collapse = ", "))
  } else ""
  sprintf("Fitted to %s: root mean square %.3f mm%s, %s%s%s", count_of(fit$rings, "ring"), sqrt(fit$mean_square), shared,
          describe_shapes(fit$shapes), proved, least)
}

print.walzhik_fits <- function(x, ...) {
  cat(count_of(length(x), "fitted curve"), "\n", sep = "")
  for (name in head(names(x), most_printed)) {
    cat("  ", name, ": ", describe_space(x[[name]]$space), "\n    ", describe_fit(x[[name]]$fit), "\n", sep = "")
  }
  if (length(x) > most_printed) cat("  and ", length(x) - most_printed, " more: summary() lists all.\n", sep = "")
  invisible(x)
}
