# Growth curves: a space and the coefficients of earlywood and latewood, or of the whole ring, and the engine's values of them.

thousandths_unit <- "thousandths of a millimetre"
position_unit <- "256ths of a ring"
ordinate_unit <- "256ths of a thousandth of a millimetre"
piece_columns <- c("degree", "start", "end", "o0", "o1", "o2", "o3")
whole_part <- "ring" # the one column of a curve of the whole ring
most_positions <- 4096L # of one call

parts_named <- function(whole) if (whole) whole_part else wood_parts

# Both wood parts side by side, as the engine takes them; a list or a single column is the whole ring.
pairs_of <- function(coefficients) {
  if (is.matrix(coefficients) && ncol(coefficients) == 2) {
    names <- colnames(coefficients)
    if (!(is.null(names) || identical(names, wood_parts))) usage("coefficients has two columns, earlywood and latewood in this order.")
    return(list(pairs = as.vector(whole_numbers(t(coefficients), "coefficients", thousandths_unit)), whole = FALSE))
  }
  if (is.matrix(coefficients) && ncol(coefficients) != 1) {
    usage("coefficients as a matrix has one column, or two columns, earlywood and latewood.")
  }
  list(pairs = rep(as.vector(whole_numbers(coefficients, "coefficients", thousandths_unit)), each = 2), whole = TRUE)
}

coefficient_table <- function(pairs, whole) {
  table <- matrix(pairs, ncol = 2, byrow = TRUE)
  if (whole) table <- table[, 1, drop = FALSE]
  dimnames(table) <- list(NULL, parts_named(whole))
  table
}

growth_curve <- function(space, coefficients) {
  check_space(space)
  coefs <- pairs_of(coefficients)
  given <- c(space_lists(space), list(coefs = coefs$pairs, whole = coefs$whole, positions = integer()))
  asked(.Call(C_curve, given$breaks, given$degrees, given$orders, given$coefs, given$positions), given)
  structure(list(space = space, coefficients = coefficient_table(coefs$pairs, coefs$whole), whole = coefs$whole),
            class = "walzhik_curve")
}

check_curve <- function(curve) {
  is_curve <- inherits(curve, "walzhik_curve") && is.list(curve) && length(curve$whole) == 1 && is.logical(curve$whole) &&
    !is.na(curve$whole)
  if (!is_curve) usage("curve is no curve: make one with growth_curve() or fit_curve().")
  curve
}

# What a call takes of a curve.
curve_lists <- function(curve) {
  check_curve(curve)
  coefs <- pairs_of(curve$coefficients)
  c(space_lists(curve$space), list(coefs = coefs$pairs, whole = coefs$whole))
}

# Whether the named wood part is the latewood. A curve of the whole ring has one part, so that none need be named.
is_latewood <- function(curve, wood) {
  if (is.null(wood)) {
    if (curve$whole) return(FALSE)
    usage("This curve has two wood parts: say wood = \"earlywood\" or wood = \"latewood\".")
  }
  if (!is.character(wood) || length(wood) != 1 || !(wood %in% wood_parts)) usage("wood is \"earlywood\" or \"latewood\".")
  wood == wood_parts[2]
}

# The engine's values as a table, a row for each position and a column for each part of the curve.
value_table <- function(values, whole) {
  table <- t(values)
  if (whole) table <- table[, 1, drop = FALSE]
  colnames(table) <- parts_named(whole)
  table
}

curve_values <- function(curve, positions) {
  given <- c(curve_lists(curve), list(positions = whole_numbers(positions, "positions", position_unit)))
  read <- asked(.Call(C_curve, given$breaks, given$degrees, given$orders, given$coefs, given$positions), given)
  value_table(read$values, given$whole)
}

# The same at any number of positions, in millimetres.
millimetres_at <- function(curve, positions) {
  given <- c(curve_lists(curve), list(positions = positions))
  blocks <- asked_in_blocks(length(positions), given, function(at) {
    .Call(C_curve, given$breaks, given$degrees, given$orders, given$coefs, given$positions[at])
  })
  value_table(do.call(cbind, lapply(blocks, `[[`, "values")), given$whole) / (unit * per_mm)
}

# Rings as positions. A ring between two positions is refused with both of them named: none is taken for it.
positions_at <- function(rings) {
  if (!is.numeric(rings) || is.object(rings)) usage("newdata are rings: plain numbers, in steps of 1/256.")
  scaled <- unit * as.vector(rings)
  off <- which(scaled != floor(scaled))[1]
  if (!is.na(off)) {
    usage("newdata[", off, "] is ", in_full(rings[off]), ": rings go in steps of 1/256, and the nearest to it are ",
          in_full(floor(scaled[off]) / unit), " and ", in_full(ceiling(scaled[off]) / unit), ".")
  }
  whole_numbers(scaled, "256 * newdata", position_unit)
}

ring_names <- function(rings) vapply(rings, in_full, "")

predict.walzhik_curve <- function(object, newdata = seq(min(object$space$breaks), max(object$space$breaks)), ...) {
  no_more(...)
  check_curve(object)
  values <- millimetres_at(object, positions_at(newdata))
  rownames(values) <- ring_names(newdata)
  values
}

coef.walzhik_curve <- function(object, ...) {
  no_more(...)
  check_curve(object)
  names <- paste0("c", seq_len(nrow(object$coefficients)))
  if (object$whole) return(setNames(object$coefficients[, 1], names))
  structure(object$coefficients, dimnames = list(names, wood_parts))
}

curve_reach <- function(curve, width, wood = NULL) {
  given <- c(curve_lists(curve), list(width = one_whole(width, "width", thousandths_unit), latewood = is_latewood(curve, wood)))
  asked(.Call(C_reach, given$breaks, given$degrees, given$orders, given$coefs, given$width, given$latewood), given)$position
}

curve_pieces <- function(curve, segments = seq_along(curve$space$degrees), wood = NULL) {
  given <- c(curve_lists(curve), list(latewood = is_latewood(curve, wood)))
  segments <- as.vector(whole_numbers(segments, "segments"))
  if (any(segments < 1)) usage("segments are counted from 1, but ", segments[segments < 1][1], " is given.")
  pieces <- vapply(segments, function(segment) {
    asked(.Call(C_piece, given$breaks, given$degrees, given$orders, given$coefs, segment - 1L, given$latewood), given)$piece
  }, numeric(length(piece_columns)))
  numbers <- matrix(t(pieces), ncol = length(piece_columns), dimnames = list(NULL, piece_columns))
  data.frame(segment = segments, numbers)
}

curve_coefficients <- function(space, ordinates) {
  check_space(space)
  given <- c(space_lists(space), list(ordinates = whole_numbers(ordinates, "ordinates", ordinate_unit)))
  recovered <- asked(.Call(C_coefficients, given$breaks, given$degrees, given$orders, given$ordinates), given)
  data.frame(recovered[c("numerator", "denominator")])
}

print.walzhik_curve <- function(x, ...) {
  cat(if (x$whole) "Curve of the whole ring: " else "Curve of earlywood and latewood: ", describe_space(x$space), "\n", sep = "")
  records <- fit_records(x)
  for (part in names(records)) cat(if (!x$whole) paste0(part, ": "), describe_fit(records[[part]]), "\n", sep = "")
  cat("Coefficients in thousandths of a millimetre:\n")
  print(if (x$whole) unname(coef(x)) else t(x$coefficients))
  invisible(x)
}
