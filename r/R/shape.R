# Coefficients that fall, or rise once and then fall, fitted to the widths of one part of a curve: non-negative least squares on their
# differences, of deviations relative to the curve. The same steps as the command's (python/src/walzhik/fit_shape.py), in the same
# order, so that both give the same numbers. A choice in floating point, not proved; that coefficients which do not rise give values
# which do not rise is.

shape_names <- c("auto", "falling", "hump", "free")
least_coefficient <- 1L # thousandths of a millimetre: so the curve stays above zero
weight_rounds <- 2      # after a first fit without weights
hump_test <- 2          # times ln n: so much must n ln of the ratio of deviances be for a hump
hump_tried <- 1         # times ln n: so much less must coefficients of any signs leave, or no hump is tried
square_floor <- 1e-9    # of squares: what is closer than this counts as exact

unsolved <- function() stop(structure(class = c("walzhik_unsolved", "error", "condition"),
                                      list(message = "the solver has given up", call = NULL)))

# The triangle of weighted least squares: what is sought, times it, is the target, as nearly as can be; `left` is what steps of any
# signs leave of the squares. By the normal equations; R's error where these are too close to dependent.
by_normal_equations <- function(bordered, count) {
  border <- ncol(bordered)
  rows <- seq_len(border - 1)
  squares <- crossprod(bordered)
  squares[border, border] <- squares[border, border] + square_floor * (squares[border, border] + count)
  triangle <- chol.default(squares)
  square <- triangle[rows, rows]
  pivots <- square[rows + (border - 1) * (rows - 1)]
  if (min(pivots) <= well_apart * max(pivots)) stop("nearly dependent")
  list(triangle = square, target = triangle[rows, border], left = triangle[border, border]^2)
}

# The same by orthogonal factors, for what is nearly dependent.
by_orthogonal_factors <- function(bordered, count) {
  border <- ncol(bordered)
  rows <- seq_len(border - 1)
  triangle <- qr.R(qr(bordered, tol = 0))
  corner <- if (nrow(triangle) >= border) triangle[border, border]^2 else 0
  floor <- square_floor * (sum(bordered[, border]^2) + count)
  list(triangle = triangle[rows, rows, drop = FALSE], target = triangle[rows, border], left = corner + floor)
}

least_squares <- function(measured, weights) measured$solver(measured$bordered * weights, measured$count)

# The same without weights: where all rings are present, by the factors that all series of the part share.
plain_squares <- function(measured) {
  if (measured$count < length(measured$above)) return(least_squares(measured, measured$present))
  list(triangle = measured$part$triangle, target = drop(crossprod(measured$part$orthogonal, measured$above)), left = 0)
}

# The best steps of the given signs, the curve, and what they leave more than steps of any signs.
solved <- function(measured, system, signs) {
  solution <- nnls(system$triangle * rep(signs, each = length(signs)), system$target)
  if (solution$mode != 1) unsolved()
  steps <- solution$x * signs
  curve <- pmax.int(drop(measured$part$steps %*% steps), 0) + least_coefficient
  list(steps = steps, curve = curve, system = system, more = solution$deviance)
}

# A fit again, of deviations relative to the curve before.
reweighted <- function(measured, stage, signs) {
  for (turn in seq_len(weight_rounds)) {
    stage <- solved(measured, least_squares(measured, measured$present / stage$curve), signs)
  }
  stage
}

# Coefficients that do not rise: no step is below zero.
falling_stage <- function(measured) {
  signs <- rep(1, ncol(measured$part$steps))
  reweighted(measured, solved(measured, plain_squares(measured), signs), signs)
}

# Coefficients that rise up to one and fall after it: the one that leaves least beside the weights of the falling fit, then with
# weights of its own.
hump_stage <- function(measured, before) {
  rows <- seq_len(ncol(measured$part$steps))
  signs <- lapply(rows[-1], function(peak) ifelse(rows < peak, -1, 1))
  stages <- lapply(signs, function(each) solved(measured, before$system, each))
  best <- which.min(vapply(stages, `[[`, 0, "more"))
  reweighted(measured, stages[[best]], signs[[best]])
}

# The mean of r - 1 - ln r over the present rings, r being width over curve.
deviance_of <- function(measured, stage) {
  at <- measured$present == 1
  ratio <- (measured$above[at] + least_coefficient) / stage$curve[at]
  max(mean(ratio - 1 - log(ratio)), square_floor)
}

is_hump_tried <- function(measured, stage) {
  left <- stage$system$left
  measured$count * log((left + stage$more) / left) > hump_tried * log(measured$count)
}

is_hump_better <- function(measured, before, after) {
  measured$count * log(deviance_of(measured, before) / deviance_of(measured, after)) > hump_test * log(measured$count)
}

# The coefficients of a part, in thousandths of a millimetre and not yet rounded; 0 is an absent ring. Sums of numbers of one sign are
# formed one after the other, so that no rounding turns a fall into a rise.
shaped <- function(part, widths, shape, solver = by_normal_equations) {
  present <- as.numeric(widths != 0)
  above <- (widths - least_coefficient) * present
  measured <- list(part = part, above = above, bordered = cbind(part$steps, above, deparse.level = 0), present = present,
                   count = sum(present), solver = solver)
  stage <- falling_stage(measured)
  if (shape == "hump" || (shape == "auto" && is_hump_tried(measured, stage))) {
    other <- hump_stage(measured, stage)
    if (shape == "hump" || is_hump_better(measured, stage, other)) stage <- other
  }
  pmax.int(rev(cumsum(rev(stage$steps))), 0) + least_coefficient
}

# The coefficients of plain least squares over all parts, each at least one thousandth: the weights on each ordinate add up to one, so
# the least coefficients alone give a curve of just that height.
free_coefficients <- function(matrix, widths) {
  solution <- nnls(matrix, widths - least_coefficient)
  if (solution$mode != 1) unsolved()
  solution$x + least_coefficient
}

# What shape the rounded coefficients of a part have.
shape_of <- function(coefficients, shape) {
  if (shape == "free") shape else if (any(diff(coefficients) > 0)) "hump" else "falling"
}
