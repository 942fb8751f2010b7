# A space at consecutive rings: what each coefficient weighs there, and what each difference of coefficients does. It depends on the
# distances of breakpoints and rings alone, so it is worked out once for all series that lie alike, and kept.

most_designs <- 256 # kept ones
dependent <- 1e-8   # of the greatest singular value: what is below it is none
well_apart <- 1e-6  # of the greatest pivot: below it the normal equations would lose too many digits
kept_designs <- new.env(parent = emptyenv())

# The segment, from 1, that each ring is read from: on a scar the one that ends there, on another join the one that starts.
segments_at <- function(space, rings) {
  segment <- findInterval(rings, space$breaks, rightmost.closed = TRUE)
  at_scar <- segment > 1 & rings == space$breaks[segment] & c(0L, space$orders)[segment] == scar
  segment - at_scar
}

# The local Bernstein polynomials at each ring: a row a ring, a column for each of the space's columns.
bernstein <- function(space, rings) {
  segment <- segments_at(space, rings)
  start <- space$breaks[segment]
  share <- (rings - start) / (space$breaks[segment + 1] - start)
  degree <- space$degrees[segment]
  before <- cumsum(c(0, space$degrees + 1))[segment]
  table <- matrix(0, length(rings), space$columns)
  for (ordinate in 0:max(degree)) {
    at <- which(degree >= ordinate)
    table[cbind(at, before[at] + ordinate + 1)] <-
      choose(degree[at], ordinate) * share[at]^ordinate * (1 - share[at])^(degree[at] - ordinate)
  }
  table
}

weight_matrix <- function(space) {
  table <- matrix(0, space$n, space$columns)
  table[cbind(space$weights$row, space$weights$column) + 1] <- space$weights$numerator / space$weights$denominator
  table
}

# The rows' values at the rings: a row a ring, a column a coefficient.
design_matrix <- function(space, rings) tcrossprod(bernstein(space, rings), weight_matrix(space))

# The parts between scars, each with its rings, its rows, and what a rise of all coefficients up to a row by one does at each ring,
# with its factors.
design_parts <- function(space, rings, matrix) {
  segments <- length(space$degrees)
  part_of <- cumsum(c(1, space$orders == scar))
  orders <- ifelse(space$orders == scar, -1, space$orders)
  rows_of <- tapply(space$degrees + 1 - c(0, orders + 1), part_of, sum)
  ends <- cumsum(rows_of)
  at <- part_of[segments_at(space, rings)]
  lapply(seq_along(rows_of), function(part) {
    rows <- seq(ends[[part]] - rows_of[[part]] + 1, ends[[part]])
    inside <- which(at == part)
    steps <- matrix[inside, rows, drop = FALSE]
    for (row in seq_along(rows)[-1]) steps[, row] <- steps[, row] + steps[, row - 1]
    part <- list(rings = inside, rows = rows, steps = steps)
    if (length(inside) < length(rows)) return(part)
    factors <- qr(steps, tol = 0)
    c(part, list(orthogonal = qr.Q(factors), triangle = qr.R(factors)))
  })
}

# Whether a matrix's columns are independent.
is_independent <- function(matrix) {
  if (nrow(matrix) < ncol(matrix)) return(FALSE)
  sizes <- svd(matrix, 0, 0)$d
  min(sizes) > dependent * max(sizes)
}

# The same of the present rings of a design; most are told by the normal equations.
is_determined <- function(design, present) {
  if (all(present)) return(design$determined)
  matrix <- design$matrix[present, , drop = FALSE]
  if (nrow(matrix) < ncol(matrix)) return(FALSE)
  pivots <- tryCatch(diag(chol.default(crossprod(matrix))), error = function(condition) 0)
  min(pivots) > well_apart * max(pivots) || is_independent(matrix)
}

# A space at so many rings from a first one on, kept by the distances.
design_for <- function(space, first, rings) {
  begin <- space$breaks[1]
  key <- paste(c(space$breaks - begin, space$degrees, space$orders, first - begin, rings), collapse = " ")
  design <- kept_designs[[key]]
  if (is.null(design)) {
    if (length(kept_designs) >= most_designs) rm(list = ls(kept_designs), envir = kept_designs)
    numbers <- first + seq_len(rings) - 1
    matrix <- design_matrix(space, numbers)
    design <- list(matrix = matrix, determined = is_independent(matrix), parts = design_parts(space, numbers, matrix))
    assign(key, design, envir = kept_designs)
  }
  design
}
