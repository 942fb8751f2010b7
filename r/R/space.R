# The space of a curve: its breakpoints, degrees and orders, and the exact weights that the engine builds from them. Segments
# and joins are numbered from 1, rows and columns of the weights from 0, as the engine has them.

curve_space <- function(breaks, degrees, orders = integer()) {
  lists <- list(breaks = as.vector(whole_numbers(breaks, "breaks", "rings")),
                degrees = as.vector(whole_numbers(degrees, "degrees")),
                orders = as.vector(whole_numbers(orders, "orders")))
  built <- asked(.Call(C_build, lists$breaks, lists$degrees, lists$orders), lists)
  weights <- data.frame(built[c("row", "column", "numerator", "denominator")])
  structure(c(lists, list(n = built$reply[["count"]], columns = sum(lists$degrees + 1), weights = weights)),
            class = "walzhik_space")
}

check_space <- function(space) {
  if (!inherits(space, "walzhik_space")) usage("space is no space: make one with curve_space().")
  space
}

# The three lists as the engine takes them, looked at again: a caller may have changed the object.
space_lists <- function(space) {
  list(breaks = whole_numbers(space$breaks, "breaks"),
       degrees = whole_numbers(space$degrees, "degrees"),
       orders = whole_numbers(space$orders, "orders"))
}

scars_of <- function(space) space$breaks[which(space$orders == scar) + 1]

describe_space <- function(space) {
  span <- range(space$breaks)
  scars <- scars_of(space)
  paste0(count_of(length(space$degrees), "stretch"), " from ring ", span[1], " to ring ", span[2], ", n = ", as_text(space$n),
         if (length(scars) > 0) paste0(", scar at ring ", paste(scars, collapse = ", ")))
}

print.walzhik_space <- function(x, ...) {
  segments <- length(x$degrees)
  cat("Space: ", describe_space(x), "\n", sep = "")
  print(data.frame(from = x$breaks[seq_len(segments)], to = x$breaks[-1], degree = x$degrees,
                   order = c(as.character(x$orders), ""), row.names = seq_len(segments)))
  invisible(x)
}
