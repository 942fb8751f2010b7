# What the ordinates miss at the join that number 19 names: the first derivative that differs on its two sides, and by how much.
# The difference is an exact fraction as long as R's doubles hold its parts. Whether there is one they always tell: both sides are
# multiples of a falling factorial, which doubles hold within the engine's limits.

most_exact <- 2^53
differ <- c("values", "slopes", "bends")
by_rings <- c("", " a ring", " a ring and ring")

greatest_divisor <- function(a, b) {
  while (b != 0) {
    rest <- a %% b
    a <- b
    b <- rest
  }
  a
}

# The derivative of a Bernstein polynomial at its start, as a numerator over length^order.
start_derivative <- function(ordinates, order) {
  degree <- length(ordinates) - 1
  falling <- prod(degree - seq_len(order) + 1)
  falling * sum((-1)^(order - 0:order) * choose(order, 0:order) * ordinates[1 + 0:order])
}

difference_text <- function(numerator, denominator) {
  if (abs(numerator) >= most_exact || denominator >= most_exact) return(paste("some", in_full(signif(numerator / denominator))))
  divisor <- greatest_divisor(abs(numerator), denominator)
  parts <- c(numerator, denominator) / divisor
  if (parts[2] == 1) as_text(parts[1]) else paste0(as_text(parts[1]), "/", as_text(parts[2]))
}

missed <- function(given, join) {
  degrees <- given$degrees
  first <- sum(degrees[seq_len(join)]) + join
  middle <- first + degrees[join + 1] + 1
  left <- given$ordinates[(first + 1):middle]
  right <- given$ordinates[middle + seq_len(degrees[join + 2] + 1)]
  lengths <- as.numeric(diff(given$breaks))[join + 1:2]
  for (order in seq_len(given$orders[join + 1] + 1) - 1) {
    before <- (-1)^order * start_derivative(rev(left), order) * lengths[2]^order
    after <- start_derivative(right, order) * lengths[1]^order
    if (before != after) {
      by <- difference_text(after - before, unit * prod(lengths)^order)
      return(sprintf("the %s on its two sides differ by %s thousandths of a millimetre%s", differ[order + 1], by, by_rings[order + 1]))
    }
  }
  NA
}
