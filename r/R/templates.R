# The templates of fitted curves: from how many rings on, where their segments start, and the degrees. Made by tests/r_made.py
# from the command's templates in python/src/walzhik/fit_template.py, so that both fit the same curves: change that table and make this
# file again.

templates <- list(
  list(rings = 450, starts = c(0, 30, 90, 170, 330), degrees = c(3, 2, 2, 2, 2)),
  list(rings = 220, starts = c(0, 30, 90, 170), degrees = c(3, 2, 2, 2)),
  list(rings = 125, starts = c(0, 30, 90), degrees = c(3, 2, 2)),
  list(rings = 50, starts = c(0, 30), degrees = c(3, 2)),
  list(rings = 6, starts = c(0), degrees = c(2)),
  list(rings = 2, starts = c(0), degrees = c(1))
)
