# Every entry point while R collects garbage at each allocation: what it has not protected would be lost, and the answer with it.

tortured <- function(call) {
  gctorture(TRUE)
  on.exit(gctorture(FALSE))
  call()
}

calls <- list(
  whole = function() .Call(C_whole_numbers, c(1, 2, 3), most_entries),
  fault = function() .Call(C_whole_numbers, c(1, 2.5), most_entries),
  build = function() .Call(C_build, c(0L, 1L, 3L, 4L), c(2L, 2L, 1L), c(1L, -1L)),
  refused = function() .Call(C_build, c(0L, 1L), 9L, integer()),
  coefficients = function() .Call(C_coefficients, c(0L, 1L, 3L), c(2L, 2L), 1L, c(0L, 256L, 512L, 512L, 1024L, 3L)),
  curve = function() .Call(C_curve, c(0L, 1L, 3L), c(2L, 2L), 1L, 1:8, 0:768),
  indices = function() .Call(C_indices, c(0L, 1L, 3L), c(2L, 2L), 1L, 1:8, 0L, 0:3, TRUE),
  reach = function() .Call(C_reach, c(0L, 1L, 3L), c(2L, 2L), 1L, 1:8, 3L, FALSE),
  piece = function() .Call(C_piece, c(0L, 1L, 3L), c(2L, 2L), 1L, 1:8, 1L, FALSE),
  tucson_clean = function() .Call(C_tucson_clean, charToRaw("A\t1900     7 -9999 \r\n\nB       1901     8     0 -9999"), 100L, 0L),
  clean_refused = function() .Call(C_tucson_clean, charToRaw("A       1900     7  -999\n"), 100L, 0L),
  clean_nothing = function() .Call(C_tucson_clean, raw(), 100L, 0L),
  tucson_read = function() .Call(C_tucson_read, charToRaw("A       1900     7 -9999\nB       1901     8     9 -9999\n")),
  tucson_write = function() .Call(C_tucson_write, charToRaw("A       B       "), c(1900L, 1901L), 1:2, 7:9))

test_that("entry points protect what they make", {
  for (name in names(calls)) {
    plain <- calls[[name]]()
    expect_identical(tortured(calls[[name]]), plain, label = name)
  }
})
