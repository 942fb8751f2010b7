# An interrupt that comes while the package works ends the call with R's interrupt condition; nothing is lost and the next call
# answers as before.

interrupt_me <- function() tools::pskill(Sys.getpid(), tools::SIGINT)

interrupted <- function(call) tryCatch({
  call
  "answered"
}, interrupt = function(condition) "interrupted")

# Kibibytes of this process in memory.
resident <- function() {
  gc()
  pages <- as.numeric(strsplit(readLines("/proc/self/statm"), " ")[[1]][2])
  4 * pages
}

test_that("a pending interrupt is seen in the package's C part", {
  skip_on_os("windows")
  numbers <- as.numeric(seq_len(1e6))
  most <- most_entries
  expect_identical(interrupted({
    interrupt_me()
    .Call(C_whole_numbers, numbers, most)
  }), "interrupted")
  expect_length(.Call(C_whole_numbers, numbers, most), 1e6)
})

test_that("reading is interrupted, and then reads the same", {
  skip_on_os("windows")
  text <- readBin(example_file("pine.rwl"), "raw", 1e4)
  before <- read_tucson(text, strict = TRUE)
  expect_identical(interrupted({
    interrupt_me()
    .Call(C_tucson_read, text)
  }), "interrupted")
  expect_identical(interrupted({
    interrupt_me()
    .Call(C_tucson_clean, text, no_header, no_unit)
  }), "interrupted")
  expect_identical(read_tucson(text, strict = TRUE), before)
})

test_that("a job over many series is interrupted", {
  skip_on_os("windows")
  rwl <- read_example("pine.rwl")
  fits <- fit_curve(rwl)
  turns <- 0
  expect_identical(interrupted(repeat {
    ring_indices(rwl, fits)
    turns <- turns + 1
    if (turns == 5) interrupt_me()
    if (turns == 5000) break
  }), "interrupted")
  expect_gte(turns, 5)
  expect_lt(turns, 5000)
})

test_that("refusals, errors and interrupts lose no memory", {
  skip_if_not(file.exists("/proc/self/statm"))
  lists <- list(0:2, c(2L, 2L), 1L, 1:8, 1:2)
  once <- function() {
    .Call(C_curve, lists[[1]], lists[[2]], lists[[3]], lists[[4]], lists[[5]])
    caught(curve_space(0:2, c(2, 2), 2))
    caught(.Call(C_reach, lists[[1]], lists[[2]], lists[[3]], lists[[4]], 1:2, FALSE))
  }
  for (turn in 1:500) once()
  before <- resident()
  for (turn in 1:1000) once()
  lent <- 1000 * 3 * 2 * 5184 * 8 / 1024 # kibibytes of weight buffers in these calls
  expect_lt(resident() - before, lent / 4)
})

test_that("memory stays flat over 20,000 calls", {
  skip_if_not(file.exists("/proc/self/statm"))
  curve <- growth_curve(w1(), 1:4)
  rwl <- data.frame(A = c(0.1, 0.2), row.names = 1:2)
  text <- charToRaw("A       1900     7 -9999\n")
  calls <- list(function() curve_values(curve, 0:700), function() ring_indices(rwl, curve), function() read_tucson(text),
                function() caught(curve_space(0:2, c(2, 2), 2)))
  run <- function(turns) for (turn in seq_len(turns)) for (each in calls) each()
  run(500)
  before <- resident()
  run(5000)
  expect_lt(resident() - before, 4096)
})
