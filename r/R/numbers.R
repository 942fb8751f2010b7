# Whole numbers for the engine. A list that it could not be asked about (missing entries, fractions, text, factors, more than
# 32 bits) is refused here in words; every other goes to the engine as it is, and the engine decides.

most_entries <- 2^24 # of a list in one call; no answer takes more than 4,096
most_whole <- .Machine$integer.max

whole_numbers <- function(x, what, unit = NULL, most = most_entries) {
  found <- .Call(C_whole_numbers, x, most)
  if (is.list(found)) usage(number_words(found, x, what, unit, most))
  found
}

one_whole <- function(x, what, unit = NULL) {
  number <- whole_numbers(x, what, unit)
  if (length(number) != 1) usage(what, " is one number, but ", length(number), " are given.")
  number
}

with_commas <- function(x) format(x, big.mark = ",", decimal.mark = ".", scientific = FALSE, trim = TRUE)

# A number with all digits that tell it apart.
in_full <- function(x) format(x, digits = 15, decimal.mark = ".")

number_words <- function(found, x, what, unit, most) {
  whole <- paste0("whole numbers", if (!is.null(unit)) paste0(", in ", unit))
  entry <- paste0(what, "[", as_text(found$entry), "]")
  switch(found$kind,
    null = paste0(what, " is NULL: give ", whole, "; integer() is an empty list."),
    factor = paste0(what, " is a factor, and its codes are not its numbers: give as.numeric(as.character(...))."),
    class = paste0(what, " has the class ", class(x)[1], ": give plain ", whole, "."),
    type = paste0(what, " is of type ", typeof(x), ": give ", whole, "."),
    long = paste0(what, " has ", with_commas(found$value), " entries: at most ", with_commas(most), " are handed to the engine."),
    missing = paste0(entry, " is missing (NA): give ", whole, "."),
    fraction = paste0(entry, " is ", in_full(found$value), ": give ", whole, "."),
    large = paste0(entry, " is ", in_full(found$value), ": give ", whole, ", from -", with_commas(most_whole), " to ",
                   with_commas(most_whole), "."))
}
