# Data frames of ring widths as dplR has them, taken apart into series: name, first year, and widths in whole thousandths.
# Nothing is rounded: a width that is no whole number of thousandths is refused in words.

near_whole <- 1e-6 # of a thousandth: what is left of decimals like 1.23 in binary

year_pattern <- "^(0|-?[1-9][0-9]{0,8}(e[+]0[0-8])?)$" # R itself writes 1e+05 for a row name 100000

years_of <- function(rwl) {
  names <- rownames(rwl)
  strange <- grep(year_pattern, names, invert = TRUE, value = TRUE)
  if (length(strange) > 0) usage("The row names of rwl are years, but ", strange[1], " is none.")
  numbers <- as.numeric(names)
  large <- which(abs(numbers) > most_whole)[1]
  if (!is.na(large)) usage("The row names of rwl are years, but ", names[large], " is none.")
  years <- as.integer(numbers)
  jump <- which(diff(years) != 1)[1]
  if (!is.na(jump)) {
    usage("The years of rwl follow each other, but ", years[jump + 1], " comes after ", years[jump], ".")
  }
  years
}

# Widths in millimetres as whole thousandths; NA stays.
thousandths <- function(widths, name, years) {
  if (is.factor(widths)) usage("Series ", name, " is a factor: its codes are not its widths.")
  if (is.object(widths)) usage("Series ", name, " has the class ", class(widths)[1], ": give plain numbers.")
  if (!is.null(dim(widths))) usage("Series ", name, " has more than one column.")
  if (!is.numeric(widths)) usage("Series ", name, " is of type ", typeof(widths), ": give widths in millimetres.")
  scaled <- per_mm * as.vector(widths)
  whole <- round(scaled)
  large <- which(!is.na(scaled) & abs(whole) > most_whole)[1]
  if (!is.na(large)) {
    usage("Series ", name, " has ", in_full(widths[large]), " mm for ", years[large], ": that is no ring width.")
  }
  off <- which(abs(scaled - whole) > near_whole)[1]
  if (!is.na(off)) {
    usage("Series ", name, " has ", in_full(widths[off]), " mm for ", years[off],
          ": widths are whole thousandths of a millimetre. Round them with round(rwl, 3).")
  }
  as.integer(whole)
}

# A list of series, each with name, first year, the rows where it stands, and widths from its first to its last; no widths where
# all are NA.
series_of <- function(rwl) {
  if (!is.data.frame(rwl)) usage("rwl is no data frame of ring widths: see read_tucson().")
  names <- names(rwl)
  nameless <- which(is.na(names) | names == "")[1]
  if (!is.na(nameless)) usage("Column ", nameless, " of rwl has no name: give it one with names(rwl)[", nameless, "] <- .")
  if (anyDuplicated(names)) usage("Two series have the name ", names[duplicated(names)][1], ".")
  years <- if (length(rwl) > 0) years_of(rwl)
  setNames(lapply(names, function(name) {
    widths <- thousandths(rwl[[name]], name, years)
    there <- which(!is.na(widths))
    at <- if (length(there) > 0) seq(min(there), max(there)) else integer()
    list(name = name, first = if (length(at) > 0) years[at[1]] else NA_integer_, rows = at, widths = widths[at])
  }), names)
}
