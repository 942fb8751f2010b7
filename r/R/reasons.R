# Which row of the table of words a refusal gets, and the facts of lists that its conditions and its sentence name. The choice is that
# of the command (python/src/walzhik/words/table.py): the first row of the number, for what the call was given, whose conditions hold.
# Number and place are the engine's; a fact that is not there is NA. `given` holds breaks, degrees and orders and, by call, coefs with
# whole, positions, widths with first and latewood, width or ordinates.

unit <- 256 # positions are in 256ths of a ring, values in 256ths of a thousandth of a millimetre
per_mm <- 1000
wood_parts <- c("earlywood", "latewood")
scar <- -1L
most_part_segments <- 12L
most_span <- 2000L
most_width <- 99999L
signs <- list("=" = `==`, "!=" = `!=`, "<" = `<`, "<=" = `<=`, ">" = `>`, ">=" = `>=`)

fact <- function(facts, name) if (name %in% names(facts)) facts[[name]] else stop("the words name ", name, ", which is no fact")

is_there <- function(value) !is.na(value) && !isFALSE(value)

# Whether a condition holds: NAME, no NAME, NAME sign OTHER, or NAME outside LEAST..MOST.
holds <- function(condition, facts) {
  parts <- strsplit(condition, " ", fixed = TRUE)[[1]]
  if (length(parts) == 1) return(is_there(fact(facts, parts)))
  if (parts[1] == "no") return(!is_there(fact(facts, parts[2])))
  value <- fact(facts, parts[1])
  if (parts[2] == "outside") {
    limits <- as.numeric(strsplit(parts[3], "..", fixed = TRUE)[[1]])
    return(isTRUE(value < limits[1] || value > limits[2]))
  }
  other <- if (grepl("^-?[0-9]+$", parts[3])) as.numeric(parts[3]) else fact(facts, parts[3])
  isTRUE(signs[[parts[2]]](value, other))
}

# The first row that fits, or NULL.
chosen <- function(number, given, facts) {
  for (row in refusal_words[startsWith(names(refusal_words), paste0(as_text(number), " "))]) {
    conditions <- strsplit(row[["when"]], ", ", fixed = TRUE)[[1]]
    if (given %in% strsplit(row[["given"]], " ", fixed = TRUE)[[1]] && all(vapply(conditions, holds, NA, facts))) return(row)
  }
}

# What the call was given, as the table names it.
kind_of <- function(given) {
  if (!is.null(given$file)) "file" else if (!is.null(given$text)) "text" else if (is.null(given$breaks)) "series" else "lists"
}

# The facts of a refusal, or NULL where what was given shows none.
facts_of <- function(number, place, given) {
  find <- switch(kind_of(given), file = file_facts, text = text_facts, series = series_facts, lists = list_facts)[[as.character(number)]]
  if (!is.null(find)) find(given, place)
}

count_of <- function(number, noun) {
  plural <- if (number == 1) noun else paste0(noun, if (endsWith(noun, "ch")) "es" else "s")
  paste(if (number == 0) "no" else with_commas(number), plural)
}

# The first segment of each part between scars, and the segment past its last, counted from 0.
parts_of <- function(given) {
  cuts <- which(given$orders == scar)
  cbind(first = c(0, cuts), end = c(cuts, length(given$degrees)))
}

# The count of rows, and how it comes about.
rows_sum <- function(given) {
  conditions <- sum(given$orders + 1)
  segments <- length(given$degrees)
  rows <- sum(given$degrees) + segments - conditions
  shown <- if (segments > most_part_segments) {
    sprintf("%d + %d - %d", as.integer(sum(given$degrees)), segments, as.integer(conditions))
  } else {
    taken <- given$orders[given$orders != scar] + 1
    paste0(paste0("(", given$degrees, " + 1)", collapse = " + "), paste0(" - ", taken, recycle0 = TRUE, collapse = ""))
  }
  list(rows = rows, sum = paste(shown, "=", as_text(rows)))
}

ring_at <- function(position) {
  rest <- position %% unit
  paste0("ring ", as_text(position %/% unit), if (rest != 0) paste0(" and ", rest, "/", unit))
}

millimetres <- function(value) sprintf("%.3f", floor((2 * value + unit) / (2 * unit)) / per_mm)

of_lengths <- function(given, place) {
  segments <- length(given$degrees)
  noun <- if (is.null(given$widths)) "position" else "ring"
  entries <- length(if (is.null(given$widths)) given$positions else given$widths)
  list(rings = length(given$widths), entries = count_of(entries, noun), segments = segments, stretches = count_of(segments, "stretch"),
       breakpoints_needed = count_of(segments + 1, "breakpoint"), orders_needed = count_of(segments - 1, "order"),
       breakpoints = count_of(length(given$breaks), "breakpoint"), orders = count_of(length(given$orders), "order"))
}

of_breakpoint <- function(given, place) {
  breaks <- as.numeric(given$breaks)
  ring <- breaks[place + 1]
  parts <- parts_of(given)
  first <- c(parts[parts[, "end"] == place, "first"], NA)[[1]]
  rings <- ring - breaks[first + 1]
  list(ring = ring, before = place, ring_before = if (place > 0) breaks[place] else NA, first = first + 1, ring_first = breaks[first + 1],
       rings = rings, span = if (is.na(rings)) NA else with_commas(rings))
}

# The ends and the degree of a segment, where there is one, and how many there are.
of_segment <- function(given, place) {
  segments <- length(given$degrees)
  list(start = given$breaks[place + 1], end = given$breaks[place + 2], degree = given$degrees[place + 1], segments = segments,
       stretches = count_of(segments, "stretch"))
}

of_order <- function(given, place) {
  degrees <- given$degrees[place + 1:2]
  list(ring = given$breaks[place + 2], order = given$orders[place + 1], degree = min(degrees), most = min(degrees) - 1,
       degree_before = degrees[1], degree_after = degrees[2])
}

of_part <- function(given, place) {
  parts <- parts_of(given)
  end <- c(parts[parts[, "first"] == place, "end"], place)[[1]]
  list(parts = nrow(parts), segments = end - place, stretches = count_of(end - place, "stretch"), start = given$breaks[place + 1],
       end = given$breaks[end + 1])
}

of_coefficients <- function(given, place) {
  needed <- rows_sum(given)
  listed <- length(given$coefs) / 2
  noun <- if (isTRUE(given$whole)) "coefficient" else "row"
  column <- if (isTRUE(given$whole)) "" else paste0(", \"", wood_parts[place %% 2 + 1], "\"")
  list(listed = listed, needed = needed$rows, pairs = count_of(listed, noun), pairs_needed = count_of(needed$rows, noun),
       sum = needed$sum, entry = paste0(place %/% 2 + 1, column), number = given$coefs[place + 1])
}

of_position <- function(given, place) {
  first <- given$breaks[1]
  last <- given$breaks[length(given$breaks)]
  position <- if (is.null(given$widths)) given$positions[place + 1] else NA
  list(first = first, last = last, least = unit * first, most = unit * last, ring = if (is.null(given$widths)) NA else given$first + place,
       position = position, at = if (is.na(position)) NA else ring_at(position))
}

# The ring and the order of a join, its two sides, and the first condition that the ordinates miss there.
of_join <- function(given, place) {
  side <- function(segment) {
    rings <- given$breaks[segment + 2] - given$breaks[segment + 1]
    paste0("degree ", given$degrees[segment + 1], " over ", count_of(rings, "ring"))
  }
  list(ring = given$breaks[place + 2], order = given$orders[place + 1], before = side(place), after = side(place + 1),
       miss = if (is.null(given$ordinates)) NA else missed(given, place))
}

of_index <- function(given, place) {
  width <- given$widths[place + 1]
  ring <- given$first + place
  is_width <- width >= 0 && width <= most_width
  read <- if (is_width) .Call(C_curve, given$breaks, given$degrees, given$orders, given$coefs, as.integer(unit * ring))
  value <- if (is_width) read$values[given$latewood + 1, 1] else NA
  list(ring = ring, width = width, wood = wood_parts[given$latewood + 1], height = value, value = millimetres(value))
}

of_reach <- function(given, place) {
  list(start = given$breaks[1], end = given$breaks[length(given$breaks)], wood = wood_parts[given$latewood + 1],
       width = millimetres(unit * given$width))
}

of_ordinate <- function(given, place) {
  list(ordinates = count_of(length(given$ordinates), "ordinate"),
       ordinates_needed = count_of(sum(given$degrees) + length(given$degrees), "ordinate"), number = given$ordinates[place + 1])
}

list_facts <- list("2" = of_lengths, "3" = of_breakpoint, "4" = of_segment, "5" = of_order, "6" = of_coefficients, "7" = of_position,
                   "8" = of_join, "9" = of_join, "14" = of_index, "15" = of_part, "16" = of_reach, "17" = of_segment, "18" = of_ordinate,
                   "19" = of_join, "20" = of_join)
