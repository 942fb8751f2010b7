# The space that stands in where none is given: one long cubic stretch in young wood, then longer ones of degree 2, with slopes that go
# on; the same anew after each scar. The table of templates is made (templates.R); a space of orders up to 1 is never refused for what
# the build works out. Spaces that differ by their first ring alone have the same weights, so one of them is built and kept.

smooth_order <- 1L
most_template_rings <- most_span + 1 # with the rings at both ends of the span
most_templates <- 256 # kept ones
safe_rings <- 5000 # from zero: far within the range of breakpoints, so that a shift changes no verdict
kept_templates <- new.env(parent = emptyenv())

# Where the stretches of so many rings start, and their degrees.
template_stretches <- function(rings, part) {
  fewest <- templates[[length(templates)]]$rings
  where <- if (part) "In a part between scars there " else "There "
  if (rings < fewest) {
    rings <- max(rings, 0)
    usage(where, if (rings == 1) "is " else "are ", count_of(rings, "ring"), ": a curve needs at least ", fewest, ".")
  }
  if (rings > most_template_rings) {
    usage(where, "are ", count_of(rings, "ring"), ", and a curve has at most ", with_commas(most_template_rings),
          " without a scar: give a space with a scar (order -1) where the wood has one.")
  }
  Find(function(template) rings >= template$rings, templates)
}

built_template <- function(rings, first, scars) {
  last <- first + rings - 1
  ends <- c(scars, last)
  counts <- diff(c(first - 1, ends))
  begins <- c(first, scars)
  chosen <- lapply(counts, template_stretches, part = length(ends) > 1)
  breaks <- unlist(Map(function(begin, each) begin + each$starts, begins, chosen))
  degrees <- lapply(chosen, `[[`, "degrees")
  orders <- unlist(lapply(degrees, function(each) c(rep(smooth_order, length(each) - 1), scar)))
  curve_space(c(breaks, last), unlist(degrees), orders[-length(orders)])
}

template_space <- function(rings, first = 0, scars = integer()) {
  rings <- one_whole(rings, "rings")
  first <- one_whole(first, "first", "rings")
  scars <- as.vector(whole_numbers(scars, "scars", "rings"))
  if (rings < 1 || rings > most_template_rings || abs(first) > safe_rings) return(built_template(rings, first, scars))
  key <- paste(c(rings, scars - first), collapse = " ")
  space <- kept_templates[[key]]
  if (is.null(space)) {
    if (length(kept_templates) >= most_templates) rm(list = ls(kept_templates), envir = kept_templates)
    space <- built_template(rings, 0L, scars - first)
    assign(key, space, envir = kept_templates)
  }
  space$breaks <- space$breaks + first
  space
}
