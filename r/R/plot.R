# Pictures with base graphics. Curves are drawn through values of the curve call, indices through those of the index call; a scar
# breaks the line.

colour_curve <- c(ring = "#0072B2", earlywood = "#0072B2", latewood = "#D55E00") # the colours of Okabe and Ito, told apart by the colour-blind
colour_widths <- "grey45"
line_kinds <- c(ring = 1, earlywood = 1, latewood = 2)
positions_drawn <- 512 # in each part between scars
most_pictures <- 9
index_marks <- 3 # on the axis of indices, some
margins_above <- c(0.6, 4.2, 2.2, 0.8)
margins_below <- c(4, 4.2, 0.6, 0.8)
panel_heights <- c(3, 2) # of widths and of indices
least_lines <- 2 # of text: a picture is at least so high and so wide
point_size <- 0.6
dot_sign <- 20
absent_sign <- 4 # a cross

# Positions of each part between scars, evenly over it; on a scar the value is that of the part before.
drawn_positions <- function(space) {
  ends <- unit * sort(c(range(space$breaks), scars_of(space)))
  lapply(seq_len(length(ends) - 1), function(part) {
    start <- ends[part] + (part > 1)
    unique(round(seq(start, ends[part + 1], length.out = min(positions_drawn, ends[part + 1] - start + 1))))
  })
}

# Ring and millimetres of a part's curve, a missing value at each scar.
curve_path <- function(curve, part) {
  parts <- lapply(drawn_positions(curve$space), function(positions) {
    rbind(cbind(positions / unit, unname(curve_values(curve, positions)[, part]) / (unit * per_mm)), NA)
  })
  do.call(rbind, parts)
}

mark_breaks <- function(space) {
  inner <- setdiff(space$breaks, c(range(space$breaks), scars_of(space)))
  abline(v = inner, col = "grey80", lty = "dotted")
  abline(v = scars_of(space), col = "grey50")
}

plot.walzhik_curve <- function(x, wood = NULL, xlab = "Ring", ylab = "Ring width (mm)", xlim = NULL, ylim = NULL, main = NULL,
                               col = NULL, ...) {
  check_curve(x)
  if (is.null(wood)) wood <- parts_named(x$whole)
  if (!is.character(wood) || length(wood) == 0 || !all(wood %in% c(wood_parts, whole_part))) {
    usage("wood is \"earlywood\", \"latewood\" or both.")
  }
  parts <- if (x$whole) whole_part else wood
  if (!all(parts %in% wood_parts) && !x$whole) usage("This curve has two wood parts: say wood = \"earlywood\" or wood = \"latewood\".")
  paths <- lapply(parts, function(part) curve_path(x, part))
  if (is.null(xlim)) xlim <- range(x$space$breaks)
  if (is.null(ylim)) ylim <- range(0, unlist(lapply(paths, function(path) path[, 2])), na.rm = TRUE)
  colours <- if (is.null(col)) colour_curve[parts] else rep(col, length.out = length(parts))
  plot.default(NULL, xlim = xlim, ylim = ylim, xlab = xlab, ylab = ylab, main = main, las = 1, ...)
  mark_breaks(x$space)
  for (part in seq_along(parts)) lines(paths[[part]], col = colours[part], lty = line_kinds[parts[part]], lwd = 2)
  if (!x$whole) legend("topright", parts, col = colours, lty = line_kinds[parts], lwd = 2, bty = "n")
  invisible(x)
}

# A line through whole rings with a break behind each scar: the ring on a scar belongs to the wood before it.
broken_at <- function(rings, widths, scars) {
  x <- c(rings, scars + 1 / 2)
  data.frame(ring = x, width = c(widths, rep(NA, length(scars))))[order(x), ]
}

# The widths of one series behind its curve; an absent ring is a cross.
draw_widths <- function(curve, rings, widths, main, xlim, col, ...) {
  path <- curve_path(curve, 1)
  ylim <- range(0, path[, 2], widths, na.rm = TRUE)
  par(mar = margins_above)
  measured <- broken_at(rings, ifelse(widths == 0, NA, widths), scars_of(curve$space))
  plot(measured, type = "o", pch = dot_sign, cex = point_size, col = colour_widths, xlim = xlim, ylim = ylim, xaxt = "n", xlab = "",
       ylab = "Ring width (mm)", main = main, las = 1, ...)
  axis(1, labels = FALSE)
  absent <- which(widths == 0)
  points(rings[absent], rep(0, length(absent)), pch = absent_sign)
  mark_breaks(curve$space)
  lines(path, col = col, lwd = 2)
}

draw_indices <- function(rings, indices, xlim, xlab, col, ...) {
  ylim <- range(0, 1, indices, na.rm = TRUE)
  par(mar = margins_below)
  plot(rings, indices, type = "n", xlim = xlim, ylim = ylim, yaxt = "n", xlab = xlab, ylab = "Index", ...)
  axis(2, at = pretty(ylim, index_marks), las = 1)
  abline(h = 1, col = col, lwd = 2)
  lines(rings, indices, type = "o", pch = dot_sign, cex = point_size, col = colour_widths)
}

# A grid of pictures, each with a panel for the widths above one for the indices.
picture_grid <- function(count) {
  across <- ceiling(sqrt(count))
  down <- ceiling(count / across)
  cells <- matrix(0, 2 * down, across)
  for (picture in seq_len(count)) {
    row <- 2 * ((picture - 1) %/% across)
    cells[row + 1:2, (picture - 1) %% across + 1] <- 2 * picture - 1:0
  }
  layout(cells, heights = rep(panel_heights, down))
}

# Whether margins and some lines of picture have room in each panel of the grid.
check_room <- function(count) {
  across <- ceiling(sqrt(count))
  down <- ceiling(count / across)
  line <- par("cin")[2] * par("cex") * par("mex")
  width <- across * line * (sum(margins_above[c(2, 4)]) + least_lines)
  heights <- line * (c(sum(margins_above[c(1, 3)]), sum(margins_below[c(1, 3)])) + least_lines)
  needed <- c(width, down * max(heights * sum(panel_heights) / panel_heights))
  if (all(needed <= par("din"))) return()
  usage("The device, ", paste(round(par("din"), 1), collapse = " by "), " inches, is too small for ", count_of(count, "picture"),
        ": these take some ", paste(ceiling(10 * needed) / 10, collapse = " by "),
        ". Open a larger one, or name fewer series, as in plot(fits, series = names(fits)[1]).")
}

draw_series <- function(curve, main, col, ...) {
  record <- curve$fit
  rings <- fitted_rings(record)
  each <- list(name = record$series, widths = record$widths)
  indices <- series_indices(each, curve, record$first_ring, FALSE, "NA")
  xlim <- range(rings)
  draw_widths(curve, rings, record$widths / per_mm, main, xlim, col, ...)
  draw_indices(rings, indices, xlim, if (ring_shift(record) == 0) "Year" else "Ring", col, ...)
}

plot.walzhik_fits <- function(x, series = names(x), main = series, col = "#0072B2", ...) {
  if (!is.character(series) || length(series) == 0 || !all(series %in% names(x))) usage("series are names of the fitted series.")
  if (length(series) > most_pictures) {
    usage("One picture takes at most ", most_pictures, " series, and there are ", length(series),
          ": name them, as in plot(fits, series = names(fits)[1:", most_pictures, "]).")
  }
  before <- par(no.readonly = TRUE)
  on.exit({
    layout(1)
    par(before)
  })
  picture_grid(length(series))
  check_room(length(series))
  mains <- rep(main, length.out = length(series))
  colours <- rep(col, length.out = length(series))
  for (place in seq_along(series)) draw_series(x[[series[place]]], mains[place], colours[place], ...)
  invisible(x)
}
