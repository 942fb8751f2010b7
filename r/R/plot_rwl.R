# Pictures of data frames of widths and indices, as dplR's users know them: a bar for the years of each series, or its line above the
# one before.

frame_kinds <- c("segments", "spaghetti")
bar_width <- 3
spaghetti_height <- 1.5 # of a line, in steps from one series to the next

check_kind <- function(type, kinds) {
  if (identical(type, kinds)) return(kinds[1])
  if (!is.character(type) || length(type) != 1 || !(type %in% frame_kinds)) usage("type is \"segments\" or \"spaghetti\".")
  type
}

# A frame with the names of the series at the left, the earliest at the bottom.
open_frame <- function(years, series, xlab, ylab, xlim, ylim, main, ...) {
  if (is.null(xlim)) xlim <- range(years)
  if (is.null(ylim)) ylim <- c(0.5, length(series) + spaghetti_height)
  plot.default(NULL, xlim = xlim, ylim = ylim, xlab = xlab, ylab = ylab, main = main, yaxt = "n", ...)
  axis(2, at = seq_along(series), labels = names(series), las = 1, cex.axis = min(1, 30 / length(series)))
}

draw_frame <- function(x, type, middle, xlab, ylab, xlim, ylim, main, col, ...) {
  if (length(x) == 0 || nrow(x) == 0) usage("There are no series to draw.")
  years <- years_of(x)
  there <- vapply(x, function(column) is.numeric(column) && any(!is.na(column)), NA)
  if (!any(there)) usage("There are no widths or indices to draw.")
  starts <- vapply(x[there], function(column) which(!is.na(column))[1], 0L)
  series <- unclass(x)[names(x)[there][order(starts)]]
  colours <- rep(col, length.out = length(series))
  open_frame(years, series, xlab, ylab, xlim, ylim, main, ...)
  most <- max(abs(unlist(series) - middle), na.rm = TRUE)
  for (place in seq_along(series)) {
    column <- series[[place]]
    height <- if (type == "segments") 0 else if (most > 0) (column - middle) / most * spaghetti_height else 0
    lines(years, ifelse(is.na(column), NA, place + height), col = colours[place], lwd = if (type == "segments") bar_width else 1,
          lend = "butt")
  }
}

plot.rwl <- function(x, type = c("segments", "spaghetti"), xlab = "Year", ylab = "", xlim = NULL, ylim = NULL, main = NULL,
                     col = "grey30", ...) {
  draw_frame(x, check_kind(type, frame_kinds), 0, xlab, ylab, xlim, ylim, main, col, ...)
  invisible(x)
}

plot.rwi <- function(x, type = c("spaghetti", "segments"), xlab = "Year", ylab = "", xlim = NULL, ylim = NULL, main = NULL,
                     col = "grey30", ...) {
  draw_frame(x, check_kind(type, rev(frame_kinds)), 1, xlab, ylab, xlim, ylim, main, col, ...)
  invisible(x)
}

# The methods for dplR's classes stand only where dplR has not brought its own.
.onLoad <- function(libname, pkgname) {
  for (method in list(c("plot", "rwl"), c("plot", "rwi"), c("summary", "rwl"))) {
    if (is.null(utils::getS3method(method[1], method[2], optional = TRUE, envir = globalenv()))) {
      registerS3method(method[1], method[2], get(paste(method, collapse = ".")))
    }
  }
}
