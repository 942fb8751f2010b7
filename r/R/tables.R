# Tables of ring widths (CSV and TSV): a front that makes series of a text, and a writer. A header line has the names, the first
# column the year, a row a year. Nothing here is proved. It refuses what it can't place; read_widths() has its series written and read by
# the engine before anything uses them.

separators <- c(";", "\t", ",")
begin_with <- "Begin it with a line such as year,NAME1,NAME2."
consecutive <- "Put a row for each year, by rising year; cells outside a series stay empty."

# The series of a text: names, first years, widths, and the line of each.
draw_table <- function(text, asked, notes) {
  decoded <- decoded_text(without_marks(text, notes))
  separator <- separator_of(decoded)
  kept <- table_rows(decoded, separator, notes)
  if (!grepl("[\r\n]$", decoded)) tell(notes, kept$line[length(kept$line)], "no line end stands behind the last row; see that it is whole")
  header <- kept$cells[[1]]
  lines <- kept$line[-1]
  rows <- kept$cells[-1]
  years <- table_years(vapply(rows, `[`, "", 1), lines, asked, notes)
  if (separator == ";") rows <- with_points(rows, lines)
  bad <- which(lengths(rows) != length(header))[1]
  if (!is.na(bad)) {
    unreadable(lines[bad], paste0("it has ", length(rows[[bad]]), " cells, but the header has ", length(header), "."),
               "Give every row a cell for each name, empty where there is no width.")
  }
  cells <- matrix(unlist(rows), nrow = length(header))
  lapply(seq_along(header)[-1], function(at) table_series(header[at], cells[at, ], kept$line[1], lines, years, asked, notes))
}

# The text; where it is no UTF-8, a character for each byte.
decoded_text <- function(bytes) {
  text <- rawToChar(bytes)
  if (!validUTF8(text)) return(by_byte(bytes))
  Encoding(text) <- "UTF-8"
  text
}

# The rows of a text and the line that each ends on, with cells without outer blanks. Quotation marks are taken strictly: a cell that
# begins with one ends with one, before a separator or the end of its line, and those within are doubled.
table_cells <- function(text, separator) {
  lines <- strsplit(gsub("\r\n?", "\n", text), "\n", fixed = TRUE)[[1]]
  cells <- strsplit(paste0(lines, separator), separator, fixed = TRUE)
  has_quotes <- grepl("\"", lines, fixed = TRUE)
  ends <- seq_along(lines)
  place <- 1
  while (!is.na(place <- which(has_quotes & seq_along(lines) >= place)[1])) {
    read <- quoted_row(lines, place, has_quotes, separator)
    cells[[place]] <- read$cells
    ends[place] <- read$end
    if (read$end > place) cells[(place + 1):read$end] <- list(NULL)
    place <- read$end + 1
  }
  is_row <- lengths(cells) > 0
  list(line = ends[is_row], cells = lapply(cells[is_row], function(row) gsub("^[ \t]+|[ \t]+$", "", row)))
}

# The cells of the row that begins on this line, and the line that it ends on: a quoted cell may go on over lines.
quoted_row <- function(lines, place, has_quotes, separator) {
  pattern <- sprintf("[%s](?:\"(?:[^\"]++|\"\")*+\"|[^%s\"][^%s]*+)?+", separator, separator, separator)
  end <- place
  repeat {
    row <- paste0(separator, paste(lines[place:end], collapse = "\n"))
    starts <- gregexpr(pattern, row, perl = TRUE)[[1]]
    lasts <- starts + attr(starts, "match.length") - 1
    gap <- which(c(starts[-1], nchar(row) + 1) != lasts + 1)[1]
    if (is.na(gap)) break
    if (lasts[gap] > starts[gap]) refuse_quotes(end, paste0("'", separator, "' expected after '\"'"))
    further <- which(has_quotes & seq_along(lines) > end)[1] # only there the cell may end
    if (is.na(further)) refuse_quotes(length(lines), "unexpected end of data")
    end <- further
  }
  cells <- substring(row, starts + 1, lasts)
  is_quoted <- startsWith(cells, "\"")
  cells[is_quoted] <- gsub("\"\"", "\"", substring(cells[is_quoted], 2, nchar(cells[is_quoted]) - 1), fixed = TRUE)
  list(cells = cells, end = end)
}

refuse_quotes <- function(line, fault) {
  unreadable(line, paste0("the table's quotation marks are not in order (", fault, ")."), "Save the table again as CSV.")
}

# What stands between the cells, by the first line that is not blank.
separator_of <- function(text) {
  lines <- strsplit(text, "\n", fixed = TRUE)[[1]]
  place <- which(grepl("[^ \t\r\n\v\f]", lines))[1]
  if (is.na(place)) unreadable(1, "the table is empty.", begin_with)
  wrong <- NULL
  for (separator in separators) {
    cells <- tryCatch(table_cells(lines[place], separator), walzhik_unreadable = identity)
    if (inherits(cells, "condition")) { # by this separator; that of the table may be another
      wrong <- cells
      next
    }
    row <- cells$cells[lengths(cells$cells) > 1 | vapply(cells$cells, `[`, "", 1) != ""][[1]]
    if (length(row) > 1 && !grepl("[;,\t]", row[1])) return(separator)
  }
  if (!is.null(wrong)) unreadable(place, wrong$words, wrong$remedy)
  unreadable(place, "it is no header of a table: the year's column and the names, with commas, semicolons or tabs between.",
             sub("it", "the table", begin_with))
}

# The header and the rows that are not empty.
table_rows <- function(text, separator, notes) {
  rows <- table_cells(text, separator)
  is_filled <- vapply(rows$cells, function(row) any(row != ""), NA)
  tell(notes, rows$line[!is_filled], "an empty row was left out")
  if (!any(is_filled)) unreadable(1, "the table is empty.", begin_with)
  kept <- list(line = rows$line[is_filled], cells = rows$cells[is_filled])
  header <- kept$cells[[1]]
  line <- kept$line[1]
  if (grepl(year_digits, header[1])) {
    unreadable(line, paste0("the table begins with the year ", header[1], ", without a header."), begin_with)
  }
  nameless <- which(header[-1] == "")[1]
  if (!is.na(nameless)) {
    unreadable(line, paste0("column ", nameless + 1, " has no name."), "Name it, or take the column out.")
  }
  if (length(kept$line) == 1) unreadable(line, "no rows follow the header.", consecutive)
  kept
}

# The years of the rows, which follow each other.
table_years <- function(texts, lines, asked, notes) {
  is_year <- grepl(year_digits, texts)
  said <- rep(NA_integer_, length(texts))
  said[is_year] <- as.integer(texts[is_year])
  years <- placed_years(said, asked, lines, notes)
  is_zero <- isFALSE(asked$year_zero) & is_year & said == 0
  follows <- c(TRUE, diff(years) == 1)
  bad <- which(!is_year | is_zero | !follows)[1]
  if (is.na(bad)) return(years)
  if (!is_year[bad]) year_in(texts[bad], "the year", lines[bad])
  if (is_zero[bad]) refuse_year_zero(lines[bad])
  is_without <- is.null(asked$year_zero) && years[bad - 1] == -1 && said[bad] == 1
  unreadable(lines[bad], paste0("the year ", as_text(said[bad]), " stands where ", as_text(years[bad - 1] + 1), " comes next."),
             if (is_without) "year_zero = FALSE says that there is no year 0." else consecutive)
}

# The rows with points for the commas of widths, where semicolons stand between cells; a table has one of the two.
with_points <- function(rows, lines) {
  widths <- lapply(rows, `[`, -1)
  cells <- unlist(widths)
  has_both <- cumsum(grepl(",", cells, fixed = TRUE)) > 0 & cumsum(grepl(".", cells, fixed = TRUE)) > 0
  bad <- which(has_both)[1]
  if (!is.na(bad)) {
    unreadable(rep(lines, lengths(widths))[bad], "widths have both a comma and a point in this table, so that one may part thousands.",
               "Write all widths in one of the two ways.")
  }
  lapply(rows, function(row) c(row[1], chartr(",", ".", row[-1])))
}

# The series of a column: its cells from the first to the last that is not empty.
table_series <- function(name, cells, line, lines, years, asked, notes) {
  shown <- quoted(utf8_bytes(name))
  there <- which(cells != "")
  if (length(there) == 0) {
    unreadable(line, paste0("series ", shown, " has no widths."), "Take the column out, or put its widths in.")
  }
  at <- seq(min(there), max(there))
  empty <- setdiff(at, there)
  if (length(empty) > 0) {
    unreadable(lines[empty[1]], paste0("series ", shown, " has an empty cell within, in ", as_text(years[empty[1]]), "."),
               "Put in the width, or 0 for an absent ring.")
  }
  widths <- thousandths_in(cells[at], if (is.null(asked$unit)) "mm" else asked$unit, asked, lines[at], notes)
  list(line = line, name = utf8_bytes(name), first = years[at[1]], widths = widths)
}

# Series as a table, in millimetres.
table_text <- function(series, separator) {
  names <- vapply(series, `[[`, "", "name")
  first <- vapply(series, `[[`, 0L, "first")
  years <- seq(min(first), max(first + lengths(lapply(series, `[[`, "widths")) - 1L))
  is_quoted <- grepl(paste0("[\"", separator, "]"), names)
  names[is_quoted] <- paste0("\"", gsub("\"", "\"\"", names[is_quoted], fixed = TRUE), "\"")
  columns <- lapply(series, function(each) {
    cells <- rep("", length(years))
    cells[each$first - years[1] + seq_along(each$widths)] <- sprintf("%d.%03d", each$widths %/% per_mm, each$widths %% per_mm)
    cells
  })
  rows <- do.call(paste, c(list(as.character(years)), unname(columns), sep = separator))
  paste0(c(paste(c("year", names), collapse = separator), rows), "\n", collapse = "")
}
