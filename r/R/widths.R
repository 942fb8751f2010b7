# Ring widths in any of the forms that laboratories hold: Tucson (rwl), Heidelberg (fh) and tables (csv, tsv). The fronts for Heidelberg
# files and tables are not proved: what they make of a text is written by the engine's proved writer and read back by its proved
# reader, and only that is used; what is written in these forms is read back by the front and must be the same.

forms <- c(rwl = "rwl", fh = "fh", csv = "csv", tsv = "csv") # by ending
looked_at <- 4096L # bytes at a file's start

read_widths <- function(file, from = NULL, unit = NULL, first = NULL, year_zero = NULL, rename = FALSE, round = FALSE, header = NULL,
                        strict = FALSE) {
  form <- said_form(from, "from")
  asked <- list(unit = said_unit(unit, names(width_units)), first = if (!is.null(first)) one_whole(first, "first", "years"),
                year_zero = if (!is.null(year_zero)) one_flag(year_zero, "year_zero"), renames = one_flag(rename, "rename"),
                rounds = one_flag(round, "round"))
  one_flag(strict, "strict")
  text <- bytes_of(file)
  if (is.null(form)) form <- form_of(file, text)
  if (form == "rwl") {
    refuse_options(!is.null(first), !is.null(year_zero), rename, round)
    return(read_tucson(text, strict = strict, header = header, unit = unit))
  }
  if (strict || !is.null(header)) usage("strict and header are for Tucson files, and this is taken for another: from says otherwise.")
  front_frame(text, form, asked)
}

one_flag <- function(x, what) {
  if (!is.logical(x) || length(x) != 1 || is.na(x)) usage(what, " is TRUE or FALSE.")
  as.vector(x)
}

said_form <- function(form, what) {
  if (is.null(form)) return(NULL)
  if (!is.character(form) || length(form) != 1 || !(form %in% names(forms))) {
    usage(what, " is \"rwl\", \"fh\", \"csv\" or \"tsv\".")
  }
  as.vector(form)
}

said_unit <- function(unit, units) {
  if (is.null(unit)) return(NULL)
  if (!is.character(unit) || length(unit) != 1 || !(unit %in% units)) usage("unit is ", paste0("\"", units, "\"", collapse = " or "), ".")
  as.vector(unit)
}

refuse_options <- function(...) {
  if (any(...)) usage("This is taken for a Tucson file: first, year_zero, rename and round are for others. from says otherwise.")
}

ending_of <- function(file) tolower(sub("^.*[.]|^[^.]*$", "", basename(file)))

# The form of a file by its ending, else by its content; what is no other is taken for a Tucson text.
form_of <- function(file, text) {
  known <- if (is.character(file)) forms[ending_of(file)] else NA
  if (!is.na(known)) return(known)
  head <- head(text, looked_at)
  head <- by_byte(head[head != 0])
  if (grepl("^(\u00ef\u00bb\u00bf)?[ \t\r\n\v\f]*HEADER:", head, ignore.case = TRUE)) return("fh")
  if (grepl("^(\u00ef\u00bb\u00bf)?[ \t\r\n\v\f]*\"?year\"?[,;\t]", head, ignore.case = TRUE)) "csv" else "rwl"
}

# The data frame of a text that a front reads; what the front changed or left out is told.
front_frame <- function(text, form, asked) {
  notes <- new_notes()
  read <- front_read(text, form, asked, notes)
  show_notes(listed_notes(notes))
  rwl_frame(sub(" +$", "", read$name), read$first, read$count, read$widths)
}

# The series that a front draws from a text, as the engine reads them back, and the engine's text of them.
front_read <- function(text, form, asked, notes) {
  found <- if (form == "fh") draw_heidelberg(text, asked, notes) else draw_table(text, asked, notes)
  if (length(found) == 0) unreadable(1, "the file holds no series.", "See that it is the right file, and whole.")
  lines <- vapply(found, function(each) as.numeric(each$line), 0)
  names <- fitting_names(lapply(found, `[[`, "name"), lines, asked$renames, notes)
  given <- list(names = padded_names(names), years = integers_of(found, "first"),
                counts = vapply(found, function(each) length(each$widths), 0L), widths = integers_of(found, "widths"), lines = lines)
  written <- asked(.Call(C_tucson_write, given$names, given$years, given$counts, given$widths), given)$text
  read <- asked(.Call(C_tucson_read, written), list(text = written))
  is_same <- identical(padded_names(read$name), given$names) && identical(read$first, given$years) &&
    all(read$count == given$counts) && identical(read$widths, given$widths)
  if (!is_same) unreadable(1, "the engine reads other series than the front.", send_it)
  c(read, list(text = written))
}

write_widths <- function(x, file = NULL, to = NULL) {
  to <- said_form(to, "to")
  if (is.null(to)) to <- ending_to_write(file)
  series <- series_of(x)
  if (length(series) == 0) usage("There are no series to write.")
  strict <- series_text(series)
  text <- if (forms[to] == "rwl") strict else front_text(series, to, strict)
  if (is.null(file)) return(text)
  write_whole(text, file)
  invisible(file)
}

ending_to_write <- function(file) {
  known <- if (is.character(file) && length(file) == 1 && !is.na(file)) forms[ending_of(file)] else NA
  if (is.na(known)) usage("Widths are written as .rwl, .fh, .csv or .tsv: to says which.")
  ending_of(file)
}

# The text of a form that has no proved writer; it is read back, and must give what the engine writes.
front_text <- function(series, to, strict) {
  names <- vapply(series, `[[`, "", "name")
  early <- names[startsWith(names, " ")]
  if (length(early) > 0) {
    usage("The name ", quoted(charToRaw(early[1])), " begins with a blank, which is lost there. Give the series another name.")
  }
  series <- lapply(series, function(each) replace(each, "name", sub(" +$", "", each$name)))
  made <- if (to == "fh") heidelberg_text(series) else table_text(series, if (to == "tsv") "\t" else ",")
  text <- charToRaw(made)
  asked <- list(renames = FALSE, rounds = FALSE)
  if (!identical(front_read(text, forms[to], asked, new_notes())$text, strict)) {
    usage("What was written reads back as other series. ", send_it)
  }
  text
}
