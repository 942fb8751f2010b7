# What goes wrong, as R's conditions: walzhik_refused where the engine has refused, with its number and place, and walzhik_usage
# where it could not be asked. Each has the call that the user wrote. The words of a refusal are made from those of the table that the
# command shares (words.R), in R's arguments and counted from 1; number and place are the engine's.

largest_place <- 2^32 - 1
counted_from_zero <- c("breakpoint", "stretch", "join", "entry", "ring of the series", "ordinate", "number", "series")
first_remark <- 12 # the number from which on a note tells of no change, but of what a date may hang on
entry_numbers <- c(7, 14) # their place is an entry of the list that is handed on in blocks

# A sentence of the table with what it tells put in the place of the names in braces.
filled <- function(sentence, told) {
  holes <- gregexpr("\\{[a-z_]+\\}", sentence)
  names <- gsub("[{}]", "", regmatches(sentence, holes)[[1]])
  if (length(names) > 0) {
    regmatches(sentence, holes) <- list(vapply(told[names], as_text, ""))
  }
  sentence
}

as_text <- function(x) if (is.numeric(x)) format(x, decimal.mark = ".", scientific = FALSE, trim = TRUE) else as.character(x)

# The words and the remedy of a refusal, and of a further row where there is one. Where no row of the table fits, number and place still
# stand.
words_for <- function(number, place, given) {
  facts <- facts_of(number, place, given)
  asked <- c(facts, list(place = place))
  row <- if (!is.null(facts)) chosen(number, kind_of(given), asked)
  if (is.null(row)) {
    return(list(words = sprintf("There are no words for it here; the manual lists number %s.", as_text(number)), remedy = ""))
  }
  told <- c(facts, list(place = place + (row[["counts"]] %in% counted_from_zero)))
  then <- chosen(number, paste0(kind_of(given), "-then"), asked)
  rows <- c(list(row), if (!is.null(then)) list(then))
  said <- vapply(rows, function(each) filled(each[["words"]], told), "")
  list(words = paste(said, collapse = " "), remedy = rows[[length(rows)]][["remedy"]])
}

refusal_condition <- function(number, place, given, call) {
  said <- words_for(number, place, given)
  if (!is.null(given$lines)) said$words <- paste0("Line ", as_text(given$lines[place + 1]), ": ", said$words)
  series <- given$series
  message <- if (is.null(series)) said$words else paste0("Series ", series, ": ", said$words)
  if (nzchar(said$remedy)) message <- paste0(message, "\n", said$remedy)
  structure(class = c("walzhik_refused", "error", "condition"),
            list(message = sprintf("%s\n(no=%s,%s)", message, as_text(number), as_text(place)), call = call, number = number,
                 place = place, words = said$words, remedy = said$remedy, series = series))
}

# The functions for users: those that are exported, and the methods.
for_users <- function(namespace) {
  names <- c(getNamespaceExports(namespace), grep(methods_pattern, ls(namespace, all.names = TRUE), value = TRUE))
  mget(names, envir = namespace)
}

methods_pattern <- "^(coef|fitted|plot|predict|print|residuals|summary|\\[)\\.(walzhik_[a-z_]+|rwl|rwi)$"

# The call that the user wrote: the innermost one of a function for users that is not made by a function of this package.
user_call <- function() {
  namespace <- environment(usage)
  frames <- sys.frames()
  parents <- sys.parents()
  functions <- for_users(namespace)
  is_ours <- logical(length(frames))
  call <- NULL
  for (place in seq_along(frames)) {
    called <- sys.function(place)
    home <- environment(called)
    is_ours[place] <- identical(home, namespace) || any(vapply(frames[is_ours], identical, NA, home))
    from_outside <- parents[place] == 0 || !is_ours[parents[place]]
    is_for_users <- identical(home, namespace) && any(vapply(functions, identical, NA, called))
    if (from_outside && is_for_users) call <- sys.call(place)
  }
  call
}

# The engine's answer, or its refusal as a condition; `before` is how many entries were handed on in earlier blocks.
asked <- function(answer, given, before = 0) {
  number <- answer$reply[["number"]]
  if (number != 0) {
    place <- answer$reply[["place"]] + if (number %in% entry_numbers) before else 0
    stop(refusal_condition(number, place, given, user_call()))
  }
  answer
}

# The engine's answers about a list of any length: it takes so many entries in one call. `ask` is given the entries of a block.
asked_in_blocks <- function(entries, given, ask) {
  if (entries <= most_positions) return(list(asked(ask(seq_len(entries)), given)))
  lapply(seq(0L, entries - 1L, by = most_positions), function(before) {
    asked(ask(before + seq_len(min(most_positions, entries - before))), given, before)
  })
}

usage <- function(...) {
  stop(structure(class = c("walzhik_usage", "error", "condition"), list(message = paste0(...), call = user_call())))
}

# What was changed or left out in a file, as one message: changes by rising line, then a sentence for each kind of remark. `notes` is a
# data frame of lines, first and last, words, and numbers where the engine has told them.
show_notes <- function(notes) {
  if (nrow(notes) == 0) return(invisible())
  is_remark <- !is.na(notes$number) & notes$number >= first_remark
  kinds <- split(notes, ifelse(is_remark, notes$number, -nrow(notes):-1))
  told <- vapply(kinds[order(as.numeric(names(kinds)))], note_sentence, "")
  message(structure(class = c("walzhik_notes", "message", "condition"),
                    list(message = paste0(told, "\n", collapse = ""), call = user_call(), notes = notes)))
}

# A sentence for one or more runs of lines with the same words.
note_sentence <- function(notes) {
  runs <- ifelse(notes$line == notes$last, ring_names(notes$line), paste(ring_names(notes$line), "to", ring_names(notes$last)))
  is_one <- nrow(notes) == 1 && notes$line == notes$last
  paste0(if (is_one) "Line " else "Lines ", paste(runs, collapse = ", "), ": ", notes$words[1], ".")
}

# Arguments that a method does not have are told, not passed over.
no_more <- function(...) {
  if (...length() == 0) return(invisible())
  names <- setdiff(names(list(...)), "")
  usage("There is no argument ", if (length(names) > 0) names[1] else "for what is given", ": see the help page of this method.")
}
