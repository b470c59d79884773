# Tables by formulas: `~ region * industry[2]` is a table by two variables, the second of them down to its level 2.

# The tables of argus_job's argument, each as words of `start` (column and level), with the columns by their names in R.
table_words <- function(tables, columns) {
  if (inherits(tables, "formula") || is.character(tables)) tables <- list(tables)
  if (!is.list(tables) || !length(tables)) bad_call("tables has no table.", "Give formulas, as tables = list(~ region * industry).")
  found <- list()
  for (it in tables) {
    made <- if (inherits(it, "formula")) formula_tables(it) else if (is.character(it)) list(lapply(it, named_variable, columns)) else
      bad_call("tables has something that is neither a formula nor column names.", "Give formulas, as ~ region * industry, or c(\"region\", \"industry\").")
    found <- c(found, made)
  }
  for (it in unlist(lapply(found, function(table) vapply(table, `[[`, "", "column")))) known_column(it, columns, "tables")
  found
}

# A variable by a text: a column, or a column, a colon and a level.
named_variable <- function(word, columns) {
  if (word %in% columns || !grepl(":[0-9]+$", word)) return(list(column = word, level = NULL))
  list(column = sub(":[0-9]+$", "", word), level = as.integer(sub("^.*:", "", word)))
}

known_column <- function(name, columns, argument) {
  if (!is.character(name) || length(name) != 1 || is.na(name)) bad_call(paste0(argument, " isn't the name of a column."), "Give one text.")
  if (!name %in% columns) bad_call(paste0(argument, ": the data frame has no column ", name, "."), paste0("It has ", paste(columns, collapse = ", "), "."), column = name)
  name
}

# The tables of a formula: its largest terms. A table of argus has all its margins, so each term needs all of its parts.
formula_tables <- function(formula) {
  text <- paste(deparse(formula, width.cutoff = 500L), collapse = " ")
  if (length(formula) != 2) bad_call(paste0(text, " has something before its ~."), "Give the column that is added up as value =.")
  if ("." %in% all.names(formula)) bad_call(paste0(text, " has a point, which would be every column."), "Name the columns of the table.")
  made <- tryCatch(terms(formula, keep.order = TRUE), error = function(it) bad_call(paste0(text, " isn't a formula of tables: ", conditionMessage(it)), "Write it as ~ region * industry."))
  factors <- attr(made, "factors")
  if (!length(factors)) bad_call(paste0(text, " has no variable."), "Write it as ~ region * industry.")
  if (attr(made, "intercept") == 0) bad_call(paste0(text, " leaves the total out, and every table of argus has it."), "Take the -1 or +0 out.")
  sets <- lapply(seq_len(ncol(factors)), function(k) which(factors[, k] > 0))
  closed_below(sets, rownames(factors), text)
  largest <- vapply(seq_along(sets), function(k) !any(vapply(sets[-k], function(it) all(sets[[k]] %in% it), NA)), NA)
  variables <- lapply(as.list(attr(made, "variables"))[-1], formula_variable, text)
  lapply(sets[largest], function(it) variables[it])
}

# Refuses a formula that leaves a margin of a table out.
closed_below <- function(sets, labels, text) {
  keys <- vapply(sets, paste, "", collapse = " ")
  for (it in sets) {
    for (k in seq_along(it)) {
      part <- it[-k]
      if (length(part) && !paste(part, collapse = " ") %in% keys) {
        bad_call(paste0(text, " leaves out the margin by ", paste(labels[part], collapse = " and "), " of the table by ",
                        paste(labels[it], collapse = " and "), "; every table of argus has all of its margins."), "Write * in place of : or /.")
      }
    }
  }
}

# A variable of a formula: a name, or a name with a level in brackets.
formula_variable <- function(it, text) {
  if (is.name(it)) return(list(column = as.character(it), level = NULL))
  is_cut <- is.call(it) && identical(it[[1]], quote(`[`)) && length(it) == 3 && is.name(it[[2]])
  level <- if (is_cut) it[[3]]
  if (!is_cut || !is.numeric(level) || length(level) != 1 || is.na(level) || level != floor(level) || level < 1) {
    bad_call(paste0(text, ": ", deparse(it)[1], " is no variable of a table."),
             "Give columns, and levels as industry[2]: level 1 is right below the total. Compute other columns in the data frame first.")
  }
  list(column = as.character(it[[2]]), level = as.integer(level))
}

# A table as people say it: region x industry[2].
table_label <- function(table) {
  paste(vapply(table, function(it) paste0(it$column, if (!is.null(it$level)) paste0("[", it$level, "]")), ""), collapse = " x ")
}
