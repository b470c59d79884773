# From a data frame to the files of a job, by `argus start`.

argus_job <- function(data, value, tables, levels = NULL, tree = NULL, lead = NULL, parent = NULL, total = NULL, weight = NULL,
                      holding = NULL, rules = NULL, method = NULL, contributors = FALSE, apriori = NULL, cost = NULL, steps = NULL,
                      nodes = NULL, missing = NULL, round = NULL, folder = NULL, name = "table", force = FALSE) {
  if (!is.data.frame(data)) bad_call("data isn't a data frame.", "Give a data frame, a tibble or a data.table.")
  data <- as.data.frame(data)
  if (anyDuplicated(names(data))) bad_call("data has two columns of one name.", "Rename one of them.", column = names(data)[anyDuplicated(names(data))])
  if (!nrow(data)) bad_call("data has no rows.", "Give the records of the tables.")
  if (base::missing(value)) bad_call("value is missing.", "Say which column is added up, as value = \"turnover\".")
  known_column(value, names(data), "value")
  shapes <- table_words(if (base::missing(tables)) NULL else tables, names(data))
  if (!is.null(weight)) known_column(weight, names(data), "weight")
  if (!is.null(holding)) known_holding(holding, names(data))
  plan <- list(value = value, weight = weight, holding = holding, shapes = shapes, spans = unique(unlist(lapply(shapes, function(it) vapply(it, `[[`, "", "column")))),
               parent = by_column(parent, names(data), "parent"))
  given <- list(levels = by_column(levels, names(data), "levels"), tree = by_column(tree, names(data), "tree"), lead = by_column(lead, names(data), "lead"),
                total = by_column(everywhere(total, plan$spans), names(data), "total"))
  where <- job_folder(folder, name)
  texts <- job_texts(data, plan, places_of(round, plan))
  sheet <- write_sheet(texts, name)
  on.exit(unlink(dirname(sheet$path), recursive = TRUE))
  own <- own_files(given$tree, apriori, plan, where, name, force)
  is_done <- FALSE
  on.exit(if (!is_done) unlink(c(own$made, if (where$is_new) where$path), recursive = TRUE), add = TRUE)
  words <- start_words(plan, given, own, sheet$names, list(rule = rules, method = method, cost = cost, steps = steps, nodes = nodes))
  words <- c("start", sheet$path, words, option_words("missing", missing), if (isTRUE(contributors)) "--contributors",
             "--separator", ",", "--decimal", ".", "--out", where$path, if (isTRUE(force)) "--force")
  done <- call_argus(words)
  if (done$status != 0) stop_start(done$err, done$status, sheet$has_breaks)
  is_done <- TRUE
  told_of_rounding(texts)
  told_of_examples(done$out, rules)
  structure(class = "argus_job", list(
    folder = where$path, file = paste0(name, ".job"), value = value, variables = sheet$spans, tables = shapes, said = done$out,
    factors = lapply(data[sheet$spans], function(it) if (is.factor(it)) trimws(enc2utf8(levels(it)), whitespace = "[ \t]")),
    is_flat = !sheet$spans %in% c(names(given$levels), names(given$tree), names(plan$parent)),
    rules = rules, method = method, contributors = isTRUE(contributors)))
}

# A job by the name of its file, as argus_protect takes it: nothing is known of it but its place.
job_of <- function(job) {
  if (inherits(job, "argus_job")) return(job)
  if (!is.character(job) || length(job) != 1 || is.na(job) || !file.exists(job) || dir.exists(job)) {
    bad_call("This is neither a job nor the name of a job's file.", "Give what argus_job() gave, or a name such as \"turnover.job\".")
  }
  path <- normalizePath(job)
  structure(class = "argus_job", list(folder = dirname(path), file = basename(path)))
}

# Arguments by column: named texts or a named list.
by_column <- function(given, columns, argument) {
  if (is.null(given)) return(list())
  given <- as.list(given)
  if (is.null(names(given)) || any(!nzchar(names(given)))) {
    bad_call(paste0(argument, " has no names."), paste0("Say of which column it is, as ", argument, " = list(", columns[1], " = ..)."))
  }
  for (it in names(given)) known_column(it, columns, argument)
  given
}

# One total for all variables, or one for each that is named.
everywhere <- function(total, spans) {
  if (is.null(total) || !is.null(names(total))) return(total)
  if (length(total) != 1) bad_call("total has several words without names.", "Give one word for all variables, or total = c(region = \"All\").")
  setNames(rep(list(total), length(spans)), spans)
}

# A column of holdings needs an argus that knows them.
known_holding <- function(holding, columns) {
  known_column(holding, columns, "holding")
  help <- call_argus(c("start", "--help"))
  if (!any(grepl("--holding", help$out, fixed = TRUE))) {
    argus_stop("unknown_word", c("This argus doesn't know holdings: its start has no word --holding.", indented("Take a later argus, or leave holding = out.")),
               remedy = "Take a later argus, or leave holding = out.", column = holding)
  }
}

# The decimals to which value and weight are rounded, where it is asked for.
places_of <- function(round, plan) {
  if (is.null(round)) return(list())
  if (is.null(names(round))) {
    if (length(round) != 1) bad_call("round has several numbers without names.", "Give one for the value, or round = c(turnover = 2, weight = 4).")
    round <- setNames(round, plan$value)
  }
  for (it in names(round)) if (!it %in% c(plan$value, plan$weight)) bad_call(paste0("round: ", it, " is neither the value nor the weight."), "Name one of the two.", column = it)
  if (!is.numeric(round) || anyNA(round) || any(round != floor(round) | round < 0 | round > 9)) bad_call("round isn't a number of decimals.", "Give a whole number from 0 to 9.")
  as.list(round)
}

# Where the files of a job come: the folder asked for, or one of this session.
job_folder <- function(folder, name) {
  if (!is.character(name) || length(name) != 1 || !grepl("^[A-Za-z0-9_][A-Za-z0-9_.-]*$", name) || grepl("[.-]$", name)) {
    bad_call("name isn't a name for files.", "Give letters and digits of ASCII, with _, - and . between them.")
  }
  path <- if (is.null(folder)) tempfile("argus-job-") else path.expand(folder)
  is_new <- !dir.exists(path)
  if (is_new && !dir.create(path, showWarnings = FALSE)) bad_call(paste0("The folder ", path, " can't be made."), "Give another one as folder =.")
  list(path = normalizePath(path), is_new = is_new)
}

# The columns that the job needs, as texts, with how many numbers were rounded.
job_texts <- function(data, plan, places) {
  codes <- names(data)[names(data) %in% c(plan$spans, names(plan$parent), unlist(plan$parent), plan$holding)]
  numbers <- c(plan$value, plan$weight)
  twice <- intersect(codes, numbers)
  if (length(twice)) bad_call(paste0("Column ", twice[1], " has two parts in the job."), "A column is the value, or the weight, or spans tables.", column = twice[1])
  for (it in unlist(plan$parent)) known_column(it, names(data), "parent")
  texts <- lapply(setNames(codes, codes), function(it) code_texts(data[[it]], it))
  amounts <- lapply(setNames(numbers, numbers), function(it) amount_texts(data[[it]], it, places[[it]]))
  list(codes = texts, amounts = lapply(amounts, `[[`, "texts"), spans = codes[codes %in% plan$spans],
       rounded = vapply(amounts, function(it) as.integer(it$rounded), 1L), places = places, rows = nrow(data))
}

# Writes the CSV that `start` reads, into a folder of its own. Marks that words of `start` are split at are left out of the names.
write_sheet <- function(texts, name) {
  folder <- tempfile("argus-sheet-")
  dir.create(folder)
  columns <- c(names(texts$codes), names(texts$amounts))
  heads <- make.unique(trimws(gsub("[,=:\"\r\n\t]", "_", good_texts(columns, "names(data)"))), "_")
  fields <- c(lapply(texts$codes, csv_field, TRUE), lapply(texts$amounts, csv_field, FALSE))
  lines <- do.call(paste, c(unname(fields), sep = ","))
  path <- file.path(folder, paste0(name, ".csv"))
  write_lines(c(paste0("\"", heads, "\"", collapse = ","), lines), path)
  has_breaks <- any(vapply(texts$codes, function(it) any(grepl("[\r\n]", unique(it))), NA))
  list(path = path, names = setNames(heads, columns), spans = texts$spans, has_breaks = has_breaks)
}

# Trees and a priori files that are given as data frames or lines become files in the job's folder; those given by name stay where they are.
own_files <- function(trees, priors, plan, where, name, force) {
  if (is.data.frame(priors) || is.character(priors)) priors <- list(priors)
  numbers <- if (is.null(names(priors))) seq_along(priors) else names(priors)
  lines <- c(lapply(names(trees), function(it) tree_lines(trees[[it]], it)),
             lapply(seq_along(priors), function(k) prior_lines(priors[[k]], plan$shapes, numbers[k])))
  names <- c(sprintf("%s_tree%d.hrc", name, seq_along(trees)), sprintf("%s_apriori%s.hst", name, numbers))
  paths <- character()
  made <- character()
  for (k in seq_along(lines)) {
    given <- c(trees, priors)[[k]]
    paths[k] <- if (is.null(lines[[k]])) normalizePath(given) else file.path(where$path, names[k])
    if (is.null(lines[[k]])) next
    if (file.exists(paths[k]) && !isTRUE(force)) {
      unlink(made)
      bad_call(paste0(paths[k], " is there already."), "Give another folder, or force = TRUE to have it replaced.", file = paths[k])
    }
    write_lines(lines[[k]], paths[k])
    made <- c(made, paths[k])
  }
  list(trees = setNames(paths[seq_along(trees)], names(trees)), priors = setNames(paths[length(trees) + seq_along(priors)], numbers), made = made)
}

# The lines of a hierarchy file; NULL where a file is named. A data frame has sdcTable's two columns: leads as "@@", the total at "@"; codes.
tree_lines <- function(tree, column) {
  if (is.character(tree) && length(tree) == 1 && file.exists(tree)) return(NULL)
  if (is.character(tree) && length(tree) > 1) return(tree)
  if (!is.data.frame(tree) || ncol(tree) < 2) {
    bad_call(paste0("tree of ", column, " is neither a file nor a hierarchy."), "Give the name of a hierarchy file, its lines, or a data frame of leads (\"@\", \"@@\") and codes.", column = column)
  }
  leads <- as.character(tree[[1]])
  if (!all(grepl("^@+$", leads)) || leads[1] != "@" || sum(leads == "@") != 1) {
    bad_call(paste0("tree of ", column, ": its first column isn't leads with the total in the first line."), "Write \"@\" for the total, \"@@\" for codes right below it, and so on.", column = column)
  }
  paste0(substring(leads[-1], 3), good_texts(as.character(tree[[2]][-1]), column))
}

# The lines of an a priori file; NULL where a file is named. A data frame has a column for each variable of the table, the keyword, and
# then its numbers.
prior_lines <- function(prior, shapes, number) {
  if (is.character(prior) && length(prior) == 1 && file.exists(prior)) return(NULL)
  number <- suppressWarnings(as.integer(number))
  if (is.na(number) || number < 1 || number > length(shapes)) bad_call("apriori names no table.", "Name its parts by the numbers of the tables, from 1.")
  width <- length(shapes[[number]])
  if (!is.data.frame(prior) || ncol(prior) <= width) {
    bad_call(paste0("apriori of table ", number, " is neither a file nor a data frame with ", width + 1, " columns or more."), "Give a file, or a data frame of the codes, the keyword and its numbers.")
  }
  fields <- lapply(seq_along(prior), function(k) if (k > width + 1) amount_texts(prior[[k]], names(prior)[k])$texts else code_texts(prior[[k]], names(prior)[k]))
  if (any(grepl("[,\r\n]", unlist(fields)))) bad_call(paste0("apriori of table ", number, " has a comma or a line break in a code."), "Write the file by hand, with another mark between its fields.")
  fields[seq_len(width)] <- lapply(fields[seq_len(width)], function(it) ifelse(is.na(it), "", it))
  apply(do.call(cbind, fields), 1, function(it) paste(it[!is.na(it)], collapse = ","))
}

# The words of `start`.
start_words <- function(plan, given, own, heads, job) {
  spelled <- lapply(plan$shapes, function(table) vapply(table, function(it) paste0(heads[[it$column]], if (!is.null(it$level)) paste0(":", it$level)), ""))
  tables <- if (length(spelled) == 1) option_words("by", spelled[[1]]) else option_words("table", vapply(spelled, paste, "", collapse = ","))
  pairs <- function(word, values) if (length(values)) option_words(word, paste0(heads[names(values)], "=", unlist(values)))
  widths <- lapply(given$levels, function(it) paste(it, collapse = ","))
  groups <- lapply(plan$parent, function(it) heads[[it]])
  c("--value", heads[[plan$value]], tables, if (!is.null(plan$weight)) c("--weight", heads[[plan$weight]]),
    if (!is.null(plan$holding)) c("--holding", heads[[plan$holding]]),
    pairs("levels", widths), pairs("tree", own$trees), pairs("lead", given$lead), pairs("parent", groups), pairs("total", given$total),
    if (length(own$priors)) option_words("apriori", paste0(names(own$priors), "=", own$priors)),
    unlist(lapply(names(job), function(it) option_words(it, whole_word(job[[it]])))))
}

# A number as digits alone.
whole_word <- function(it) {
  if (is.numeric(it)) decimal_texts(as.double(it)) else it
}

option_words <- function(word, values) {
  if (length(values)) as.vector(rbind(paste0("--", word), as.character(values)))
}

told_of_rounding <- function(texts) {
  for (it in names(texts$places)) {
    message(sprintf("%s: %s of %s numbers rounded to %d decimals, halves away from zero", it, counted(texts$rounded[[it]]), counted(texts$rows), as.integer(texts$places[[it]])))
  }
}

told_of_examples <- function(said, rules) {
  if (is.null(rules)) message("The rules are start's examples: ", sub("^The rules (\\S+) .*", "\\1", grep("^The rules", said, value = TRUE)[1]),
                              ". Which ones an office needs is for the office to decide: rules =.")
}

counted <- function(number) {
  format(number, big.mark = ",", scientific = FALSE, trim = TRUE)
}

print.argus_job <- function(x, ...) {
  cat("A job of argus, in ", file.path(x$folder, x$file), "\n", sep = "")
  said <- x$said[!grepl("^(  (cd|[^ ]*argus|[^ ]*page) |Written: )", x$said)]
  said <- sub(" Next:$", "", said)
  cat(said, sep = "\n")
  for (k in seq_along(x$tables)) cat("Table ", k, ": ", table_label(x$tables[[k]]), "\n", sep = "")
  invisible(x)
}
