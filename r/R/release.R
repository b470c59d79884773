# A release: what argus made of a job, checked.

argus_protect <- function(job, doubts = TRUE) {
  job <- job_of(job)
  done <- call_argus(c("run", job$file), job$folder)
  if (done$status != 0) stop_argus(done, job)
  answer <- done$out[1]
  checked <- call_argus(c("check", job$file), job$folder)
  if (checked$status != 0) stop_argus(checked, job)
  said <- if (isTRUE(doubts)) explained(job, answer, "run") else character()
  release <- structure(class = "argus_release", list(
    job = job, answer = answer, numbers = numbers_of(answer), checked = checked$out[1], doubts = sub("^ +", "", said),
    listing = listing_of(job, "--released"), relations = listing_of(job, "--relations"), published = published_of(job), kept = new.env(parent = emptyenv())))
  release$kept$intervals <- NULL
  if (length(said)) argus_warn("doubt", c("argus released this job, and explain doubts it:", indented(said)))
  release
}

# The numbers of argus's line, by their names: "released: 13 records, 0 skipped, ..".
numbers_of <- function(answer) {
  parts <- strsplit(sub("^[a-z]+: ", "", answer), ", ", fixed = TRUE)[[1]]
  names <- gsub(" ", "_", sub("^[0-9]+ ", "", parts))
  as.list(setNames(as.integer(sub(" .*", "", parts)), names))
}

# A listing of `argus cells`, as texts.
listing_of <- function(job, ...) {
  path <- tempfile("argus-cells-")
  on.exit(unlink(path))
  done <- call_argus(c("cells", job$file, ...), job$folder, path)
  if (done$status != 0) {
    done$out <- done$err
    stop_argus(done, job, explains = FALSE)
  }
  read_csv(path)
}

# The tables as they are published, by their numbers.
published_of <- function(job) {
  lines <- grep("^[ \t]*<WRITETABLE>", read_lines(file.path(job$folder, job$file)), value = TRUE, ignore.case = TRUE)
  parts <- regmatches(lines, regexec("\\([ \t]*([0-9]+)[ \t]*,[ \t]*\"([^\"]+)\"", lines))
  numbers <- as.integer(vapply(parts, `[`, "", 2))
  files <- vapply(parts, `[`, "", 3)
  found <- lapply(files, function(it) read_csv(if (startsWith(it, "/")) it else file.path(job$folder, it)))
  found[order(numbers)]
}

# The columns of a listing of released cells that aren't codes.
BEFORE <- c("cell", "tables")
BEHIND <- c("value", "records", "largest", "second", "status", "rules", "up", "down", "price", "low", "high", "release", "origin")

# The codes of a listing, by the names of the data frame.
codes_of <- function(release) {
  listing <- release$listing
  at <- seq(length(BEFORE) + 1, length.out = ncol(listing) - length(BEFORE) - length(BEHIND))
  codes <- listing[at]
  if (!is.null(release$job$variables)) names(codes) <- release$job$variables
  codes
}

# A column of a listing that isn't a code.
facts_of <- function(release, name) {
  listing <- release$listing
  if (name %in% BEFORE) return(listing[[match(name, BEFORE)]])
  listing[[ncol(listing) - length(BEHIND) + match(name, BEHIND)]]
}

# Whether the job rounds: then no cell is hidden or shown, but has an amount.
is_rounded <- function(release) {
  !facts_of(release, "release")[1] %in% c("hidden", "shown")
}

is_hidden <- function(release) {
  facts_of(release, "release") == "hidden"
}

# Whether each cell is in a table.
in_table <- function(release, table) {
  tables <- facts_of(release, "tables")
  different <- unique(tables)
  within <- vapply(strsplit(different, " ", fixed = TRUE), function(it) as.character(table) %in% it, NA)
  within[match(tables, different)]
}

# Whether each cell is one of the lowest codes of a table: none of the table's sums is of it.
is_lowest <- function(release, table) {
  inside <- in_table(release, table)
  sums <- release$relations
  first <- as.integer(sub(" .*", "", sums$parts)) + 1L
  totals <- as.integer(sums$total)[inside[first]] + 1L
  inside[totals] <- FALSE
  inside
}

table_count <- function(release) {
  max(as.integer(unlist(strsplit(unique(facts_of(release, "tables")), " ", fixed = TRUE))))
}

# What is hidden, table by table: all cells, and of the lowest, so that nothing counts twice, records and value.
shares_of <- function(release) {
  values <- as.numeric(facts_of(release, "value"))
  records <- as.numeric(facts_of(release, "records"))
  hidden <- is_hidden(release)
  lines <- lapply(seq_len(table_count(release)), function(table) {
    inside <- in_table(release, table)
    lowest <- is_lowest(release, table)
    data.frame(table = table, cells = sum(inside), hidden = sum(inside & hidden), records = sum(records[lowest]), hidden_records = sum(records[lowest & hidden]),
               value = sum(values[lowest]), hidden_value = sum(values[lowest & hidden]))
  })
  found <- do.call(rbind, lines)
  found$cells_share <- share(found$hidden, found$cells)
  found$value_share <- share(found$hidden_value, found$value)
  found
}

share <- function(part, whole) {
  ifelse(whole > 0, part / whole, 0)
}

percent <- function(part) {
  ifelse(part > 0 & part < 0.0005, "under 0.1 %", sprintf("%.1f %%", 100 * part))
}

# The name of a table, as its variables.
label_of <- function(release, table) {
  if (!is.null(release$job$tables)) return(table_label(release$job$tables[[table]]))
  names <- names(release$published[[table]])
  paste(names[-length(names)], collapse = " x ")
}

response_of <- function(release) {
  if (is.null(release$job$value)) utils::tail(names(release$published[[1]]), 1) else release$job$value
}

print.argus_release <- function(x, ...) {
  numbers <- x$numbers
  cat("A release of argus: ", response_of(x), " in ", several(table_count(x), "table"), ", ", x$checked, " by argus check\n", sep = "")
  cat("Records: ", counted(numbers$records), " added up, ", counted(numbers$skipped), " skipped\n", sep = "")
  if (is_rounded(x)) {
    cat("Cells: ", counted(numbers$cells), ", all rounded and none hidden; ", counted(numbers$primary), " primary (sensitive)\n", sep = "")
    return(invisible(x))
  }
  cat("Cells: ", counted(numbers$cells), ", of them ", counted(numbers$hidden), " hidden (", percent(share(numbers$hidden, numbers$cells)), "): ",
      counted(numbers$primary), " primary and ", counted(numbers$hidden - numbers$primary), " secondary\n", sep = "")
  shares <- shares_of(x)
  for (k in shares$table) {
    cat("Table ", k, ", ", label_of(x, k), ": ", counted(shares$hidden[k]), " of ", counted(shares$cells[k]), " cells and ", percent(shares$value_share[k]),
        " of the value hidden\n", sep = "")
  }
  cat("(Shares of the value are those of the lowest codes, so that nothing counts twice.)\n")
  invisible(x)
}

several <- function(count, noun) {
  paste0(counted(count), " ", noun, if (count != 1) "s")
}

summary.argus_release <- function(object, ...) {
  rules <- strsplit(facts_of(object, "rules")[facts_of(object, "status") == "primary"], " ", fixed = TRUE)
  origins <- facts_of(object, "origin")
  structure(class = "argus_summary", list(release = object, numbers = object$numbers, tables = shares_of(object), rules = table(unlist(rules), dnn = NULL),
                                          origins = table(origins[nzchar(origins)], dnn = NULL)))
}

print.argus_summary <- function(x, ...) {
  print(x$release)
  if (length(x$rules)) cat("Primary cells, by the rules that name them (a cell may have several): ", paste(names(x$rules), counted_each(x$rules), collapse = ", "), "\n", sep = "")
  if (length(x$origins)) cat("Hidden cells, by what hid them: ", paste(names(x$origins), counted_each(x$origins), collapse = ", "), "\n", sep = "")
  if (!is_rounded(x$release)) {
    shown <- x$tables
    shown$cells_share <- percent(shown$cells_share)
    shown$value_share <- percent(shown$value_share)
    cat("\n")
    print(shown, row.names = FALSE)
  }
  invisible(x)
}

counted_each <- function(counts) {
  vapply(as.vector(counts), counted, "")
}

argus_tables <- function(x) {
  x <- release_of(x)
  lapply(seq_along(x$published), function(k) {
    table <- x$published[[k]]
    last <- ncol(table)
    table[[last]] <- suppressWarnings(as.numeric(table[[last]]))
    shape <- x$job$tables[[k]]
    if (!is.null(shape)) names(table) <- c(vapply(shape, `[[`, "", "column"), x$job$value)
    table[-last] <- lapply(names(table)[-last], function(it) typed(table[[it]], it, x$job))
    table
  })
}

release_of <- function(x) {
  if (!inherits(x, "argus_release")) bad_call("This isn't a release.", "Give what argus_protect() gave.")
  x
}

# Codes as they came: an empty one is NA, and those of a factor are one, its levels in the order of the data frame's, with the total
# before them; where codes have levels of their own, in the order of argus's lines.
typed <- function(codes, name, job) {
  codes[!nzchar(codes)] <- NA
  levels <- job$factors[[name]]
  if (is.null(levels)) return(codes)
  there <- unique(codes[!is.na(codes)])
  is_flat <- job$is_flat[match(name, job$variables)]
  factor(codes, if (is_flat) c(setdiff(there, levels), intersect(levels, there)) else there)
}
