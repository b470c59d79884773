# Cells and intervals as data frames.

argus_cells <- function(x, intervals = TRUE) {
  x <- release_of(x)
  codes <- codes_of(x)
  codes[] <- lapply(names(codes), function(it) typed(codes[[it]], it, x$job))
  hidden <- is_hidden(x)
  kind <- facts_of(x, "status")
  ends <- if (isTRUE(intervals)) ends_of(x) else NULL
  at <- match(seq_len(nrow(codes)) - 1L, ends$cell)
  values <- amounts(x, "value")
  published <- if (is_rounded(x)) amounts(x, "release") else ifelse(hidden, NA_real_, values)
  own <- list(value = values, freq = as.integer(facts_of(x, "records")), status = letters_of(kind, hidden, is_rounded(x)), rules = facts_of(x, "rules"),
              origin = facts_of(x, "origin"), published = published, level_down = amounts(x, "down"), level_up = amounts(x, "up"),
              low = if (is.null(ends)) NA_real_ else ends$low[at], high = if (is.null(ends)) NA_real_ else ends$high[at],
              largest = amounts(x, "largest"), second = amounts(x, "second"), known_low = amounts(x, "low"), known_high = amounts(x, "high"),
              price = as.numeric(facts_of(x, "price")))
  own$level_down[kind != "primary"] <- own$level_up[kind != "primary"] <- NA
  front <- list(cell = as.integer(facts_of(x, "cell")), tables = facts_of(x, "tables"))
  names <- make.unique(c(names(front), names(own), names(codes)))
  names(codes) <- names[-seq_len(length(front) + length(own))]
  structure(c(front, as.list(codes), own), row.names = seq_len(nrow(codes)), class = "data.frame")
}

# sdcTable's letters: u primary, x hidden besides, z never hidden, s shown.
letters_of <- function(kind, hidden, rounded) {
  ifelse(kind == "primary" & (hidden | rounded), "u", ifelse(hidden, "x", ifelse(kind == "fixed", "z", "s")))
}

# A column of amounts as numbers; an empty one is NA. Where a number has more digits than R keeps, a warning says so.
amounts <- function(release, name) {
  texts <- facts_of(release, name)
  digits <- nchar(sub("^0+", "", sub(".", "", texts, fixed = TRUE)))
  if (any(digits > 15) && !isTRUE(release$kept$is_warned)) {
    release$kept$is_warned <- TRUE
    argus_warn("inexact", "Some amounts have more than 15 digits, which R's numbers don't keep: the files of the tables have them exactly.")
  }
  texts[!nzchar(texts)] <- NA
  as.numeric(texts)
}

# How many decimals the amounts of a listing have: ends of intervals are in units of the last.
decimals_of <- function(release) {
  text <- facts_of(release, "value")[1]
  at <- regexpr(".", text, fixed = TRUE)
  if (at < 0) 0L else nchar(text) - at[1]
}

# Both ends of each hidden cell, found once for a release; of one that rounds, those of each primary cell, by an audit.
ends_of <- function(release) {
  if (!is.null(release$kept$ends)) return(release$kept$ends)
  job <- release$job
  word <- if (is_rounded(release)) "audit" else "intervals"
  folder <- tempfile("argus-ends-")
  dir.create(folder)
  on.exit(unlink(folder, recursive = TRUE))
  path <- file.path(folder, "ends.csv")
  done <- call_argus(c(word, job$file, path), job$folder)
  if (done$status != 0) stop_argus(done, job)
  found <- read_ends(path)
  unit <- 10^decimals_of(release)
  release$kept$ends <- data.frame(cell = as.integer(found$cell), low = end_numbers(found$low, unit), high = end_numbers(found$high, unit),
                                  below = covered(found$below, found$cell), above = covered(found$above, found$cell))
  release$kept$ends
}

# Whether a side is covered, which an audit alone says.
covered <- function(words, cells) {
  if (is.null(words)) rep(NA, length(cells)) else words == "yes"
}

# The lines of cells of a file of intervals or of an audit; complete tables, which an audit has behind them, aren't taken.
read_ends <- function(path) {
  lines <- read_lines(path)
  names <- strsplit(lines[1], ",", fixed = TRUE)[[1]]
  lines <- grep("^[0-9]+,", lines, value = TRUE)
  parts <- matrix(as.character(unlist(strsplit(lines, ",", fixed = TRUE))), ncol = length(names), byrow = TRUE)
  structure(lapply(seq_along(names), function(k) parts[, k]), names = names)
}

# Ends in units, whole, as fractions or open, as amounts.
end_numbers <- function(texts, unit) {
  is_open <- texts == "open"
  texts[is_open] <- "0"
  is_part <- grepl("/", texts, fixed = TRUE)
  numbers <- as.numeric(sub("/.*", "", texts))
  numbers[is_part] <- numbers[is_part] / as.numeric(sub(".*/", "", texts[is_part]))
  numbers <- numbers / unit
  numbers[is_open] <- Inf
  numbers
}

argus_intervals <- function(x) {
  x <- release_of(x)
  ends <- ends_of(x)
  cells <- argus_cells(x, intervals = FALSE)[ends$cell + 1L, , drop = FALSE]
  keep <- setdiff(names(cells), c("rules", "origin", "published", "low", "high", "largest", "second", "known_low", "known_high", "price"))
  found <- cells[keep]
  found$low <- ends$low
  found$high <- ends$high
  found$width <- ends$high - ends$low
  if (is_rounded(x)) {
    found$covered_below <- ends$below
    found$covered_above <- ends$above
  }
  row.names(found) <- NULL
  found
}
