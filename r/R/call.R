# Finding the program, and calling it.

# The folder that this package was installed from: that above it is argus's repository where it was installed from a clone.
installed_from <- getwd()

#' The program, by four places in turn; a condition where it is in none.
argus_path <- function() {
  named <- list(`options(argus.path =)` = getOption("argus.path"), `the environment variable ARGUS` = Sys.getenv("ARGUS"))
  for (it in names(named)) {
    path <- named[[it]]
    if (length(path) == 1 && !is.na(path) && nzchar(path)) return(told_program(path, it))
  }
  path <- Sys.which("argus")
  if (nzchar(path)) return(normalizePath(path))
  for (folder in clones()) {
    path <- file.path(folder, "argus")
    if (is_program(path) && file.exists(file.path(folder, "r", "DESCRIPTION"))) return(path)
  }
  remedy <- "Give it by options(argus.path = \"/path/to/argus\"), by the environment variable ARGUS, or put it on the path."
  argus_stop("no_program", c("The program argus isn't found.", indented(remedy)), remedy = remedy)
}

is_program <- function(path) {
  file.exists(path) && !dir.exists(path) && file.access(path, 1) == 0
}

# A path that was given: it has to be a program. That of a clone's folder is taken for the program in it.
told_program <- function(path, origin) {
  path <- path.expand(path)
  if (dir.exists(path)) path <- file.path(path, "argus")
  if (!is_program(path)) {
    argus_stop("no_program", c(paste0(origin, " names ", path, ", which is no program."), indented("Correct it.")), remedy = "Correct it.")
  }
  normalizePath(path)
}

# Where a clone may be: above the folder that this package was installed from, and above the current one.
clones <- function() {
  found <- dirname(installed_from)
  here <- getwd()
  while (!here %in% found) {
    found <- c(found, here)
    here <- dirname(here)
  }
  found
}

has_argus <- function() {
  tryCatch(nzchar(argus_path()), argus_no_program = function(it) FALSE)
}

# A word for the shell, whatever its marks.
quoted <- function(words) {
  paste0("'", gsub("'", "'\\''", enc2utf8(words), fixed = TRUE), "'")
}

# Calls argus with words in a folder. What it prints comes back as lines, and its status; with `to`, standard output goes into that file.
# The words stand in a script, in UTF-8 whatever the locale is, since R would write them anew on a command line.
call_argus <- function(words, folder = NULL, to = NULL) {
  room <- tempfile("argus-call-")
  dir.create(room)
  on.exit(unlink(room, recursive = TRUE))
  out <- if (is.null(to)) file.path(room, "out") else to
  err <- file.path(room, "err")
  if (!is.null(folder) && !dir.exists(folder)) {
    argus_stop("fault", c(paste("The folder", folder, "of this job isn't there any more."),
                          indented("Make the job anew; with folder = it outlasts the session.")), remedy = "Make the job anew.")
  }
  script <- file.path(room, "script")
  lines <- c(if (!is.null(folder)) paste("cd", quoted(folder), "|| exit 125"),
             "PYTHONUTF8=1 ARGUS_EXPLAIN=0", "export PYTHONUTF8 ARGUS_EXPLAIN",
             paste("exec", paste(quoted(c(argus_path(), words)), collapse = " "), "</dev/null >", quoted(out), "2>", quoted(err)))
  write_lines(lines, script)
  status <- if (getOption("argus.progress", interactive())) watched(script, room, words[1]) else system2("/bin/sh", shQuote(script))
  list(status = status, out = if (is.null(to)) read_lines(out) else character(), err = read_lines(err))
}

# Runs a script beside R, and says on standard error how long it takes once that is more than two seconds. A call that is broken off
# ends the program too.
watched <- function(script, room, word) {
  ended <- file.path(room, "status")
  started <- file.path(room, "pid")
  runner <- file.path(room, "runner")
  write_lines(c(paste("/bin/sh", quoted(script), "&"), paste("echo $! >", quoted(started)), "wait $!",
                paste("echo $? >", quoted(paste0(ended, ".new"))), paste("mv", quoted(paste0(ended, ".new")), quoted(ended))), runner)
  begun <- proc.time()[["elapsed"]]
  told <- FALSE
  is_over <- FALSE
  on.exit({
    if (!is_over && file.exists(started)) pskill(as.integer(readLines(started)))
    if (told) cat("\r", strrep(" ", 40), "\r", sep = "", file = stderr())
  })
  system2("/bin/sh", shQuote(runner), wait = FALSE)
  pause <- 0.01
  while (!file.exists(ended)) {
    Sys.sleep(pause)
    pause <- min(0.2, pause * 1.5)
    took <- proc.time()[["elapsed"]] - begun
    if (took > 2) {
      cat(sprintf("\rargus %s: %d seconds ", word, as.integer(took)), file = stderr())
      told <- TRUE
    }
  }
  is_over <- TRUE
  as.integer(readLines(ended))
}

# Lines into a file, each ended by LF, in UTF-8.
write_lines <- function(lines, path) {
  file <- file(path, "wb")
  on.exit(close(file))
  writeLines(enc2utf8(lines), file, useBytes = TRUE)
}

# The lines of a file; bytes that aren't UTF-8 are taken as Latin-1.
read_lines <- function(path) {
  if (!file.exists(path)) return(character())
  lines <- readLines(path, warn = FALSE, encoding = "bytes")
  lines <- enc_utf8_or_latin1(lines)
  lines
}

enc_utf8_or_latin1 <- function(texts) {
  if (all(validUTF8(texts))) {
    Encoding(texts) <- "UTF-8"
    return(texts)
  }
  iconv(texts, "latin1", "UTF-8")
}

# A CSV as argus writes it, as a data frame of texts.
read_csv <- function(path) {
  head <- readLines(path, n = 1, warn = FALSE)
  Encoding(head) <- "unknown"
  is_utf8 <- all(validUTF8(readLines(path, warn = FALSE)))
  encoding <- if (is_utf8) "UTF-8" else "latin1"
  names <- scan(path, "", sep = ",", quote = "\"", nlines = 1, quiet = TRUE, encoding = encoding, strip.white = FALSE, na.strings = character())
  columns <- scan(path, rep(list(""), length(names)), sep = ",", quote = "\"", skip = 1, quiet = TRUE, encoding = encoding,
                  strip.white = FALSE, na.strings = character(), multi.line = FALSE, comment.char = "", blank.lines.skip = FALSE)
  columns <- lapply(columns, enc2utf8)
  structure(columns, names = enc2utf8(names), row.names = seq_along(columns[[1]]), class = "data.frame")
}
