# Conditions: what went wrong, by its class, with argus's answer, the place and the remedy.

# Raises an error of the class "argus_KIND", which is an "argus_error" too. The fields are kept in the condition: answer (argus's own
# line), status, file, line, row, column, remedy and explanation (lines), NULL or empty where there is none.
argus_stop <- function(kind, text, ..., call = NULL) {
  fields <- list(answer = NULL, status = NULL, file = NULL, line = NULL, row = NULL, column = NULL, remedy = NULL,
                 explanation = character())
  given <- list(...)
  fields[names(given)] <- given
  stop(structure(class = c(paste0("argus_", kind), "argus_error", "error", "condition"),
                 c(list(message = paste(text, collapse = "\n"), call = call), fields)))
}

# An argument of the R call that can't be meant so, and what to do.
bad_call <- function(what, remedy = NULL, ...) {
  argus_stop("bad_call", c(what, indented(remedy)), remedy = remedy, ...)
}

# A warning of the class "argus_KIND".
argus_warn <- function(kind, text) {
  warning(structure(class = c(paste0("argus_", kind), "warning", "condition"),
                    list(message = paste(text, collapse = "\n"), call = NULL)))
}

indented <- function(lines) {
  if (length(lines)) paste0("  ", sub("^ +", "", lines)) else character()
}

# The class of what a program answered, by its status and its first words.
kind_of <- function(answer, status) {
  if (status == 2) return("refused")
  if (status == 3 && grepl("^(cannot protect|no rounding)", answer)) return("not_protected")
  if (status == 3 && grepl("^not (accepted|guarded)", answer)) return("not_accepted")
  if (status == 4) return("undecided")
  if (status == 125) return("no_program")
  "fault"
}

# Raises what `start` said on standard error: "start: FILE, line N, column C: what. Remedy". The line is that of the CSV, whose first
# line has the names; so a record is one row further up, as long as no text has a line break in it.
stop_start <- function(said, status, has_breaks) {
  answer <- if (length(said)) said[1] else paste("start ended with status", status)
  text <- sub("^start: ", "", answer)
  place <- regmatches(text, regexec("^([^:]*?)(, line ([0-9]+))?(, column ([^:]+))?: ", text, perl = TRUE))[[1]]
  line <- if (length(place) && nzchar(place[4])) as.integer(place[4])
  row <- if (!is.null(line) && line > 1 && !has_breaks) line - 1L
  parts <- split_remedy(text)
  remedy <- in_r_words(parts[2])
  argus_stop(if (status == 1) "bad_call" else kind_of(answer, status),
             c(answer, if (!is.null(row)) paste0("  This is row ", row, " of the data frame."), if (remedy != parts[2]) paste0("  In R: ", remedy)),
             answer = answer, status = status, file = if (length(place)) place[2], line = line, row = row,
             column = if (length(place) && nzchar(place[6])) place[6], remedy = if (nzchar(remedy)) remedy)
}

# What is wrong, and what to do: the sentence behind it.
split_remedy <- function(text) {
  at <- regexpr("[^.]\\. [A-Z]", text)
  if (at < 0) c(text, "") else c(substr(text, 1, at), substr(text, at + 3, nchar(text)))
}

# A remedy of `start` in words of argus_job.
in_r_words <- function(text) {
  text <- sub("^Add --round [^=]+=2, or as many decimals as these numbers need", "Give round = 2, or another number of decimals up to 9", text)
  text <- sub("out of the CSV", "out of the data frame", text, fixed = TRUE)
  names <- c(by = "tables", table = "tables", rule = "rules", out = "folder")
  for (it in names(names)) text <- gsub(paste0("--", it, "\\b"), paste0(names[[it]], " ="), text)
  text <- gsub("--force\\b", "force = TRUE", text)
  text <- gsub("--missing (\\S+)", "missing = \"\\1\"", text)
  text <- gsub("--([a-z]+) ([A-Za-z0-9_.]+)=(\\S+)", "\\1 = c(\\2 = \"\\3\")", text)
  gsub("--([a-z]+)", "\\1 =", text)
}

# Raises what `argus` answered to a job, with what `argus explain` makes of it.
stop_argus <- function(done, job, explains = TRUE) {
  answer <- done$out[nzchar(done$out)]
  if (!length(answer)) answer <- utils::tail(done$err[nzchar(done$err)], 1)
  if (!length(answer)) answer <- paste("argus ended with status", done$status)
  explanation <- if (explains && done$status %in% 2:4) explained(job, answer) else character()
  reasons <- if (done$status %in% c(5, 6, 7)) done$err else character()
  place <- regmatches(explanation[1], regexec("^ *(.*?), line ([0-9]+): ", explanation[1], perl = TRUE))[[1]]
  argus_stop(kind_of(answer[1], done$status), c(answer, indented(c(explanation, reasons))), answer = answer, status = done$status,
             file = if (length(place) == 3) place[2], line = if (length(place) == 3) as.integer(place[3]),
             remedy = if (length(explanation)) sub("^ +", "", explanation[length(explanation)]), explanation = sub("^ +", "", explanation))
}
