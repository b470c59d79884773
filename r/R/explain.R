# What an answer means, by `argus explain`.

# The lines of `argus explain`; none where it has none, or can't be called.
explained <- function(job, answer, ...) {
  done <- call_argus(c("explain", job$file, answer), job$folder)
  if (done$status == 0) done$out[nzchar(done$out)] else character()
}

argus_explain <- function(x, answer = NULL) {
  if (inherits(x, "argus_error")) {
    lines <- if (length(x$explanation)) x$explanation else c(if (!is.null(x$row)) paste0("This is row ", x$row, " of the data frame."), x$remedy)
    return(explanation(paste(x$answer, collapse = "\n"), lines, x))
  }
  if (inherits(x, "argus_release")) {
    return(explanation(x$answer, explained(x$job, x$answer), NULL))
  }
  job <- job_of(x)
  if (!is.character(answer) || !length(answer) || anyNA(answer)) bad_call("answer is missing.", "Give the line that argus printed, as answer = \"refused: record 3: BadNumber\".")
  answer <- unlist(strsplit(answer, "\n", fixed = TRUE))
  explanation(paste(answer, collapse = "\n"), explained(job, answer), NULL)
}

explanation <- function(answer, lines, condition) {
  structure(class = "argus_explanation", list(answer = answer, lines = sub("^ +", "", lines), kind = if (!is.null(condition)) class(condition)[1]))
}

print.argus_explanation <- function(x, ...) {
  cat(x$answer, "\n", sep = "")
  cat(if (length(x$lines)) indented(x$lines) else "  Nothing looks odd.", sep = "\n")
  invisible(x)
}
