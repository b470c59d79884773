# A page of a release for the browser, by `argus page`.

argus_page <- function(x, file = NULL, title = NULL, public = FALSE, open = interactive()) {
  job <- if (inherits(x, "argus_release")) x$job else job_of(x)
  if (!is.null(file)) {
    if (!is.character(file) || length(file) != 1 || is.na(file)) bad_call("file isn't the name of a page.", "Give one name, as \"turnover.html\".")
    file <- file.path(normalizePath(dirname(path.expand(file)), mustWork = FALSE), basename(file))
  }
  title <- if (length(title)) paste(title, collapse = " | ")
  done <- call_argus(c("page", job$file, file, if (isTRUE(public)) "--public", if (!is.null(title)) c("--title", title)), job$folder)
  if (done$status != 0) {
    answer <- c(done$err, done$out)
    answer <- answer[nzchar(answer)]
    kind <- if (done$status == 3) "not_accepted" else if (done$status == 125) "no_program" else "refused"
    argus_stop(kind, answer, answer = answer, status = done$status)
  }
  made <- sub("^page: ", "", grep("^page: ", done$out, value = TRUE)[1])
  path <- if (startsWith(made, "/")) made else file.path(job$folder, made)
  if (isTRUE(open)) browseURL(paste0("file://", path))
  invisible(path)
}
