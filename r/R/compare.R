# Two releases side by side.

argus_compare <- function(...) {
  releases <- list(...)
  given <- vapply(as.list(substitute(list(...)))[-1], function(it) deparse(it)[1], "")
  names <- if (is.null(names(releases))) given else ifelse(nzchar(names(releases)), names(releases), given)
  if (length(releases) < 2) bad_call("There is nothing to compare.", "Give two releases or more, as argus_compare(a, b).")
  releases <- lapply(releases, release_of)
  lines <- lapply(releases, comparison_line)
  found <- do.call(rbind, lines)
  row.names(found) <- make.unique(names)
  attr(found, "differing") <- if (length(releases) == 2) differing(releases[[1]], releases[[2]])
  structure(found, class = c("argus_comparison", "data.frame"))
}

# A release in one line: cells, those hidden, the share of the value that is, over all tables, and how wide the intervals are.
comparison_line <- function(release) {
  shares <- shares_of(release)
  ends <- ends_of(release)
  widths <- ends$high - ends$low
  values <- as.numeric(facts_of(release, "value"))[ends$cell + 1L]
  closed <- is.finite(widths)
  data.frame(cells = release$numbers$cells, primary = release$numbers$primary, hidden = release$numbers$hidden,
             hidden_share = share(release$numbers$hidden, release$numbers$cells), value_hidden = sum(shares$hidden_value),
             value_share = share(sum(shares$hidden_value), sum(shares$value)),
             mean_width = if (any(closed)) mean(widths[closed]) else NA_real_,
             mean_relative_width = if (any(closed & values > 0)) mean((widths / values)[closed & values > 0]) else NA_real_, open = sum(!closed))
}

# How many cells only one of two releases hides, where both have the same cells.
differing <- function(a, b) {
  keys <- lapply(list(a, b), function(it) do.call(paste, c(unname(as.list(codes_of(it))), sep = "\r")))
  if (!identical(keys[[1]], keys[[2]])) return(NULL)
  c(first = sum(is_hidden(a) & !is_hidden(b)), second = sum(is_hidden(b) & !is_hidden(a)), both = sum(is_hidden(a) & is_hidden(b)))
}

print.argus_comparison <- function(x, ...) {
  shown <- as.data.frame(unclass(x)[seq_along(x)], row.names = row.names(x))
  shown$hidden_share <- percent(shown$hidden_share)
  shown$value_share <- percent(shown$value_share)
  print(t(format(shown, digits = 6)), quote = FALSE, right = TRUE)
  only <- attr(x, "differing")
  if (!is.null(only)) {
    cat("Hidden in both: ", only[["both"]], "; in ", row.names(x)[1], " alone: ", only[["first"]], "; in ", row.names(x)[2], " alone: ", only[["second"]], "\n", sep = "")
  }
  invisible(x)
}
