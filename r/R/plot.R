# A table as a heat map of what became of its cells.

STATUSES <- c(s = "shown", z = "never hidden", x = "hidden besides", u = "primary")
COLOURS <- c(s = "#f4f4f4", z = "#c8c8c8", x = "#f4a582", u = "#b2182b")

plot.argus_release <- function(x, table = 1, rows = NULL, columns = NULL, at = list(), letters = NULL, main = NULL, ...) {
  if (!is.numeric(table) || length(table) != 1 || !table %in% seq_along(x$published)) bad_call("table isn't the number of a table.", paste0("Give a number from 1 to ", length(x$published), "."))
  codes <- argus_tables(x)[[table]]
  codes <- codes[-ncol(codes)]
  axes <- plot_axes(codes, rows, columns)
  cells <- argus_cells(x, intervals = FALSE)
  grid <- status_grid(cells[in_table(x, table), , drop = FALSE], codes, axes, at)
  draw_grid(grid, axes, letters, if (is.null(main)) plot_title(x, table, grid$fixed) else main, ...)
  invisible(grid$statuses)
}

# The variables that go down and across: the longest and the next, where they aren't given.
plot_axes <- function(codes, rows, columns) {
  for (it in c(rows, columns)) known_column(it, names(codes), "rows or columns")
  sizes <- vapply(codes, function(it) length(unique(it)), 1L)
  order <- names(codes)[order(-sizes)]
  if (is.null(rows)) rows <- setdiff(order, columns)[1]
  rest <- setdiff(order, rows)
  if (is.null(columns) && length(rest)) columns <- rest[1]
  list(rows = rows, columns = columns)
}

# The statuses of a table as a matrix: rows and columns in the order of the table's lines, other variables at one code each.
status_grid <- function(cells, codes, axes, at) {
  texts <- lapply(codes, function(it) ifelse(is.na(it), "", as.character(it)))
  others <- setdiff(names(codes), c(axes$rows, axes$columns))
  fixed <- vapply(others, function(it) if (is.null(at[[it]])) texts[[it]][1] else as.character(at[[it]]), "")
  kept <- rep(TRUE, nrow(cells))
  for (it in names(fixed)) {
    if (!fixed[[it]] %in% texts[[it]]) bad_call(paste0("at: ", it, " has no code ", fixed[[it]], "."), "Give a code of the table.")
    kept <- kept & cell_codes(cells, it) == fixed[[it]]
  }
  cells <- cells[kept, , drop = FALSE]
  down <- unique(texts[[axes$rows]])
  across <- if (is.null(axes$columns)) "" else unique(texts[[axes$columns]])
  statuses <- matrix(NA_character_, length(down), length(across), dimnames = list(down, across))
  k <- match(cell_codes(cells, axes$rows), down)
  j <- if (is.null(axes$columns)) 1L else match(cell_codes(cells, axes$columns), across)
  statuses[cbind(k, j)] <- cells$status
  list(statuses = statuses, fixed = fixed)
}

cell_codes <- function(cells, name) {
  column <- if (name %in% c("cell", "tables", "value", "freq", "status", "rules", "origin", "published")) utils::tail(grep(paste0("^", name, "(\\.[0-9]+)?$"), names(cells), value = TRUE), 1) else name
  texts <- as.character(cells[[column]])
  ifelse(is.na(texts), "", texts)
}

plot_title <- function(release, table, fixed) {
  about <- paste0(response_of(release), ": ", label_of(release, table))
  if (length(fixed)) about <- paste0(about, " (", paste(names(fixed), fixed, sep = ": ", collapse = ", "), ")")
  about
}

# Draws a matrix of statuses, its first row at the top.
draw_grid <- function(grid, axes, letters, main, ...) {
  statuses <- grid$statuses
  down <- nrow(statuses)
  across <- ncol(statuses)
  room <- function(labels, most) min(most, 1.5 + 0.45 * max(nchar(labels, "width"), 4))
  old <- par(mar = c(5, room(rownames(statuses), 14), room(colnames(statuses), 10) + 2, 1))
  on.exit(par(old))
  marks <- matrix(match(statuses, names(STATUSES)), down)
  image(seq_len(across), seq_len(down), t(marks[down:1, , drop = FALSE]), col = COLOURS, zlim = c(1, 4), axes = FALSE, xlab = "", ylab = "", ...)
  small <- min(1, 25 / max(down, across))
  axis(2, down:1, ifelse(nzchar(rownames(statuses)), rownames(statuses), "(none)"), las = 1, tick = FALSE, line = -0.5, cex.axis = max(0.4, small))
  if (!is.null(axes$columns)) axis(3, seq_len(across), ifelse(nzchar(colnames(statuses)), colnames(statuses), "(none)"), las = 2, tick = FALSE, line = -0.5, cex.axis = max(0.4, small))
  box()
  if (is.null(letters)) letters <- down * across <= 900
  if (letters) text(rep(seq_len(across), each = down), rep(down:1, across), ifelse(is.na(statuses), "", statuses), cex = 0.7 * max(0.5, small), col = ifelse(statuses %in% "u", "white", "black"))
  title(main, line = par("mar")[3] - 1.3, cex.main = 1)
  legend(grconvertX(0.5, "ndc"), grconvertY(0.01, "ndc"), xjust = 0.5, yjust = 0, legend = paste(names(STATUSES), STATUSES, sep = "  "), fill = COLOURS, ncol = 2, bty = "n", xpd = NA, cex = 0.8)
}
