# Each cell of a table beside tapply, over all choices of total and code.
beside_tapply <- function(cells, data, value, weight, by) {
  keys <- list("")
  for (chosen in seq_len(2^length(by)) - 1) {
    kept <- by[bitwAnd(chosen, 2^(seq_along(by) - 1)) > 0]
    here <- rep(TRUE, nrow(cells))
    for (it in by) here <- here & ((as.character(cells[[it]]) %in% "Total") != (it %in% kept))
    groups <- if (length(kept)) lapply(data[kept], as.character) else list(rep("all", nrow(data)))
    sums <- tapply(value * weight, groups, sum)
    counts <- tapply(value, groups, length)
    index <- if (length(kept)) as.matrix(data.frame(lapply(cells[here, kept, drop = FALSE], as.character))) else matrix("all", 1, 1)
    expected <- sums[index]
    freq <- counts[index]
    expected[is.na(expected)] <- 0
    freq[is.na(freq)] <- 0
    expect_equal(cells$value[here], as.vector(expected), tolerance = 1e-12)
    expect_equal(cells$freq[here], as.vector(freq))
  }
}

test_that("the manual's first job has the manual's figures", {
  skip_without_argus()
  release <- protected()
  expect_identical(release$numbers, list(records = 13L, skipped = 0L, passed_over = 0L, cells = 9L, primary = 1L, hidden = 4L))
  cells <- argus_cells(release)
  expect_identical(cells$status, c("s", "s", "s", "s", "u", "x", "s", "x", "x"))
  expect_identical(cells$published, c(140, 50, 90, 70, NA, NA, 70, NA, NA))
  expect_identical(cells[5, c("rules", "origin", "level_down", "level_up")], data.frame(rules = "FREQ", origin = "primary", level_down = 6, level_up = 6, row.names = 5L))
  intervals <- argus_intervals(release)
  expect_identical(intervals[c("cell", "low", "high", "width")],
                   data.frame(cell = c(4L, 5L, 7L, 8L), low = c(0, 20, 0, 20), high = c(50, 70, 50, 70), width = 50))
  expect_identical(cells$low[intervals$cell + 1], intervals$low)
  expect_identical(argus_tables(release)[[1]]$turnover, cells$published)
  said <- paste(capture.output(print(release)), collapse = "\n")
  expect_match(said, "Cells: 9, of them 4 hidden (44.4 %): 1 primary and 3 secondary", fixed = TRUE)
  expect_match(said, "4 of 9 cells and 100.0 % of the value hidden", fixed = TRUE)
  shares <- summary(release)$tables
  expect_identical(shares[c("records", "hidden_records", "value", "hidden_value")], data.frame(records = 13, hidden_records = 13, value = 140, hidden_value = 140))
})

test_that("every figure of the cells is tapply's, with weights, NA and factors", {
  skip_without_argus()
  set.seed(4)
  data <- data.frame(region = factor(sample(c("b", "a", "\u00dc, \"Nord\""), 400, TRUE), c("b", "a", "\u00dc, \"Nord\"", "unused")),
                     size = sample(c(1e5, 2e5, 3e5), 400, TRUE), day = as.Date("2026-01-01") + sample(0:2, 400, TRUE), turnover = sample(1e6, 400) / 100, w = sample(10:35, 400, TRUE) / 10)
  release <- protected(data, tables = ~ region * size * day, rules = "NK(1,70)|FREQ(3,30)", weight = "w")
  cells <- argus_cells(release)
  beside_tapply(cells, transform(data, size = sprintf("%.0f", size)), data$turnover, data$w, c("region", "size", "day"))
  expect_identical(levels(cells$region), c("Total", "b", "a", "\u00dc, \"Nord\""))
  expect_setequal(cells$size, c("Total", "100000", "200000", "300000"))
  expect_setequal(as.Date(setdiff(cells$day, "Total")), unique(data$day))
  hidden <- cells$status %in% c("u", "x")
  expect_identical(is.na(cells$published), hidden)
  expect_true(all(cells$low[hidden] <= cells$value[hidden] - cells$level_down[hidden] + 1e-9, na.rm = TRUE))
  expect_true(all(cells$high[hidden] >= cells$value[hidden] + cells$level_up[hidden] - 1e-9, na.rm = TRUE))
  expect_identical(sum(hidden), release$numbers$hidden)
})

test_that("no answer comes back as NA, and umlauts, backslashes, quotes and latin1 as they were", {
  skip_without_argus()
  latin <- "S\xfcd"
  Encoding(latin) <- "latin1"
  codes <- c("M\u00fcller & S\u00f6hne", latin, "a\\\"b", "c,d", "#x", "NA", NA, "'q'", "\\")
  data <- data.frame(g = rep(codes, each = 4), v = 1:36)
  names(data)[1] <- "Gr\u00f6\u00dfe"
  cells <- argus_cells(protected(data, "v", list("Gr\u00f6\u00dfe")))
  expect_identical(names(cells)[3], "Gr\u00f6\u00dfe")
  there <- cells[-1, ]
  at <- match(there[[3]], enc2utf8(codes))
  expect_false(anyNA(at))
  expect_identical(sort(at), 1:9)
  expect_equal(there$value, unname(vapply(split(as.numeric(1:36), rep(1:9, each = 4)), sum, 0))[at])
})

test_that("integer64 ids and amounts keep all digits", {
  skip_without_argus()
  data <- data.frame(v = c(5, 6, 7, 8))
  data$id <- integer64(rep(c(287445236L, 287445237L), each = 2), rep(c(2112454933L, 0L), each = 2))
  cells <- argus_cells(protected(data, "v", ~ id), intervals = FALSE)
  # 287445236 * 2^32 + 2112454933 and 287445237 * 2^32
  expect_identical(cells$id, c("Total", "1234567890123456789", "1234567892305969152"))
  expect_identical(cells$freq, c(4L, 2L, 2L))
})

test_that("trees by digits, by columns, by sdcTable's hierarchies and by lines are the same tree", {
  skip_without_argus()
  data <- data.frame(industry = rep(c("11", "12", "21", "22"), each = 5), v = 1:20)
  data$division <- substr(data$industry, 1, 1)
  hierarchy <- data.frame(levels = c("@", "@@", "@@@", "@@@", "@@", "@@@", "@@@"), codes = c("Total", "1", "11", "12", "2", "21", "22"))
  made <- list(protected(data, "v", ~ industry, levels = list(industry = c(1, 1))), protected(data, "v", ~ industry, parent = c(industry = "division")),
               protected(data, "v", ~ industry, tree = list(industry = hierarchy)), protected(data, "v", ~ industry, tree = list(industry = c("1", "@11", "@12", "2", "@21", "@22"))))
  cells <- lapply(made, argus_cells)
  expect_identical(cells[[1]]$industry, c("Total", "1", "11", "12", "2", "21", "22"))
  expect_identical(cells[[1]]$value, c(210, 55, 15, 40, 155, 65, 90))
  for (it in cells[-1]) expect_identical(it, cells[[1]])
  upper <- argus_tables(protected(data, "v", list(~ industry[1], ~ industry), levels = list(industry = c(1, 1))))
  expect_identical(upper[[1]]$industry, c("Total", "1", "2"))
  expect_identical(upper[[2]]$industry, cells[[1]]$industry)
  expect_identical(summary(made[[1]])$tables$records, 20)
})

test_that("a priori data frames, methods that round, and comparisons", {
  skip_without_argus()
  safe <- protected(apriori = data.frame(region = "North", branch = "Food", what = "s"))
  expect_identical(safe$numbers$hidden, 0L)
  wider <- protected(apriori = data.frame(region = "North", branch = "Food", what = "pl", down = 3, up = 5))
  expect_identical(unlist(argus_cells(wider)[5, c("level_down", "level_up")], use.names = FALSE), c(3, 5))
  rounded <- protected(method = "RND(5)")
  cells <- argus_cells(rounded)
  expect_identical(cells$published %% 5, rep(0, 9))
  expect_identical(cells$status == "u", seq_len(9) == 5)
  expect_identical(argus_intervals(rounded)$cell, 4L)
  compared <- argus_compare(hidden = protected(), rounded = rounded, safe)
  expect_identical(compared$hidden, c(4L, 0L, 0L))
  expect_identical(compared$value_share, c(1, 0, 0))
  expect_identical(compared$mean_width[1], 50)
  expect_identical(row.names(compared), c("hidden", "rounded", "safe"))
  two <- argus_compare(protected(), safe)
  expect_identical(attr(two, "differing"), c(first = 4L, second = 0L, both = 0L))
  expect_output(print(two), "Hidden in both: 0")
})

test_that("tibbles and names that start's words can't have are taken", {
  skip_without_argus()
  data <- firms()
  names(data) <- c("a,b", "c=d:2", "turnover (EUR, m)")
  class(data) <- c("tbl_df", "tbl", "data.frame")
  release <- protected(data, "turnover (EUR, m)", list(~ `a,b` * `c=d:2`, ~ `a,b`))
  expect_identical(names(argus_cells(release))[3:4], c("a,b", "c=d:2"))
  expect_identical(names(argus_tables(release)[[2]]), c("a,b", "turnover (EUR, m)"))
  data <- firms()
  names(data)[1:2] <- c("value", "status")
  cells <- argus_cells(protected(data, tables = ~ value * status))
  expect_identical(names(cells)[3:6], c("value.1", "status.1", "value", "freq"))
})

test_that("plots give the matrix of statuses", {
  skip_without_argus()
  path <- tempfile(fileext = ".pdf")
  grDevices::pdf(path)
  on.exit(grDevices::dev.off())
  found <- plot(protected())
  expect_identical(found, matrix(c("s", "s", "s", "s", "u", "x", "s", "x", "x"), 3, 3, TRUE, list(c("Total", "North", "South"), c("Total", "Food", "Steel"))))
  found <- plot(protected(), rows = "branch")
  expect_identical(found["Food", "North"], "u")
  data <- transform(rbind(firms(), firms()), size = rep(c("S", "L"), each = 13))
  release <- protected(data, tables = ~ region * branch * size)
  expect_identical(plot(release, rows = "region", columns = "branch", at = list(size = "S"))["North", "Food"], "u")
  expect_s3_class(fault_of(plot(release, rows = "region", columns = "branch", at = list(size = "none"))), "argus_bad_call")
  expect_identical(dim(plot(protected(tables = ~ region))), c(3L, 1L))
})

test_that("a job's file is taken too, and a page is written", {
  skip_without_argus()
  job <- argus_job(firms(), "turnover", ~ region * branch, rules = "FREQ(3,30)", folder = tempfile())
  release <- argus_protect(file.path(job$folder, job$file))
  expect_identical(argus_cells(release)$status[5], "u")
  expect_match(paste(capture.output(print(release)), collapse = "\n"), "turnover in 1 table")
  page <- argus_page(release, title = c("Turnover", "euros"), open = FALSE)
  expect_match(paste(readLines(page, warn = FALSE), collapse = ""), "<title>[^<]*Turnover")
  public <- argus_page(release, tempfile(fileext = ".html"), public = TRUE, open = FALSE)
  expect_true(file.exists(public))
  taken <- tempfile(fileext = ".html")
  writeLines("mine", taken)
  expect_s3_class(fault_of(argus_page(release, taken, open = FALSE)), "argus_refused")
  expect_identical(readLines(taken), "mine")
})

test_that("200,000 lines take seconds", {
  skip_without_argus()
  set.seed(5)
  count <- 200000
  data <- data.frame(region = sample(sprintf("R%02d", 1:20), count, TRUE), industry = sample(sprintf("%03d", 1:40), count, TRUE), turnover = round(rexp(count) * 1e4, 2))
  took <- system.time(release <- protected(data, tables = ~ region * industry, rules = "P(15)|FREQ(3,30)"))[["elapsed"]]
  expect_identical(release$numbers$records, 200000L)
  beside_tapply(argus_cells(release, intervals = FALSE), data, data$turnover, 1, c("region", "industry"))
  expect_lt(took, 90)
})
