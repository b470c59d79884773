test_that("a job says what it read, and its files are where they are asked for", {
  skip_without_argus()
  folder <- tempfile()
  job <- argus_job(firms(), "turnover", ~ region * branch, rules = "FREQ(3,30)", folder = folder, name = "firms")
  expect_setequal(list.files(folder), c("firms.asc", "firms.rda", "firms.job"))
  expect_match(paste(capture.output(print(job)), collapse = "\n"), "argus should find 13 records, 0 skipped, 9 cells")
  expect_identical(readLines(file.path(folder, "firms.asc"))[1:2], c("North Food  10", "North Food  10"))
  fault <- fault_of(argus_job(firms(), "turnover", ~ region, rules = "FREQ(3,30)", folder = folder, name = "firms"))
  expect_s3_class(fault, "argus_refused")
  expect_match(fault$remedy, "force = TRUE")
  expect_s3_class(argus_job(firms(), "turnover", ~ region, rules = "FREQ(3,30)", folder = folder, name = "firms", force = TRUE), "argus_job")
})

test_that("a job that is refused leaves nothing behind", {
  skip_without_argus()
  folder <- tempfile()
  fault_of(argus_job(transform(firms(), turnover = -1), "turnover", ~ region, rules = "FREQ(3,30)", folder = folder))
  expect_false(dir.exists(folder))
  dir.create(folder)
  tree <- data.frame(leads = c("@", "@@"), codes = c("Total", "North"))
  fault_of(argus_job(firms(), "turnover", ~ region, rules = "FREQ(3,30)", folder = folder, tree = list(region = tree)))
  expect_identical(list.files(folder, all.files = TRUE, no.. = TRUE), character())
})

test_that("a refusal has the answer, the place and the remedy", {
  skip_without_argus()
  data <- firms()
  data$turnover[5] <- -12
  fault <- fault_of(argus_job(data, "turnover", ~ region, rules = "FREQ(3,30)"))
  expect_s3_class(fault, "argus_refused")
  expect_identical(fault[c("status", "line", "row", "column")], list(status = 2L, line = 6L, row = 5L, column = "turnover"))
  expect_match(fault$answer, "-12 is negative")
  expect_match(conditionMessage(fault), "row 5 of the data frame")
  fault <- fault_of(argus_job(firms(), "turnover", ~ region, rules = "FREQ(3)"))
  expect_match(fault$answer, "isn't a rule of argus")
  data$turnover[5] <- Inf
  expect_match(fault_of(argus_job(data, "turnover", ~ region))$remedy, "missing = \"Inf\"")
  data <- rbind(firms(), data.frame(region = "Total", branch = "Food", turnover = 1))
  expect_match(fault_of(argus_job(data, "turnover", ~ region))$answer, "code of the total")
})

test_that("thirteen decimals are refused, and rounded where it is asked for", {
  skip_without_argus()
  data <- data.frame(region = rep(c("N", "S"), each = 4), turnover = 10 + (1:8) * 0.1234567890123)
  fault <- fault_of(argus_job(data, "turnover", ~ region, rules = "FREQ(3,30)"))
  expect_s3_class(fault, "argus_refused")
  expect_match(fault$answer, "13 decimals, and argus takes 9")
  expect_match(fault$remedy, "round = 2")
  expect_message(job <- argus_job(data, "turnover", ~ region, rules = "FREQ(3,30)", round = 4), "8 of 8 numbers rounded to 4 decimals")
  cells <- argus_cells(argus_protect(job), intervals = FALSE)
  units <- floor(data$turnover * 1e4 + 0.5) / 1e4
  expect_equal(cells$value, unname(c(sum(units), tapply(units, data$region, sum))), tolerance = 1e-12)
  expect_s3_class(fault_of(argus_job(data, "turnover", ~ region, round = 10)), "argus_bad_call")
  expect_s3_class(fault_of(argus_job(data, "turnover", ~ region, round = c(region = 2))), "argus_bad_call")
})

test_that("rules that nobody gave are called examples", {
  skip_without_argus()
  expect_message(argus_job(firms(), "turnover", ~ region), "examples")
})

test_that("arguments that can't be meant are refused", {
  skip_without_argus()
  calls <- expression(argus_job(1:3, "a", ~ b), argus_job(firms(), "nothing", ~ region), argus_job(firms(), tables = ~ region), argus_job(firms()[0, ], "turnover", ~ region),
                      argus_job(firms(), "turnover", ~ turnover), argus_job(firms(), "turnover", ~ region, weight = "nothing"),
                      argus_job(firms(), "turnover", ~ region, levels = list(2)), argus_job(firms(), "turnover", ~ region, tree = list(region = "no file")),
                      argus_job(firms(), "turnover", ~ region, name = "a b"), argus_job(firms(), "turnover", ~ region, apriori = "no file"), argus_job(firms(), "turnover"),
                      argus_protect("no.job"), argus_cells(1), argus_compare(1))
  for (it in calls) expect_s3_class(fault_of(eval(it)), "argus_bad_call")
})

test_that("holdings are refused by an argus that doesn't know them, and else taken", {
  skip_without_argus()
  data <- transform(firms(), owner = as.character(1:13))
  knows <- any(grepl("--holding", system2(argus_path(), c("start", "--help"), stdout = TRUE), fixed = TRUE))
  if (knows) {
    expect_s3_class(argus_job(data, "turnover", ~ region * branch, rules = "FREQ(3,30)", holding = "owner"), "argus_job")
  } else {
    fault <- fault_of(argus_job(data, "turnover", ~ region * branch, rules = "FREQ(3,30)", holding = "owner"))
    expect_s3_class(fault, "argus_unknown_word")
    expect_match(conditionMessage(fault), "doesn't know holdings")
  }
})
