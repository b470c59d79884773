columns <- c("region", "industry", "size", "odd name", "a:2")
labels <- function(tables) vapply(argus:::table_words(tables, columns), argus:::table_label, "")

test_that("formulas are tables, and brackets are levels", {
  expect_identical(labels(~ region * industry), "region x industry")
  expect_identical(labels(list(~ region * industry, ~ industry[2] * size)), c("region x industry", "industry[2] x size"))
  expect_identical(labels(~ region * size + industry), c("region x size", "industry"))
  expect_identical(labels(~ (region + size) * industry), c("region x industry", "size x industry"))
  expect_identical(labels(~ region * industry * size - region:industry:size), c("region x industry", "region x size", "industry x size"))
  expect_identical(labels(~ `odd name`), "odd name")
  expect_identical(labels(list(c("region", "industry:2"), "a:2")), c("region x industry[2]", "a:2"))
})

test_that("formulas that argus can't mean are refused with a remedy", {
  for (it in list(~ region:industry, ~ region / industry, ~ region * industry - 1, turnover ~ region, ~ ., ~ 1, ~ log(size), ~ industry[0],
                  ~ industry["a"], ~ nothing, 5, list(), "nothing")) {
    fault <- fault_of(argus:::table_words(it, columns))
    expect_s3_class(fault, "argus_bad_call")
    expect_true(nzchar(fault$remedy))
  }
})
