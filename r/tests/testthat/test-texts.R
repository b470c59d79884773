amounts <- function(...) argus:::amount_texts(...)$texts

test_that("amounts are written so that R reads the same number again", {
  expect_identical(amounts(c(0, 1e5, 1e15, 123456789.123, 1e-7, 0.1, NA, -2.5), "x"),
                   c("0", "100000", "1000000000000000", "123456789.123", "0.0000001", "0.1", NA, "-2.5"))
  expect_identical(amounts(0.1 + 0.2, "x"), "0.30000000000000004")
  expect_identical(amounts(0.1234567890123, "x"), "0.1234567890123")
  expect_identical(amounts(c(100000L, NA), "x"), c("100000", NA))
  set.seed(1)
  numbers <- rexp(5000) * 10^sample(-8:8, 5000, TRUE)
  expect_identical(as.numeric(amounts(numbers, "x")), numbers)
})

test_that("amounts are rounded by their decimal digits, a half away from zero", {
  expect_identical(amounts(c(2.675, 1.005, 0.005, 0.0049, 9.995, 999.995, -2.675, 5, NA), "x", 2),
                   c("2.68", "1.01", "0.01", "0", "10", "1000", "-2.68", "5", NA))
  expect_identical(amounts(c(0.5, 1.5, 2.5, 0.49999, 1e-300), "x", 0), c("1", "2", "3", "0", "0"))
  expect_identical(amounts(0.1234567890123, "x", 9), "0.123456789")
  expect_identical(argus:::amount_texts(c(1.25, 1.2, NA, 3), "x", 1)$rounded, 1L)
  # beside R's own rounding of decimal fractions that are no ties
  set.seed(2)
  thousandths <- sample(1e6, 2000) * 10 + sample(c(1:4, 6:9), 2000, TRUE)
  expect_equal(as.numeric(amounts(thousandths / 1000, "x", 2)), floor(thousandths / 10 + 0.5) / 100, tolerance = 1e-12)
})

test_that("codes are written with all digits and none of R's own forms", {
  codes <- function(it) argus:::code_texts(it, "x")
  expect_identical(codes(c(1e5, 1e10, 123456789012345, 1.5, NA)), c("100000", "10000000000", "123456789012345", "1.5", NA))
  expect_identical(codes(c(100000L, NA)), c("100000", NA))
  expect_identical(codes(factor(c("b", NA, "a"), c("b", "a", "c"))), c("b", NA, "a"))
  expect_identical(codes(as.Date(c("2026-12-02", NA))), c("2026-12-02", NA))
  expect_identical(codes(c(TRUE, FALSE)), c("TRUE", "FALSE"))
  expect_identical(codes(integer64(c(0L, 1L, -1L, NA, 2147483647L), c(5L, 0L, -5L, 0L, -1L))), c("5", "4294967296", "-5", NA, "9223372036854775807"))
  latin <- "S\xfcd"
  Encoding(latin) <- "latin1"
  expect_identical(codes(latin), "S\u00fcd")
})

test_that("what has no text is refused", {
  expect_s3_class(fault_of(argus:::code_texts(2^53, "id")), "argus_bad_call")
  expect_identical(fault_of(argus:::code_texts(2^53, "id"))$column, "id")
  expect_s3_class(fault_of(argus:::code_texts(list(1, 2), "x")), "argus_bad_call")
  expect_s3_class(fault_of(argus:::amount_texts("12", "x")), "argus_bad_call")
  expect_s3_class(fault_of(argus:::amount_texts(Sys.Date(), "x")), "argus_bad_call")
  bytes <- "S\xfcd"
  Encoding(bytes) <- "UTF-8"
  expect_match(conditionMessage(fault_of(argus:::code_texts(bytes, "x"))), "isn't UTF-8")
})
