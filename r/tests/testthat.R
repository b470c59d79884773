library(testthat)
library(argus)

test_check("argus")
