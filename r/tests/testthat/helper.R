skip_without_argus <- function() {
  fault <- tryCatch({
    argus_path()
    NULL
  }, argus_no_program = function(it) it)
  if (!is.null(fault)) skip("the program argus isn't found: set the environment variable ARGUS")
}

# The thirteen firms of the manual's first job.
firms <- function() {
  data.frame(region = rep(c("North", "South"), c(6, 7)), branch = rep(c("Food", "Steel", "Food", "Steel"), c(2, 4, 4, 3)),
             turnover = c(10, 10, 10, 10, 10, 20, 5, 5, 10, 10, 15, 10, 15))
}

protected <- function(data = firms(), value = "turnover", tables = ~ region * branch, rules = "FREQ(3,30)", ...) {
  argus_protect(argus_job(data, value, tables, rules = rules, ...))
}

# The condition that an expression raises.
fault_of <- function(expression) {
  tryCatch({
    expression
    NULL
  }, argus_error = function(it) it)
}

# A number of bit64's class integer64, by its upper and lower 32 bits.
integer64 <- function(upper, lower) {
  structure(readBin(writeBin(as.integer(rbind(lower, upper)), raw(), endian = "little"), "double", length(upper), endian = "little"), class = "integer64")
}
