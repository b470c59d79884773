\name{argus_compare}
\alias{argus_compare}
\alias{print.argus_comparison}
\title{Compare Releases}
\description{
Two methods, or two rules, by what they cost: the cells and the value that are
hidden, and how wide the intervals are.
}
\usage{
argus_compare(...)

\method{print}{argus_comparison}(x, ...)
}
\arguments{
\item{...}{two releases or more; names are those of the lines.}
\item{x}{a comparison.}
}
\value{
A data frame with a line for each release: \code{cells}, \code{primary},
\code{hidden}, \code{hidden_share}; \code{value_hidden} and \code{value_share},
over the cells of the lowest codes of all tables; \code{mean_width} of the
intervals in the unit of the value, \code{mean_relative_width} as a part of the
cell's value, and \code{open}, how many have no upper end and don't count for
the means. In a release that rounds the intervals are those of primary cells.
Of two releases of the same cells \code{print} also says how many only one of
them hides.
}
\examples{
firms <- data.frame(
  region = rep(c("North", "South"), c(6, 7)),
  branch = rep(c("Food", "Steel", "Food", "Steel"), c(2, 4, 4, 3)),
  turnover = c(10, 10, 10, 10, 10, 20, 5, 5, 10, 10, 15, 10, 15))
if (!inherits(try(argus_path(), TRUE), "try-error")) {
  by <- function(method) argus_protect(argus_job(firms, "turnover",
    ~ region * branch, rules = "FREQ(3,30)", method = method))
  argus_compare(hidden = by("MOD()"), rounded = by("RND(5)"))
}
}
