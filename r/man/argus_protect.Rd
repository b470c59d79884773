\name{argus_protect}
\alias{argus_protect}
\alias{print.argus_release}
\alias{summary.argus_release}
\alias{print.argus_summary}
\alias{plot.argus_release}
\title{Protect the Tables of a Job}
\description{
Runs a job by \code{argus run}, and lets \code{argus check} judge the release.
}
\usage{
argus_protect(job, doubts = TRUE)

\method{print}{argus_release}(x, ...)

\method{summary}{argus_release}(object, ...)

\method{plot}{argus_release}(x, table = 1, rows = NULL, columns = NULL,
  at = list(), letters = NULL, main = NULL, ...)
}
\arguments{
\item{job}{what \code{\link{argus_job}} gave, or the name of a job's file.}
\item{doubts}{whether \code{argus explain} looks for what the office may not
  have meant, such as two variables that overlap. It comes as a warning of the
  class \code{argus_doubt}.}
\item{x, object}{a release.}
\item{table}{the number of the table.}
\item{rows, columns}{the variables that go down and across. Without them the
  one with most codes goes down, and the next across.}
\item{at}{for other variables the code that is shown, as
  \code{list(size = "S")}; without it the total.}
\item{letters}{whether each cell has its letter; without it, where there are
  at most 900.}
\item{main}{the title.}
\item{...}{passed on to \code{image} by \code{plot}, and else not used.}
}
\value{
An object of the class \code{argus_release}. It keeps the listing of the cells,
with true values: it is for the office alone, like the data.

\code{print} says how many cells are hidden and which share of the value, table
by table; \code{summary} also by rules, and with the records. Shares are those
of the cells of the lowest codes, so that nothing counts twice. \code{plot}
draws the table as a heat map of status, and gives the matrix of letters:
\code{s} shown, \code{u} primary (sensitive), \code{x} hidden besides, \code{z}
never hidden.

A job that can't be protected is an error: see \code{\link{argus_explain}}.
A call of more than two seconds says how long it takes, in interactive
sessions or with \code{options(argus.progress = TRUE)}.
}
\seealso{\code{\link{argus_cells}}, \code{\link{argus_page}},
\code{\link{argus_compare}}}
\examples{
firms <- data.frame(
  region = rep(c("North", "South"), c(6, 7)),
  branch = rep(c("Food", "Steel", "Food", "Steel"), c(2, 4, 4, 3)),
  turnover = c(10, 10, 10, 10, 10, 20, 5, 5, 10, 10, 15, 10, 15))
if (!inherits(try(argus_path(), TRUE), "try-error")) {
  job <- argus_job(firms, "turnover", ~ region * branch, rules = "FREQ(3,30)")
  release <- argus_protect(job)
  release
  plot(release)
}
}
