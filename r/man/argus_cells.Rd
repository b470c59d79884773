\name{argus_cells}
\alias{argus_cells}
\alias{argus_intervals}
\alias{argus_tables}
\title{Cells, Intervals and Tables of a Release}
\description{
The cells of a release with all that argus knows of them, the range of each
hidden one, and the tables as they are published.
}
\usage{
argus_cells(x, intervals = TRUE)
argus_intervals(x)
argus_tables(x)
}
\arguments{
\item{x}{what \code{\link{argus_protect}} gave.}
\item{intervals}{whether both ends of each hidden cell are worked out, by
  \code{argus intervals}, which may take long in large tables. It is done once
  for a release.}
}
\value{
\code{argus_cells} gives a data frame with a line for each cell:
\item{cell, tables}{argus's number of the cell, from 0, and the numbers of the
  tables that have it.}
\item{the variables}{the codes, in the order of the data frame's columns; the
  total's where no table that has the cell is by that variable. A factor is
  one again, the total first among its levels. No answer is \code{NA}. A
  variable that has the name of another column here gets \code{.1} behind it.}
\item{value, freq}{the sum over its records, and how many there are.}
\item{status}{\code{u} primary (sensitive), \code{x} hidden besides, \code{z}
  never hidden (it has no records, or an a priori file says so), \code{s}
  shown: sdcTable's letters.}
\item{rules, origin}{the rules that name it, and what hid it.}
\item{published}{the value as it is published; \code{NA} where it is hidden.}
\item{level_down, level_up}{how far a primary cell has to be open.}
\item{low, high}{how low and how high a reader can place a hidden cell;
  \code{Inf} is open. In a release that rounds they are those of primary
  cells, by \code{argus audit}.}
\item{largest, second}{the two largest contributions.}
\item{known_low, known_high, price}{what a reader is taken to know of it, and
  what hiding it costs.}

\code{argus_intervals} gives the hidden cells alone, with the width of their
intervals; of a release that rounds the primary ones, and whether each side is
covered.

\code{argus_tables} gives a list of the published tables, read from their
files, with \code{NA} where a cell is hidden. It is the only one of the three
that may be published.
}
\seealso{\code{\link{argus_protect}}}
\examples{
firms <- data.frame(
  region = rep(c("North", "South"), c(6, 7)),
  branch = rep(c("Food", "Steel", "Food", "Steel"), c(2, 4, 4, 3)),
  turnover = c(10, 10, 10, 10, 10, 20, 5, 5, 10, 10, 15, 10, 15))
if (!inherits(try(argus_path(), TRUE), "try-error")) {
  release <- argus_protect(
    argus_job(firms, "turnover", ~ region * branch, rules = "FREQ(3,30)"))
  argus_intervals(release)
  argus_tables(release)[[1]]
}
}
