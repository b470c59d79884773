\name{argus_job}
\alias{argus_job}
\alias{print.argus_job}
\title{A Job of argus from a Data Frame}
\description{
Writes the files of a job (microdata, metadata and the job itself) from a data
frame, by \code{argus start}. Every record is read back and compared.
}
\usage{
argus_job(data, value, tables, levels = NULL, tree = NULL, lead = NULL,
  parent = NULL, total = NULL, weight = NULL, holding = NULL, rules = NULL,
  method = NULL, contributors = FALSE, apriori = NULL, cost = NULL,
  steps = NULL, nodes = NULL, missing = NULL, round = NULL, folder = NULL,
  name = "table", force = FALSE)

\method{print}{argus_job}(x, ...)
}
\arguments{
\item{data}{a data frame, a record a row; a tibble or a data.table too.}
\item{value}{the name of the column that is added up. It is numeric, or of
  bit64's class integer64, and nowhere negative. Rows in which it is \code{NA}
  are skipped.}
\item{tables}{a formula, or a list of formulas. \code{~ region * industry} is a
  table by two variables with all its margins. \code{industry[2]} is a
  variable down to its level 2; level 1 is right below the total. A \code{+}
  makes a table more: \code{~ region * size + industry}. A formula whose terms
  leave a margin or the total out (\code{a:b}, \code{- 1}) is refused, since
  argus's tables have all margins. A table may also be a text for each
  variable: \code{c("region", "industry:2")}.}
\item{levels}{codes by digits: the bytes of a code for each level, from the
  front, as \code{list(industry = c(2, 1, 1))}.}
\item{tree}{hierarchies, as \code{list(region = ..)}: the name of a hierarchy
  file, or its lines, or a data frame with sdcTable's two columns, the leads
  (\code{"@"} for the total, which is the first line, \code{"@@"} below it)
  and the codes.}
\item{lead}{the lead of a hierarchy file or of its lines, if it isn't
  \code{@}: \code{c(region = "--")}.}
\item{parent}{the column that says the group of each code:
  \code{c(industry = "division")}. That column may have a parent of its own.}
\item{total}{the code of the total, if it isn't \code{Total}: one word for all
  variables, or \code{c(region = "All")}.}
\item{weight}{the name of the column of weights, from 1, with at most four
  decimals. The rules get \code{WGT(1)}.}
\item{holding}{the name of the column that says to which holding a record
  belongs. An argus that doesn't know holdings refuses it by a condition of
  the class \code{argus_unknown_word}.}
\item{rules}{the office's rules, as \code{"P(15)|FREQ(3,30)"}. Without them the
  job has examples, and a message says so.}
\item{method}{\code{"MOD()"}, the default, or \code{"GH(n)"}, which hide; or
  \code{"RND(b)"}, which rounds to multiples of b.}
\item{contributors}{whether firms that stand alone in a cell are kept out too.}
\item{apriori}{what the office states of cells beforehand: for each table the
  name of a file or a data frame with the codes of the table's variables, a
  keyword (\code{u}, \code{s}, \code{p}, \code{c}, \code{pl}, \code{b}) and
  its numbers. A list has one for each table, by position or by names such as
  \code{"2"}.}
\item{cost}{what hiding a cell costs: \code{"VALUE"}, \code{"FREQ"} or
  \code{"UNIT"}.}
\item{steps, nodes}{limits of searches.}
\item{missing}{words that mean no answer. \code{NA} and an empty text do
  anyway; the text \code{"NA"} is a code like others.}
\item{round}{decimals to which the value is rounded, or a named number for
  value and weight, as \code{c(turnover = 2, weight = 4)}. See below.}
\item{folder}{the folder of the files, made where there is none. Without it
  they are in a folder that goes with the session.}
\item{name}{the name of the files, without an end.}
\item{force}{whether files of an earlier call are replaced.}
\item{x}{a job.}
\item{...}{isn't used.}
}
\details{
\strong{Numbers are never rounded silently.} Each amount is written with the
fewest digits, 15 to 17, that R reads as the same number again. argus takes
nine decimals of a value and four of a weight, and refuses a number that has
more, so \code{1/3} or \code{0.1 + 0.2} is an error that names its row. With
\code{round} the decimal digits of the number, as they would be written, are
rounded, a half away from zero: \code{2.675} to two decimals is 2.68, although
the binary number that R keeps is a little below it. A message says how many
numbers were rounded.

\strong{Codes are texts.} Factors give their labels, dates 2026-12-02, whole
numbers their digits (100000, never 1e+05), integer64 all of its digits, with
or without the package bit64. Whole numbers from 2^53 on are refused, since R
has lost digits of them. Blanks at the ends of a code don't count. Texts are
written in UTF-8, whatever their encoding is; one that isn't text of its
encoding is refused.

Only the columns that the job names are written. Nothing is written over: an
input never, and files of an earlier call only with \code{force}.
}
\value{
An object of the class \code{argus_job}: the folder, the name of the job's
file, and what \code{start} said of the data, which \code{print} shows.
Compare it with what the office knows.
}
\seealso{\code{\link{argus_protect}}; \code{\link{argus_explain}} for the
conditions.}
\examples{
firms <- data.frame(
  region = rep(c("North", "South"), c(6, 7)),
  branch = rep(c("Food", "Steel", "Food", "Steel"), c(2, 4, 4, 3)),
  turnover = c(10, 10, 10, 10, 10, 20, 5, 5, 10, 10, 15, 10, 15))
if (!inherits(try(argus_path(), TRUE), "try-error")) {
  argus_job(firms, "turnover", ~ region * branch, rules = "FREQ(3,30)")
}
}
