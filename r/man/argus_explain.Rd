\name{argus_explain}
\alias{argus_explain}
\alias{print.argus_explanation}
\alias{argus_error}
\title{What an Answer Means, and the Conditions of this Package}
\description{
Everything that goes wrong is a condition with a class, and its message has
argus's answer and what \code{argus explain} makes of it. \code{argus_explain}
gives the explanation of a condition, of a release, or of an answer from
elsewhere.
}
\usage{
argus_explain(x, answer = NULL)

\method{print}{argus_explanation}(x, ...)
}
\arguments{
\item{x}{a condition, a release, a job, or the name of a job's file; an
  explanation for \code{print}.}
\item{answer}{with a job, what argus printed: one line, or two.}
\item{...}{isn't used.}
}
\details{
Each error has the class \code{argus_error}, and one of these:
\describe{
\item{argus_bad_call}{an argument can't be meant so.}
\item{argus_refused}{argus or \code{start} refuses an input.}
\item{argus_not_protected}{\code{cannot protect ..} or \code{no rounding}.}
\item{argus_not_accepted}{the check doesn't accept the release.}
\item{argus_undecided}{a search needed more than it is allowed.}
\item{argus_fault}{a file couldn't be read or written, or memory ran out.}
\item{argus_no_program}{the program isn't there, or couldn't be unpacked.}
\item{argus_unknown_word}{this argus doesn't know an argument yet.}
}
Its fields are \code{answer} (argus's own lines), \code{status}, \code{file},
\code{line}, \code{row} (of the data frame), \code{column}, \code{remedy} and
\code{explanation}. Warnings are \code{argus_doubt} and \code{argus_inexact}
(amounts of more than 15 digits).
}
\value{
An object of the class \code{argus_explanation} with the parts \code{answer},
\code{lines} and \code{kind}.
}
\examples{
firms <- data.frame(region = c("North", "South"), turnover = c(10, -2))
if (!inherits(try(argus_path(), TRUE), "try-error")) {
  fault <- tryCatch(argus_job(firms, "turnover", ~ region),
                    argus_refused = function(it) it)
  fault$row
  argus_explain(fault)
}
}
