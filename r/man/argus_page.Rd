\name{argus_page}
\alias{argus_page}
\title{A Page of a Release}
\description{
Writes a release as one page for the browser, by \code{argus page}, and opens
it.
}
\usage{
argus_page(x, file = NULL, title = NULL, public = FALSE,
  open = interactive())
}
\arguments{
\item{x}{a release, a job that was run, or the name of its file.}
\item{file}{the name of the page. Without it, it is in the job's folder, which
  may go with the session. It never replaces a file that isn't such a page.}
\item{title}{title, unit, period and date, in this order; any may be left out.}
\item{public}{whether the page has the tables alone, and may be published.
  Any other page has true values, and is for the office.}
\item{open}{whether the page is opened.}
}
\value{The name of the page, invisibly.}
\examples{
firms <- data.frame(
  region = rep(c("North", "South"), c(6, 7)),
  turnover = c(10, 10, 10, 10, 10, 20, 5, 5, 10, 10, 15, 10, 15))
if (!inherits(try(argus_path(), TRUE), "try-error")) {
  release <- argus_protect(
    argus_job(firms, "turnover", ~ region, rules = "FREQ(3,30)"))
  argus_page(release, title = c("Turnover of firms", "million euros"))
}
}
