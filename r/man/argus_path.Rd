\name{argus_path}
\alias{argus_path}
\title{Where the Program argus Is}
\description{
The package calls the program argus, and does nothing without it. It is looked
for in four places, in this order: \code{options(argus.path =)}, the program or
the folder that has it; the environment variable \code{ARGUS}, the same;
the search path; and the clone of argus's repository that this package was
installed from, or in which R works.
}
\usage{
argus_path()
}
\value{
The full name of the program. Where it isn't found, a condition of the class
\code{argus_no_program}.
}
\examples{
tryCatch(argus_path(), argus_no_program = conditionMessage)
}
