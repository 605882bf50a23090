\name{decl_bucket}
\alias{decl_bucket}
\alias{decl_grid}
\title{The size of a bucket, and the number of buckets}
\description{
  \code{decl_bucket} is the greatest size of a bucket that divides every amount, limit and attachment of a text. \code{decl_grid} is the
  least \code{log2} with which so much probability is sure to lie inside the grid.
}
\usage{
decl_bucket(text, shares = TRUE, timeout = 0, rules = NULL)
decl_grid(text, inside = "0.999999", bs = NULL, digits = 9, width = 1e9, make = NULL, timeout = 0,
          rules = NULL)
}
\arguments{
  \item{text}{a program of the language}
  \item{shares}{TRUE: the outcomes of clauses that take shares are whole numbers of buckets too}
  \item{inside}{a probability, as a number or a text}
  \item{bs}{the size of a bucket in money}
  \item{digits, width}{those of the probability that is asked of each grid}
  \item{make}{the number of a generated program, in place of the text}
  \item{timeout}{seconds after which the program is ended; 0 for none}
  \item{rules}{those of \code{\link{decl_run}}}
}
\value{
  \code{decl_bucket}: a text such as \code{"250"} or \code{"1/2"}. \code{decl_grid}: a number from 1 to 16. An error of class
  \code{decl_fault} with the fields \code{log2}, \code{low} and \code{high} of the largest grid, where that is not sure to hold so much.
}
\examples{
if (nzchar(Sys.which(Sys.getenv("DECL", "decl")))) {
    decl_bucket("agg Dice dfreq [2] dsev [100:600:100]")
}
}
