\name{decl_certify}
\alias{decl_certify}
\alias{decl_verify}
\title{Certificates of a text's total}
\description{
  A certificate is a list of steps that shows that a grid encloses the total of a text.
}
\usage{
decl_certify(text, bs = NULL, log2 = NULL, make = NULL, timeout = 0)
decl_verify(text, steps, bs = NULL, log2 = NULL, timeout = 0)
}
\arguments{
  \item{text}{a program of the language}
  \item{steps}{the steps, one a line}
  \item{bs, log2}{the size of a bucket in money, and the grid, of at most \code{2^10} buckets}
  \item{make}{the number of a generated program, in place of the text}
  \item{timeout}{seconds after which the program is ended; 0 for none}
}
\value{
  \code{decl_certify}: the steps, as text. \code{decl_verify}: TRUE; where the steps are no certificate it raises an error of class
  \code{decl_fault} with the field \code{step} or \code{unit}.
}
\examples{
if (nzchar(Sys.which(Sys.getenv("DECL", "decl")))) {
    claim <- "agg F 1 claims dsev [1] fixed"
    decl_verify(claim, decl_certify(claim, log2 = 1), log2 = 1)
}
}
