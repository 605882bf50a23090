\name{decl_run}
\alias{decl_run}
\alias{decl_check}
\alias{decl_fmt}
\alias{decl_made}
\title{Reports on a text, its faults and its spelling}
\description{
  \code{decl_run} calls the program once for a report on asks about a text. \code{decl_check} raises the fault of a text, and
  evaluates nothing. \code{decl_fmt} is the text in its one canonical spelling, and \code{decl_made} the text of a generated program.
}
\usage{
decl_run(text, asks, bs = NULL, log2 = NULL, digits = NULL, width = NULL, mwidth = NULL,
         make = NULL, numeric = FALSE, timeout = 0, rules = NULL)
decl_check(text, bs = NULL, log2 = NULL, timeout = 0, rules = NULL)
decl_fmt(text, timeout = 0)
decl_made(number, timeout = 0)
}
\arguments{
  \item{text}{a program of the language: one string, several lines, or raw bytes in UTF-8}
  \item{asks}{words such as \code{"mean"}, \code{"q:0.995"}, \code{"layer:10xs5"}, with amounts in buckets}
  \item{bs}{the size of a bucket in money; NULL for 1}
  \item{log2}{the grid has \code{2^log2} buckets, from 1 to 16}
  \item{digits}{digits after the point}
  \item{width, mwidth}{the widest answer, in units of its last digit: of probabilities, and of means}
  \item{make, number}{the number of a generated program, in place of the text}
  \item{numeric}{FALSE: ends are exact decimals as text. TRUE: doubles, low ends rounded down and high ends up; an end beyond the grid
    is infinite, and one that is not there is NA}
  \item{timeout}{seconds after which the program is ended; 0 for none}
  \item{rules}{\code{"standard"}, as where it is NULL, or \code{"extended"}: then a program may have 256 units, lists of 65,536 values, weights
    of a common denominator of 2^40 and gamma counts and common factors of any shape, and a share of the tail mean, \code{cotail}, has
    numbers wherever the tail mean has, at levels of up to 9 digits}
}
\details{
  A number is passed on as the decimal or the fraction that it is; a text such as \code{"1/3"} as it is. The program is the one that the
  variable \env{DECL} names, else \command{decl} on the path.

  Where there is no report, an error of class \code{decl_fault} is raised. Its fields are \code{status}, \code{told}, \code{line},
  \code{column}, \code{unit}, \code{rule}, \code{name}, \code{sentence}, \code{word}, \code{ask}, \code{step} and \code{needed}; those that
  a fault has not are NULL.
}
\value{
  \code{decl_run}: a data frame with the columns \code{ask}, \code{low} and \code{high}, and the attributes \code{bs} and \code{cells}.
  \code{decl_check}: TRUE. The others: a text.
}
\examples{
if (nzchar(Sys.which(Sys.getenv("DECL", "decl")))) {
    decl_run("agg Dice dfreq [2] dsev [1:6]", c("pmf:2", "mean", "q:0.9"))
}
}
