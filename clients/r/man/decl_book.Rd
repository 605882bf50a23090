\name{decl_book}
\alias{decl_book}
\alias{decl_ask}
\alias{decl_return_periods}
\alias{print.decl_book}
\alias{mean.decl_book}
\alias{quantile.decl_book}
\title{A book in money}
\description{
  The bucket and the grid of a book are chosen. Amounts are given and answered in money, and each answer has two ends that hold the declared
  value. The ends in buckets are proved of the program; that they are turned into money outward is tested.
}
\usage{
decl_book(text, bs = NULL, log2 = NULL, digits = 6, inside = "0.999999", timeout = 0, rules = NULL)
decl_ask(book, asks, numeric = FALSE)
decl_return_periods(book, years = c(10, 50, 100, 200, 250), numeric = FALSE)
\method{print}{decl_book}(x, ...)
\method{mean}{decl_book}(x, numeric = FALSE, ...)
\method{quantile}{decl_book}(x, probs = c(0.5, 0.9, 0.95, 0.99, 0.995), numeric = FALSE, ...)
}
\arguments{
  \item{text}{a program of the language}
  \item{bs}{the size of a bucket in money; NULL for the greatest that divides all amounts}
  \item{log2}{the grid has \code{2^log2} buckets; NULL for the least grid in which a probability of \code{inside} is sure to lie, else the
    largest one that takes the text, with a warning where it may lose more than 1 in 10,000}
  \item{digits}{digits of an answer in buckets; there are fewer where it needs a larger width than there is}
  \item{inside}{a probability, as a number or a text}
  \item{timeout}{seconds for one call of the program; 0 for none}
  \item{rules}{those of \code{\link{decl_run}}, for the text and all asks about the book}
  \item{book, x}{a book of \code{decl_book}}
  \item{asks}{asks of the program with amounts in money, as \code{"layer:80000xs20000"}, and \code{"sf:x"}, the probability of more than x}
  \item{numeric}{FALSE: ends as decimals in text. TRUE: doubles, low ends rounded down and high ends up}
  \item{years}{return periods, whole numbers of years}
  \item{probs}{levels of quantiles}
  \item{...}{not used}
}
\details{
  \code{cdf} and \code{sf} are answered between two buckets and past the grid too, and \code{pmf} is 0 between two buckets. The amounts of
  \code{layer}, \code{joint} and \code{kappa} have to be whole numbers of buckets; a smaller \code{bs} divides them.
}
\value{
  \code{decl_book}: a list of class \code{decl_book} with \code{text}, \code{bs}, \code{log2}, \code{cells}, \code{digits},
  \code{timeout} and \code{rules}. \code{decl_ask}, \code{mean} and \code{quantile}: a data frame with the columns \code{ask}, \code{low} and \code{high}.
  \code{decl_return_periods}: a data frame with \code{years}, and two ends each of the total that is passed at most once in so many years
  (VaR) and of the mean of the worst such years (TVaR).
}
\examples{
if (nzchar(Sys.which(Sys.getenv("DECL", "decl")))) {
    book <- decl_book("agg Fire 3 claims dsev [10000 20000 50000] [0.5 0.3 0.2] poisson")
    decl_ask(book, c("mean", "q:0.99", "tail:0.99", "layer:80000xs20000"))
    decl_return_periods(book, c(10, 100))
}
}
