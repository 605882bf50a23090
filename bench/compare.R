# What actuar's recursion answers to the programs of bench/compare.py: one line for each, its name, a tab and the value.
# With the word 'times' it writes how many seconds each took, as the least of three.
suppressPackageStartupMessages(library(actuar))
die <- c(0, rep(1, 6) / 6)
ten <- c(0, rep(1, 10) / 10)
rare <- numeric(101)
rare[2] <- 0.99
rare[101] <- 0.01
poisson <- function(severity, mean, none = NULL) {
    aggregateDist("recursive", model.freq = "poisson", model.sev = severity, lambda = mean, p0 = none, maxit = 100000)
}
chance <- function(total, x) total(x) - total(x - 1)
above <- function(total, attachment) {
    at <- knots(total)
    weights <- diff(c(0, total(at)))
    sum(pmax(at - attachment, 0) * weights)
}
cases <- list(
    wrapped = function() chance(poisson(die, 10), 3),
    meets = function() as.numeric(quantile(aggregateDist("convolution", model.freq = c(0, 1), model.sev = ten), 0.8)),
    tail = function() chance(poisson(c(0, 1), 1), 40),
    survival = function() 1 - poisson(c(0, 1), 1)(20),
    underflow = function() poisson(c(0, 1), 4096)(4095),
    cut = function() above(poisson(rare, 2), 300),
    changed = function() suppressWarnings(poisson(c(0, 1), 100, 0.2))(100),
    shape = function() {
        count <- aggregateDist("recursive", model.freq = "negative binomial", model.sev = die, size = 0.64, prob = 0.64 / 20.64, maxit = 100000)
        count(40)
    }
)
told <- function(case) tryCatch(sprintf("%.17g", case()), error = function(found) conditionMessage(found))
if ("times" %in% commandArgs(TRUE)) {
    took <- function(case) min(replicate(3, system.time(told(case))[["elapsed"]]))
    for (name in names(cases)) cat(name, "\t", took(cases[[name]]), "\n", sep = "")
} else {
    for (name in names(cases)) cat(name, "\t", told(cases[[name]]), "\n", sep = "")
}
