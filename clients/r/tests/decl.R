# Tests of the R client over the built program; the last line is 'N passed, M failed'. R CMD check runs them too, on the installed
# package, where there is a program to run.
script <- sub("^--file=", "", grep("^--file=", commandArgs(), value = TRUE))
here <- if (length(script)) dirname(script[1]) else "."
if (file.exists(file.path(here, "..", "decl.R"))) {
    source(file.path(here, "..", "decl.R"))
} else {
    library(decl)
    attach(asNamespace("decl"), name = "inside of decl")
}
if (!nzchar(Sys.which(Sys.getenv("DECL", "decl")))) {
    cat("nothing is tested: there is no program decl\n")
    quit(status = 0)
}
passed <- 0
failed <- 0
built <- Sys.getenv("DECL")

test <- function(name, body) {
    Sys.setenv(DECL = built)
    wrong <- tryCatch({ force(body); NULL }, error = function(found) conditionMessage(found))
    if (is.null(wrong)) {
        passed <<- passed + 1
    } else {
        failed <<- failed + 1
        cat("FAILED:", name, "\n", wrong, "\n")
    }
}
fault <- function(call) tryCatch({ call; stop("no fault was raised") }, decl_fault = identity)
instead <- function(body) {
    script <- tempfile("decl")
    writeLines(c("#!/bin/sh", sprintf("BUILT='%s'", built), body), script)
    Sys.chmod(script, "755")
    Sys.setenv(DECL = script)
}
dice <- "agg Dice dfreq [2] dsev [1:6]"
die <- "agg D dfreq [1] dsev [1:6]"

test("exact ends as text", {
    rows <- decl_run(dice, c("pmf:2", "mean", "q:0.9"))
    stopifnot(is.data.frame(rows), identical(names(rows), c("ask", "low", "high")))
    stopifnot(identical(rows$low, c("0.027777", "7.000000", "10")), identical(rows$high, c("0.027778", "7.000000", "10")))
})
test("doubles rounded outward", {
    rows <- decl_run(dice, c("pmf:2", "q:0.9"), numeric = TRUE)
    stopifnot(rows$low[1] < 1 / 36, rows$high[1] > 1 / 36, rows$low[2] == 10, rows$high[1] - rows$low[1] < 1.1e-6)
})
test("the digits of an end decide to which double it is rounded", {
    # times 2^56, 2^54 and 2^27 these are 7205759403792793.6, 5404319552844595.2 and a little above 40 million times 2^27
    stopifnot(decl_double("0.1", FALSE) == 7205759403792793 / 2^56, decl_double("0.1", TRUE) == 7205759403792794 / 2^56)
    stopifnot(decl_double("0.300", FALSE) == 5404319552844595 / 2^54, decl_double("0.300", TRUE) == 5404319552844596 / 2^54)
    stopifnot(decl_double("40000000.000000001", FALSE) == 4e7, decl_double("40000000.000000001", TRUE) == 4e7 + 2^-27)
    stopifnot(decl_double("9007199254740993", FALSE) == 2^53, decl_double("9007199254740993", TRUE) == 2^53 + 2)
    stopifnot(decl_double("4503599627370495.9", TRUE) == 2^52, decl_double("4503599627370495.9", FALSE) == 2^52 - 0.5)
    for (exact in c("0", "7.000000", "0.5", "40000000.000000000", "4503599627370496")) {
        stopifnot(decl_double(exact, FALSE) == as.numeric(exact), decl_double(exact, TRUE) == as.numeric(exact))
    }
    # the mean is 40 million over 1 - exp(-40), which is above 40 million by 1.7e-10
    rows <- decl_run("agg A 40 claims dsev [1000000] poisson zt", "mean", digits = 9, mwidth = 1e12, numeric = TRUE)
    stopifnot(rows$low <= 4e7, rows$high > 4e7)
})
test("certificates", {
    claim <- "agg F 1 claims dsev [1] fixed"
    whole <- "72057594037927936"
    steps <- decl_certify(claim, log2 = 1)
    stopifnot(identical(steps, paste0("start 0 0,0 ", whole, ",", whole, "\n")), decl_verify(claim, steps, log2 = 1))
    book <- "port T\nagg A 3 claims dsev [1:3] poisson\nagg B 2 claims dsev [1 2] binomial 1/2"
    stopifnot(decl_verify(book, decl_certify(book, log2 = 5), log2 = 5))
    bad <- fault(decl_verify(claim, sub("0,0", "1,1", steps), log2 = 1))
    stopifnot(bad$status == 3, bad$step == 0, is.null(bad$unit))
    bare <- fault(decl_certify(die))
    stopifnot(bare$status == 3, bare$unit == 0, is.null(bare$step), is.null(bare$rule))
})
test("what is beyond the grid, and what is absent", {
    rows <- decl_run("agg P 10 claims dsev [1] poisson", c("q:0.5", "tail:0.5"), log2 = 2, numeric = TRUE)
    stopifnot(identical(rows$low, c(4, -Inf)), identical(rows$high, c(Inf, Inf)))
    pair <- "port T agg A dfreq [1] dsev [1:3]\nagg B dfreq [1] dsev [1:3] [1/2 1/6 1/3]"
    rows <- decl_run(pair, c("kappa:A:4", "kappa:A:1"), log2 = 4)
    stopifnot(identical(rows$low, c("2.166666", "-")), identical(rows$high, c("2.166667", "-")))
})
test("prices, and shares of the tail mean", {
    # half of 7 and half of 100/9; 73/27 and 77/27, which add up to 50/9
    stopifnot(identical(decl_run(dice, "price:1/2@0+1/2@0.9", log2 = 4)$low, "9.055555"))
    stopifnot(fault(decl_run(dice, "price:1/2@0"))$status == 2)
    pair <- "port T agg A dfreq [1] dsev [1:3]\nagg B dfreq [1] dsev [1:3] [1/2 1/6 1/3]"
    rows <- decl_run(pair, c("cotail:A:0.8", "cotail:B:0.8", "tail:0.8"), log2 = 4, numeric = TRUE)
    stopifnot(rows$low <= c(73, 77, 150) / 27, rows$high >= c(73, 77, 150) / 27, rows$high - rows$low < 1.1e-6)
    stopifnot(rows$low[1] + rows$low[2] <= 50 / 9, rows$high[1] + rows$high[2] >= 50 / 9)
    far <- decl_run("agg P 10 claims dsev [1] poisson", "price:1@0.5", log2 = 2)
    stopifnot(identical(far$low, "beyond"), identical(far$high, "beyond"))
})
test("options", {
    rows <- decl_run("agg H dfreq [1] dsev [0.5 1 1.5]", "pmf:3", bs = "1/2", log2 = 4, digits = 4, mwidth = 1000000000000)
    stopifnot(identical(rows$low, "0.3333"))
    stopifnot(inherits(try(decl_run(die, "mean", grid = 3), silent = TRUE), "try-error"))
})
test("the size of a bucket and the number of buckets are attributes", {
    rows <- decl_run("agg H dfreq [1] dsev [0.5 1 1.5]", "mean", bs = "0.5", log2 = 4)
    stopifnot(identical(attr(rows, "bs"), "1/2"), identical(attr(rows, "cells"), 16L))
    rows <- decl_run("agg H dfreq [1] dsev [500 1000]", c("mean", "q:0.9"), bs = 250, numeric = TRUE)
    stopifnot(identical(attr(rows, "bs"), "250"), identical(attr(rows, "cells"), 1024L), rows$low[2] == 4)
})
test("a fraction is passed on exactly", {
    text <- "agg T dfreq [1] dsev [1/3 2/3 1]"
    for (third in list(1/3, "1/3")) {
        rows <- decl_run(text, "mean", bs = third, log2 = 4)
        stopifnot(identical(attr(rows, "bs"), "1/3"), identical(rows$low, "2.000000"))
    }
    spelled <- vapply(list(250, 250L, 0.25, 1/3, 2/7, 355/113, 1e-5, 1e12, 1e5, 0.12345678901), decl_spelled, "", "bs")
    wanted <- c("250", "250", "0.25", "1/3", "2/7", "355/113", "0.00001", "1000000000000", "100000", ".12345678901")
    stopifnot(identical(spelled, wanted))
    for (bad in list(pi, 0.1 + 0.2, NA, c(1, 2), TRUE, Inf)) {
        stopifnot(inherits(try(decl_run(text, "mean", bs = bad), silent = TRUE), "try-error"))
    }
})
test("the size of a bucket that divides all amounts", {
    stopifnot(decl_bucket("agg A 2 claims 20000 xs 1500 dsev [500 1750 4000] poisson") == "250")
    stopifnot(decl_bucket("agg A dfreq [1] dsev [0.5 1 1.5]") == "1/2")
    stopifnot(decl_bucket("agg A dfreq [1] dsev [1/3 1/2]") == "1/6")
    stopifnot(decl_bucket("agg A dfreq [1] dsev [12.5% 50%]") == "1/8", decl_bucket("agg A dfreq [1] dsev [0]") == "1")
    stopifnot(decl_bucket("agg A dfreq [1] dsev [100:600:50]") == "50", decl_bucket("agg A dfreq [1] dsev [2:6]") == "1")
    stopifnot(decl_bucket("agg A dfreq [1] dsev [100:149:50]") == "100")
    text <- "agg A dfreq [1 3] [0.25 0.75] sev dhistogram xps [4, 8] [1/2 1/2] note{7 xs 3} # 5 xs 1"
    stopifnot(decl_bucket(text) == "4")
    text <- "agg A dfreq [1] dsev [40 80] occurrence net of 30 xs 20 aggregate ceded to inf xs 25"
    stopifnot(decl_bucket(text) == "5")
    stopifnot(fault(decl_bucket("agg D dfreq [1] dsev [1 2] [1/3 1/3]"))$rule == 6)
    # of named severities, the one that a unit uses
    stopifnot(decl_bucket("sev Small dsev [7] sev Large dsev [400 800] agg A dfreq [1] sev.Large") == "400")
    text <- "sev S dsev [4] dsev [10] wts [1/2 1/2] sev T dsev [3] port P agg A dfreq [1] 8 xs 6 sev.S agg B dfreq [1] dsev [2]"
    stopifnot(decl_bucket(text) == "2", decl_bucket(paste(text, "agg C dfreq [1] sev.T")) == "1")
})
test("shares ask for finer buckets", {
    text <- "agg N dfreq [1] dsev [1 3] occurrence net of 0.5 so 4 xs 0"
    stopifnot(decl_bucket(text) == "1/2", decl_bucket(text, shares = FALSE) == "1")
    stopifnot(decl_check(text, bs = decl_bucket(text)))
    stopifnot(decl_bucket("agg N dfreq [1] dsev [2 4 6] occurrence net of 0.5 so 4 xs 2") == "1")
    stopifnot(decl_bucket("agg N dfreq [1] dsev [6] occurrence net of 1 po 4 xs 2") == "1")
    stopifnot(decl_bucket("agg N dfreq [1] dsev [7] occurrence net of 1 po 3 xs 2 and 1/5 so 1 xs 5") == "1/5")
})
test("the least grid that holds so much", {
    stopifnot(decl_grid(dice) == 4, decl_grid(dice, "50%") == 3, decl_grid(dice, 1/6) == 3)
    stopifnot(decl_grid(dice, "0.583333333") == 3, decl_grid(dice, "7/12") == 4) # at most 7 has the probability 7/12
    poisson <- "agg P 10 claims dsev [1] poisson"
    stopifnot(decl_grid(poisson, 0.97) == 5, decl_grid(poisson, 0.95) == 4)
    stopifnot(decl_grid("agg A dfreq [1] dsev [0 5000]", 0.9) == 13, decl_grid("agg A dfreq [1] dsev [0 60000]", 0.9) == 16)
    found <- fault(decl_grid("agg A dfreq [1] dsev [0 100000]", 0.9))
    stopifnot(grepl("65,536 buckets.*take larger buckets", conditionMessage(found)), found$log2 == 16)
    stopifnot(as.numeric(found$low) > 0.49, as.numeric(found$low) <= 0.5)
})
test("texts that long grids alone take", {
    far <- "agg A dfreq [1] dsev [0 2000000]"                           # past the 2^20 buckets of short grids
    late <- "agg A dfreq [1] dsev [0 40000] aggregate net of 20000 xs 0" # 20,000 or nothing is left
    stopifnot(decl_grid(far, 0.4) == 13, decl_bucket("agg A dfreq [1] dsev [1 2000000]") == "1")
    stopifnot(decl_grid(late, 0.9) == 15, fault(decl_check(late, log2 = 12))$rule == 21, decl_check(late, log2 = 13))
    stopifnot(fault(decl_grid("agg A dfreq [1] dsev [0 4194305]", 0.4))$rule == 8)
    # 50,000 and 8,192 buckets are there, 50,000 and 16,384 are not
    found <- fault(decl_grid("agg A dfreq [1] dsev [0 90000] aggregate net of 50000 xs 0", 0.9))
    stopifnot(grepl("that takes the text, of 8,192 buckets", conditionMessage(found)), found$log2 == 13)
})
test("made programs", {
    stopifnot(startsWith(decl_made(0), "port Made\nagg U1 34 claims dsev [1:9] poisson\nagg U2 31 claims"))
    stopifnot(identical(decl_run(decl_made(7), "mean")$low, decl_run("", "mean", make = 7)$low))
})
test("units under a common factor", {
    text <- "port C common 0.5 agg A 1 claims dsev [2] poisson agg B 2 claims dsev [2] poisson"
    stopifnot(decl_bucket(text) == "2")
    rows <- decl_run(text, c("pmf:0", "kappa:A:2"), bs = 2, log2 = 4)
    stopifnot(identical(rows$low, c("0.106622", "0.666666")), identical(rows$high, c("0.106623", "0.666667")))
    found <- fault(decl_run(text, c("mean", "cotail:A:0.8"), log2 = 4))
    stopifnot(found$status == 8L, found$ask == 1L, found$told == "decl: ask 1: no share under a common factor")
    # one third and two thirds of the tail mean
    rows <- decl_run(text, c("cotail:A:0.8", "cotail:B:.8", "tail:0.8", "cotail:A:0"), bs = 2, log2 = 4, rules = "extended")
    stopifnot(identical(rows$low, c("2.188934", "4.377868", "6.566803", "1.000000")))
    book <- decl_book(text, rules = "extended")
    rows <- decl_ask(book, c("mean", "cotail:A:.8"), numeric = TRUE)
    stopifnot(rows$low[2] <= 4.377868955, rows$high[2] >= 4.377868956, rows$high[2] - rows$low[2] < 1e-5)
    found <- fault(decl_ask(decl_book(text), "cotail:A:0.8"))
    stopifnot(found$told == "decl: ask 0: no share under a common factor", fault(decl_check(text, rules = "wide"))$status == 2L)
})
test("shapes, units, lists and weights of the extended rules", {
    # shape 100/9, and the same as a common factor; twice as large on buckets of 2
    text <- "agg G 2 claims dsev [2] mixed gamma 0.3"
    found <- fault(decl_run(text, "pmf:0", log2 = 4))
    stopifnot(found$rule == 18L, grepl("the extended rules take any", found$sentence))
    stopifnot(identical(decl_run(text, "pmf:3", bs = 2, log2 = 4, rules = "extended")$low, "0.165925"))
    stopifnot(decl_bucket(text, rules = "extended") == "2", decl_grid(text, 0.9, bs = 2, rules = "extended") == 3)
    stopifnot(fault(decl_bucket(text))$rule == 18L, fault(decl_grid(text))$rule == 18L, fault(decl_book(text))$rule == 18L)
    book <- decl_book(text, rules = "extended")
    stopifnot(identical(decl_ask(book, "pmf:6")$low, "0.165925"), identical(mean(book)$high, "4"))
    common <- "port C common 0.3 agg A 1 claims dsev [1] poisson agg B 1 claims dsev [1] poisson"
    stopifnot(identical(decl_run(common, "pmf:3", log2 = 4, rules = "extended")$high, "0.165926"))
    port <- paste(c("port P", sprintf("agg U%d dfreq [1] dsev [1:3]", 1:40)), collapse = "\n")
    stopifnot(fault(decl_check(port))$rule == 22L, identical(decl_run(port, "mean", rules = "extended")$low, "80.000000"))
    large <- paste(c("port P", sprintf("agg U%d 1 claims dsev [1] poisson zt", 1:17)), collapse = "\n")
    found <- fault(decl_check(large, rules = "extended"))
    stopifnot(found$rule == 30L, grepl("at most 16 have zt or zm", found$sentence))
    long <- "agg D dfreq [1] dsev [1:2000]"
    stopifnot(fault(decl_book(long))$rule == 4L, identical(mean(decl_book(long, rules = "extended"))$low, "1000.5"))
})
test("shares of the tail mean by the extended rules", {
    # a third of the years come to 1 exactly, so that the quantile is not sure: 4 of the others; and the mean, 3
    text <- "port P agg A dfreq [1] dsev [1 3 5] agg B dfreq [1] dsev [0]"
    stopifnot(identical(decl_run(text, c("cotail:A:1/3", "cotail:A:0"), log2 = 4, rules = "standard")$low, c("-", "-")))
    rows <- decl_run(text, c("cotail:A:1/3", "cotail:A:0", "cotail:A:0.99999"), log2 = 4, rules = "extended", numeric = TRUE)
    stopifnot(rows$low <= c(4, 3, 5), rows$high >= c(4, 3, 5), rows$high - rows$low < 1e-5)
    stopifnot(decl_check(text, rules = "extended"))
})
rules <- file.path(here, "..", "..", "sentences.txt")
if (file.exists(rules)) test("the sentences of the rules are those of the one file", {
    told <- strsplit(readLines(rules), "\t", fixed = TRUE)
    found <- character(length(decl_sentences))
    found[as.integer(vapply(told, `[`, "", 1L))] <- gsub("{bucket}", "decl_bucket(text)", vapply(told, `[`, "", 2L), fixed = TRUE)
    stopifnot(identical(found, decl_sentences))
})
test("several lines, and raw bytes", {
    stopifnot(identical(decl_run(c("agg D dfreq [1]", "dsev [1:6]"), "mean")$low, "3.500000"))
    stopifnot(identical(decl_run(charToRaw(die), "mean")$low, "3.500000"))
})
test("fmt and check", {
    stopifnot(identical(decl_fmt("agg  D dfreq [1,2] dsev [1]"), "agg D dfreq [1 2] dsev [1]\n"))
    stopifnot(decl_check(die))
})
test("faults of a text, with their place", {
    found <- fault(decl_check("agg D dfreq [1] dsev [1 2] [1/3 1/3]"))
    stopifnot(found$status == 3, found$line == 1, found$column == 28, found$unit == 0, found$rule == 6)
    stopifnot(found$name == "NotOne", grepl("\n {29}\\^\n", conditionMessage(found)))
    stopifnot(grepl("add up to 1; nothing is rescaled.$", conditionMessage(found)), found$sentence == decl_sentences[6])
    found <- fault(decl_run("agg C 10 claims sev lognorm 50 cv 1.75 poisson", "mean"))
    stopifnot(found$word == "lognorm", found$column == 21)
    stopifnot(fault(decl_run("", "mean"))$told == "decl: 1:1: syntax")
})
test("faults of words and asks", {
    stopifnot(fault(decl_run(die, "mean", log2 = 17))$status == 2)
    stopifnot(fault(decl_run(die, c("pmf:1", "pmf")))$ask == 1)
    # an ask that begins like an option is none
    for (asks in list(c("mean", "--log2=4"), c("--bs", "7", "mean"))) {
        stopifnot(identical(fault(decl_run(die, asks))$status, 2L))
    }
    found <- fault(decl_run(die, "pmf:3", width = 1, log2 = 4))
    stopifnot(found$status == 4, found$needed == "2")
    stopifnot(fault(decl_run(die, "pmf:16", log2 = 4))$status == 8)
})
test("no program, a killed one, half a report", {
    Sys.setenv(DECL = "/nowhere/decl")
    stopifnot(grepl("no program", conditionMessage(fault(decl_run(die, "mean")))))
    instead("kill -KILL $$")
    stopifnot(grepl("signal 9", conditionMessage(fault(decl_run(die, "mean")))))
    for (half in c('{"bs":"1","cells":16,"rows":[{"ask":"mean","high":"3.5', "", "ask,low,high")) {
        instead(sprintf("cat > /dev/null; printf '%s'", half))
        stopifnot(grepl("no whole report", conditionMessage(fault(decl_run(die, "mean")))))
    }
    instead('exec "$BUILT" run --format json mean')
    stopifnot(grepl("no whole report", conditionMessage(fault(decl_run(die, c("mean", "pmf:1"))))))
})
test("a timeout ends the program and what it started", {
    stopifnot(identical(decl_run(die, "q:0.4", timeout = 60)$low, "3"))
    left <- tempfile("left")
    instead(sprintf("(sleep 2; touch '%s') &\nsleep 20", left))
    begun <- proc.time()[["elapsed"]]
    stopifnot(grepl("more than 0.5 seconds", conditionMessage(fault(decl_run(die, "mean", timeout = 0.5)))))
    stopifnot(proc.time()[["elapsed"]] - begun < 10)
    Sys.sleep(2.5)
    stopifnot(!file.exists(left))
})
test("a NUL byte, and no UTF-8", {
    stopifnot(grepl("NUL", conditionMessage(fault(decl_run(as.raw(c(97, 0, 98)), "mean")))))
    stopifnot(grepl("UTF-8", conditionMessage(fault(decl_run(as.raw(c(97, 255)), "mean")))))
})

ends <- function(rows) paste(rows$low, rows$high)
test("decimals of any length times a fraction, outward", {
    stopifnot(decl_times("2.000000", c(1, 3), FALSE) == "0.666666666666666", decl_times("2.000000", c(1, 3), TRUE) == "0.666666666666667")
    # 12345678901234567890.5 times 99999999999, and a fortieth of 7
    stopifnot(decl_times("12345678901234567890.5", c(99999999999, 1), TRUE) == "1234567890111111110148765432109.5")
    stopifnot(decl_times("7", c(1, 40), FALSE) == "0.175", decl_times("0", c(250, 1), TRUE) == "0", decl_times("0.04", c(25, 1), TRUE) == "1")
    stopifnot(decl_complement("0.972222") == "0.027778", decl_complement("0.000000") == "1", decl_complement("1.000000") == "0")
    stopifnot(decl_complement("0.1234567890123456") == "0.8765432109876544", decl_complement("0.9") == "0.1")
})
test("a book in money", {
    book <- decl_book("agg Dice dfreq [2] dsev [100:600:100]")
    stopifnot(inherits(book, "decl_book"), book$bs == "100", book$log2 == 4, book$cells == 16)
    rows <- decl_ask(book, c("mean", "q:0.9", "tail:0.9", "layer:500xs500", "layer:infxs1100"))
    # 7, 10, 100/9, 78/36 and 1/36 buckets
    stopifnot(identical(ends(rows), c("700 700", "1000 1000", "1111.1111 1111.1112", "216.6666 216.6667", "2.7777 2.7778")))
    stopifnot(identical(attr(rows, "bs"), "100"), identical(attr(rows, "cells"), 16L))
    # 3/36 of at most 350, 1/36 above 1150 and of 200; nothing between two buckets; all below the end of the grid
    rows <- decl_ask(book, c("cdf:350", "sf:1150", "pmf:200", "pmf:250", "cdf:99999", "sf:1600", "pmf:1600"))
    stopifnot(identical(ends(rows)[1:4], c("0.083333 0.083334", "0.027777 0.027778", "0.027777 0.027778", "0 0")))
    numbers <- decl_ask(book, c("cdf:99999", "sf:1600", "pmf:1600"), numeric = TRUE)
    stopifnot(numbers$low <= c(1, 0, 0), numbers$high >= c(1, 0, 0), numbers$high - numbers$low < 1.1e-6)
    stopifnot(identical(ends(mean(book)), "700 700"), identical(quantile(book, 0.9)$high, "1000"))
    table <- decl_return_periods(book, c(10, 36))
    # the worst of 36 years is 1200, and so is the mean of the worst 1/36 of them
    stopifnot(identical(table$VaR_low[1], "1000"), identical(table$TVaR_high[1], "1111.1112"))
    numbers <- decl_return_periods(book, 36, numeric = TRUE)
    stopifnot(numbers$VaR_low <= 1100, numbers$VaR_high >= 1100, numbers$TVaR_low <= 1200, numbers$TVaR_high >= 1200)
    stopifnot(identical(capture.output(print(book)), "decl book: 16 buckets of 100"))
})
test("shares of the units of a book, and a bucket of a third", {
    book <- decl_book("port Two agg A dfreq [1] dsev [100 200 300] agg B dfreq [1] dsev [100 200 300] [1/2 1/6 1/3]")
    # 13/6, 73/27 and 50/9 of the bucket, as the asks in buckets above
    rows <- decl_ask(book, c("kappa:A:400", "cotail:A:0.8", "tail:0.8", "kappa:A:100"))
    stopifnot(identical(ends(rows), c("216.6666 216.6667", "270.3703 270.3704", "555.5555 555.5556", "- -")))
    third <- decl_book("agg T dfreq [1] dsev [1/3 2/3 1]")
    stopifnot(third$bs == "1/3", identical(ends(mean(third)), "0.666666666666666 0.666666666666667"))
    stopifnot(identical(ends(decl_ask(third, "q:0.9")), "1 1"), identical(ends(decl_ask(third, "pmf:1/2")), "0 0"))
    given <- decl_book("agg D dfreq [1] dsev [1:6]", bs = 0.5, log2 = 4)
    stopifnot(given$bs == "1/2", identical(ends(mean(given)), "3.5 3.5"))
})
test("what a book refuses", {
    book <- decl_book("agg Dice dfreq [2] dsev [100:600:100]")
    stopifnot(grepl("give decl_book a bs that divides it", conditionMessage(fault(decl_ask(book, "layer:250xs100")))))
    stopifnot(grepl("'1e+05' is no amount", conditionMessage(fault(decl_ask(book, paste0("cdf:", 1e5)))), fixed = TRUE))
    stopifnot(grepl("'-5' is no amount", conditionMessage(fault(decl_ask(book, "cdf:-5")))), fault(decl_ask(book, "kappa:B:100"))$status == 8)
    stopifnot(fault(decl_book("agg D dfreq [1] dsev [1 2] [1/2 1/3]"))$rule == 6, fault(decl_book(die, bs = 2, log2 = 4))$rule == 7)
})
test("asks by the hundred, fewer digits where an ask needs more width than there is, and a grid that loses much", {
    # 3/36 of at most 3, and 35/36 of at most 11
    book <- decl_book(dice, log2 = 9)
    rows <- decl_ask(book, sprintf("cdf:%d", 0:299))
    stopifnot(nrow(rows) == 300L, identical(ends(rows)[c(4, 12)], c("0.083333 0.083334", "0.972222 0.972223")))
    rows <- decl_ask(book, c("cdf:299", "cdf:2.5"), numeric = TRUE)
    stopifnot(rows$low <= c(1, 1 / 36), rows$high >= c(1, 1 / 36), rows$high - rows$low < 1.1e-6)
    instead(c('for last; do :; done', 'case "$*" in *"--digits 1 "*) exec "$BUILT" "$@";; *"--width 1000000000 "*mean*) echo "decl: ask 0: needs width 9" >&2; exit 4;; esac', 'exec "$BUILT" "$@"'))
    stopifnot(identical(ends(decl_ask(book, "mean")), "7 7"))
    instead(c(
        'for last; do :; done',
        'case $last in cdf:*) echo "{\\"bs\\":\\"1\\",\\"cells\\":65536,\\"rows\\":[{\\"ask\\":\\"$last\\",\\"high\\":\\"0.9\\",\\"low\\":\\"0.8\\"}]}"; exit;; esac',
        'exec "$BUILT" "$@"'
    ))
    told <- NULL
    book <- withCallingHandlers(decl_book(die), warning = function(found) {
        told <<- conditionMessage(found)
        invokeRestart("muffleWarning")
    })
    stopifnot(book$log2 == 16, grepl("may lose a probability of 0.200000", told))
})

cat(passed, "passed,", failed, "failed\n")
quit(status = if (failed) 1 else 0)
