# The R client of decl, over base R alone: library(decl), or source("clients/r/decl.R")
#
#   decl_run("agg Dice dfreq [2] dsev [1:6]", c("pmf:2", "mean", "q:0.9"))
#         ask      low     high
#   1   pmf:2 0.027777 0.027778
#   2    mean 7.000000 7.000000
#   3   q:0.9       10       10
#
# decl_run    the report on asks about a text
# decl_check  the fault of a text, if it has one
# decl_fmt    a text in its one canonical spelling
# decl_made   the text of a generated program
# decl_certify  a certificate of a text's total
# decl_verify   whether steps are such a certificate
# decl_bucket the greatest size of a bucket that divides every amount of a text
# decl_grid   the least log2 with which so much probability is sure to lie inside the grid
# decl_book   a book in money, with its bucket and grid chosen (book.R)
#
# The program is the one that the variable DECL names, else decl on the path. Where there is no report, an error of
# class decl_fault is raised. It has the fields status, told (what the program said), line, column, unit, rule, name,
# sentence (what the rule asks), word, ask, step and needed; those that a fault has not are NULL.
#
# The options are those of the program (docs/USAGE.md); NULL leaves one out. A number is given in one of three ways:
#
#   bs = 250, bs = 0.25   a whole number of at most 15 digits, or a decimal of at most 11: passed on as it is
#   bs = 1/3              a double that is none of these: passed on as the fraction that R holds as this double, whose
#                         denominator is at most 1,000,000; an error where there is none, as for pi
#   bs = "1/3"            a text: passed on as it is

# The report on the asks about the text: a data.frame with the columns ask, low and high, one row for each ask, and the
# attributes bs (the size of a bucket in money, as text in lowest terms) and cells (the number of buckets of the grid).
#
# text     one string, several lines, or raw bytes
# asks     words such as "mean", "q:0.995", "layer:10xs5", with amounts in buckets
# rules    "extended" for up to 256 units, lists of 65,536 values, finer weights and gamma counts of any shape, and for shares of the
#          tail mean wherever the tail mean has numbers
# numeric  FALSE gives the ends as the program wrote them, exact decimals as text; TRUE gives doubles, low ends
#          rounded down and high ends up: an end beyond the grid is then infinite, and one that is not there is NA
# timeout  seconds after which the program and what it started are ended, by timeout of coreutils; 0 for none
decl_run <- function(text, asks, bs = NULL, log2 = NULL, digits = NULL, width = NULL, mwidth = NULL, make = NULL,
                     numeric = FALSE, timeout = 0, rules = NULL) {
    given <- decl_options(bs = bs, log2 = log2, digits = digits, width = width, mwidth = mwidth, make = make, rules = rules)
    words <- c("run", "--format", "json", given, "--", as.character(asks))
    rows <- decl_rows(decl_call(words, text, asks, timeout), asks)
    if (numeric) decl_numeric(rows) else rows
}

# Raises the fault of the text, if it has one; evaluates nothing. The rules on whole buckets are asked at bs, and the
# one on the sum before an aggregate clause at log2; rules are those of decl_run.
decl_check <- function(text, bs = NULL, log2 = NULL, timeout = 0, rules = NULL) {
    past <- "pmf:999999999"
    found <- tryCatch(
        decl_call(c("run", decl_options(bs = bs, log2 = log2, rules = rules), past), text, past, timeout),
        decl_fault = function(fault) if (identical(fault$status, 8L)) NULL else stop(fault)
    )
    if (!is.null(found)) stop(decl_fault("decl answered an ask past every grid"))
    invisible(TRUE)
}

# The program in its one canonical spelling.
decl_fmt <- function(text, timeout = 0) {
    paste0(decl_call("fmt", text, character(), timeout), "\n", collapse = "")
}

# The text of the program that --make generates from this number, 0 to 4294967295, to measure and to compare with: eight units, two
# with each of the counts poisson, mixed gamma 0.5, binomial 0.5 and fixed.
decl_made <- function(number, timeout = 0) {
    paste0(decl_call(c("fmt", decl_options(make = number)), "", character(), timeout), "\n", collapse = "")
}

# A certificate of the text's total, one step a line (docs/STEPS.md), on at most 2^10 buckets. An error of class decl_fault with the field
# unit where a unit, or a common factor, keeps the text from having one.
decl_certify <- function(text, bs = NULL, log2 = NULL, make = NULL, timeout = 0) {
    words <- c("cert", decl_options(bs = bs, log2 = log2, make = make))
    paste0(decl_call(words, text, character(), timeout), "\n", collapse = "")
}

# TRUE where the steps are a certificate of the text's total: then the grid of the last step encloses it. bs and log2 are those of the
# call that wrote the steps. Else an error of class decl_fault with the field step, the first bad step, or unit, as decl_certify has it.
decl_verify <- function(text, steps, bs = NULL, log2 = NULL, timeout = 0) {
    whole <- rawToChar(decl_bytes(text))
    if (nzchar(whole) && !endsWith(whole, "\n")) whole <- paste0(whole, "\n")
    joined <- paste0(whole, "---\n", rawToChar(decl_bytes(steps)))
    written <- decl_call(c("verify", decl_options(bs = bs, log2 = log2)), joined, character(), timeout)
    if (!identical(written, "verified")) stop(decl_fault("decl verified steps, and wrote something else"))
    invisible(TRUE)
}

# The greatest size of a bucket that divides every amount, limit and attachment of the text, as text: "250", "1/2".
#
# Where a clause takes a share, its outcomes have to be whole numbers of buckets too. Then the size is the greatest that
# divides these as well, found by asking the program; with shares = FALSE the written amounts alone count. rules are those of decl_run.
decl_bucket <- function(text, shares = TRUE, timeout = 0, rules = NULL) {
    tokens <- decl_tokens(decl_fmt(text, timeout))
    size <- Reduce(decl_common, decl_amounts(tokens), c(0, 1))
    if (size[1] == 0) size <- c(1, 1)
    parts <- 1
    for (share in if (shares) decl_shares(tokens)) parts <- unique(c(outer(parts, decl_divisors(share[2]))))
    off_grid <- 13L
    for (part in sort(parts)) {
        found <- decl_written(decl_reduced(size[1], size[2] * part))
        if (!shares) return(found)
        fault <- tryCatch({
            decl_least_grid(text, bs = found, timeout = timeout, rules = rules)
            return(found)
        }, decl_fault = function(fault) if (identical(fault$rule, off_grid)) fault else stop(fault))
    }
    stop(fault)
}

# The rules whose limits depend on log2: on far amounts, on the sum before an aggregate clause, and on the mean of all units.
decl_sizes <- c(8L, 21L, 30L)

# The least log2 with which the text keeps every rule: 1, or 13 where one of its numbers needs the higher limits of a long
# grid. Raises the fault of a text that no grid takes.
decl_least_grid <- function(text, bs = NULL, timeout = 0, rules = NULL) {
    tryCatch({
        decl_check(text, bs = bs, log2 = 1, timeout = timeout, rules = rules)
        return(1)
    }, decl_fault = function(fault) if (isTRUE(fault$rule %in% decl_sizes)) fault else stop(fault))
    decl_check(text, bs = bs, log2 = 13, timeout = timeout, rules = rules)
    13
}

# The least log2 with which at least so much probability is sure to lie inside the grid. inside is a number or a text:
# a decimal, a fraction or a percent. digits and width are those of the probability that is asked of each grid. Grids are
# tried from the least one up, since a longer one takes more time; one at which the text breaks a rule on sizes is passed
# over. An error of class decl_fault, with the fields log2, low and high of the largest grid that takes the text, where that
# is not sure to hold so much; the fault of the text where no grid takes it. rules are those of decl_run.
decl_grid <- function(text, inside = "0.999999", bs = NULL, digits = 9, width = 1e9, make = NULL, timeout = 0, rules = NULL) {
    wanted <- decl_digits(decl_value(decl_spelled(inside, "inside")), digits)
    largest <- 16
    last <- NULL
    for (log2 in seq_len(largest)) {
        found <- tryCatch(
            decl_run(text, sprintf("cdf:%d", 2^log2 - 1), bs = bs, log2 = log2, digits = digits, width = width,
                     make = make, timeout = timeout, rules = rules),
            decl_fault = function(fault) if (isTRUE(fault$rule %in% decl_sizes)) fault else stop(fault)
        )
        if (inherits(found, "decl_fault")) {
            refused <- found
            next
        }
        if (as.numeric(sub(".", "", found$low, fixed = TRUE)) >= wanted) return(log2)
        last <- list(log2 = log2, low = found$low, high = found$high)
    }
    if (is.null(last)) stop(refused)
    stop(decl_fault(
        sprintf("the largest grid%s, of %s buckets, holds a probability from %s to %s; take larger buckets",
                if (last$log2 == largest) "" else " that takes the text", format(2^last$log2, big.mark = ","),
                last$low, last$high),
        log2 = last$log2, low = last$low, high = last$high
    ))
}

# The options as words of the command line; those that are NULL are left out.
decl_options <- function(...) {
    given <- list(...)
    as.character(unlist(lapply(names(given), function(name) {
        if (!is.null(given[[name]])) c(paste0("--", name), decl_spelled(given[[name]], name))
    })))
}

# A number as a word of the command line, exactly; name is for messages.
decl_spelled <- function(value, name) {
    if (is.character(value) && length(value) == 1L) return(value)
    if (!is.numeric(value) || length(value) != 1L || !is.finite(value)) {
        stop(name, " is one number, or a text such as \"1/3\"")
    }
    decimal <- decl_plain(value)
    if (nchar(decimal) > 12L) decimal <- sub("^0[.]", ".", decimal)
    most <- if (value == round(value)) 15L else 11L
    if (as.numeric(decimal) == value && nchar(gsub("[^0-9]", "", decimal)) <= most) return(decimal)
    fraction <- decl_fraction(value)
    if (is.null(fraction)) {
        stop(name, " = ", format(value, digits = 17), " is no decimal or fraction that decl takes; give it as text")
    }
    fraction
}

# A number in digits, with no exponent.
decl_plain <- function(value) {
    format(as.numeric(value), scientific = FALSE, digits = 15, trim = TRUE, decimal.mark = ".")
}

# The fraction with a denominator of at most 1,000,000 that is this double: a convergent of its continued fraction; NULL
# where there is none.
decl_fraction <- function(value) {
    above <- c(0, 1)
    below <- c(1, 0)
    rest <- value
    for (step in 1:40) {
        whole <- floor(rest)
        above <- c(above[2], whole * above[2] + above[1])
        below <- c(below[2], whole * below[2] + below[1])
        if (below[2] > 1e6) return(NULL)
        if (above[2] / below[2] == value) return(decl_written(c(above[2], below[2])))
        rest <- 1 / (rest - whole)
    }
    NULL
}

# A fraction here is two whole numbers, which doubles hold exactly up to 2^53; this stops where they do not.
decl_exact <- function(number) {
    if (any(abs(number) > 2^53)) stop(decl_fault("the amounts have too fine a common denominator for R's numbers"))
    number
}

# The greatest whole number that divides both.
decl_gcd <- function(first, second) {
    while (second != 0) {
        rest <- first %% second
        first <- second
        second <- rest
    }
    first
}

# A fraction in lowest terms.
decl_reduced <- function(above, below) {
    decl_exact(c(above, below)) / decl_gcd(above, below)
}

# A fraction as text.
decl_written <- function(fraction) {
    paste(c(decl_plain(fraction[1]), if (fraction[2] != 1) decl_plain(fraction[2])), collapse = "/")
}

# The fraction that a numeral spells: a decimal, a percent or a fraction.
decl_value <- function(numeral) {
    over <- if (endsWith(numeral, "%")) 100 else 1
    parts <- strsplit(sub("%", "", numeral, fixed = TRUE), "/", fixed = TRUE)[[1]]
    if (length(parts) == 2L) return(decl_reduced(as.numeric(parts[1]), as.numeric(parts[2]) * over))
    places <- if (grepl(".", parts, fixed = TRUE)) nchar(sub("^[^.]*[.]", "", parts)) else 0
    decl_reduced(as.numeric(sub(".", "", parts, fixed = TRUE)), 10^places * over)
}

# The least whole number of units of the last of so many digits that is at least the fraction, by long division.
decl_digits <- function(fraction, digits) {
    found <- fraction[1] %/% fraction[2]
    rest <- fraction[1] %% fraction[2]
    for (digit in seq_len(digits)) {
        found <- 10 * found + (10 * rest) %/% fraction[2]
        rest <- (10 * rest) %% fraction[2]
    }
    found + (rest > 0)
}

# The greatest fraction that divides both: over fractions in lowest terms, the greatest common divisor of what is above
# over the least common multiple of what is below.
decl_common <- function(first, second) {
    below <- decl_exact(first[2] / decl_gcd(first[2], second[2]) * second[2])
    decl_reduced(decl_gcd(first[1], second[1]), below)
}

# The whole numbers that divide a number.
decl_divisors <- function(number) {
    small <- seq_len(floor(sqrt(number)))
    small <- small[number %% small == 0]
    unique(c(small, number / small))
}

# The tokens of a canonical text, without its notes and named severities: each reference to a severity stands as its mixture.
decl_tokens <- function(text) {
    token <- "note\\{[^{}]*\\}|[0-9]+/[0-9]+|([0-9]+[.]?[0-9]*|[.][0-9]+)%?|(sev[.])?[A-Za-z][A-Za-z0-9_-]*|[][:,!]"
    found <- regmatches(text, gregexpr(token, text, perl = TRUE))[[1]]
    found <- found[!startsWith(found, "note{")]
    named <- list()
    while (found[1] == "sev") {
        behind <- seq_len(which(found[-1] %in% c("sev", "port", "agg"))[1])
        named[[paste0("sev.", found[2])]] <- found[behind[-(1:2)]]
        found <- found[-behind]
    }
    unlist(lapply(found, function(token) if (is.null(named[[token]])) token else named[[token]]))
}

# The amounts, limits and attachments of a canonical text: of a range its first amount, and its step where it has a
# second amount.
decl_amounts <- function(tokens) {
    found <- list()
    for (at in which(tokens == "dsev")) {
        last <- at + which(tokens[-seq_len(at)] == "]")[1]
        for (item in strsplit(gsub(" ?: ?", ":", paste(tokens[(at + 2):(last - 1)], collapse = " ")), " ")[[1]]) {
            numbers <- lapply(strsplit(item, ":", fixed = TRUE)[[1]], decl_value)
            step <- if (length(numbers) == 3L) numbers[[3]] else c(1, 1)
            span <- if (length(numbers) > 1L) decl_less(numbers[[2]], numbers[[1]]) else c(0, 1)
            found <- c(found, numbers[1], if (decl_less(span, step)[1] >= 0) list(step))
        }
    }
    for (at in which(tokens == "xs")) {
        ends <- tokens[c(at - 1, at + 1)]
        found <- c(found, lapply(ends[ends != "inf"], decl_value))
    }
    found
}

# A fraction less another.
decl_less <- function(first, second) {
    over <- decl_gcd(first[2], second[2])
    above <- decl_exact(first[1] * (second[2] / over)) - decl_exact(second[1] * (first[2] / over))
    decl_reduced(above, decl_exact(first[2] / over * second[2]))
}

# The shares of the clauses of a canonical text.
decl_shares <- function(tokens) {
    found <- lapply(tokens[which(tokens == "so") - 1], decl_value)
    for (at in which(tokens == "po")) {
        part <- decl_value(tokens[at - 1])
        limit <- if (tokens[at + 1] == "inf") c(0, 1) else decl_value(tokens[at + 1])
        if (limit[1] == 0) next
        found <- c(found, list(decl_reduced(decl_exact(part[1] * limit[2]), decl_exact(part[2] * limit[1]))))
    }
    found
}

# Runs the program once, and gives the lines that it wrote.
decl_call <- function(words, text, asks, timeout) {
    program <- Sys.getenv("DECL", "decl")
    found <- Sys.which(program)
    if (!nzchar(found)) {
        stop(decl_fault(sprintf("there is no program '%s' to run: put decl on the path, or its place in DECL", program)))
    }
    files <- tempfile(c("text", "out", "err"))
    on.exit(unlink(files))
    bytes <- decl_bytes(text)
    writeBin(bytes, files[1])
    command <- c(found, words)
    # timeout of coreutils ends the program and all that it started, which have a process group of their own
    if (timeout > 0) command <- c("timeout", "--signal=KILL", format(timeout, scientific = FALSE), command)
    begun <- proc.time()[["elapsed"]]
    status <- suppressWarnings(system2(command[1], shQuote(command[-1]), stdin = files[1], stdout = files[2], stderr = files[3]))
    if (status != 0 && timeout > 0 && proc.time()[["elapsed"]] - begun >= timeout) {
        stop(decl_fault(sprintf("decl took more than %s seconds", timeout)))
    }
    said <- paste(readLines(files[3], warn = FALSE), collapse = "\n")
    if (status != 0) stop(decl_fault_of(as.integer(status), said, bytes, asks))
    readLines(files[2], warn = FALSE, encoding = "UTF-8")
}

# The bytes of a text, which has to be UTF-8 with no NUL.
decl_bytes <- function(text) {
    bytes <- if (is.raw(text)) text else charToRaw(enc2utf8(paste(as.character(text), collapse = "\n")))
    if (any(bytes == as.raw(0))) stop(decl_fault("the text has a NUL byte"))
    if (!validUTF8(rawToChar(bytes))) stop(decl_fault("the text is no UTF-8"))
    bytes
}

# The rows of a report in JSON, which is one line; it has to be whole.
decl_rows <- function(lines, asks) {
    bad <- decl_fault("what decl wrote is no whole report; nothing of it is used")
    parts <- function(pattern, text) regmatches(text, regexec(pattern, text))
    if (length(lines) != 1L) stop(bad)
    whole <- parts('^\\{"bs":"([0-9/]+)","cells":([0-9]+),"rows":\\[\\{(.*)\\}\\]\\}$', lines)[[1]]
    if (length(whole) != 4L) stop(bad)
    found <- parts('^"ask":"([^"]*)","high":"([^"]*)","low":"([^"]*)"$', strsplit(whole[4], "},{", fixed = TRUE)[[1]])
    if (!all(lengths(found) == 4L)) stop(bad)
    part <- function(at) vapply(found, `[`, "", at)
    rows <- data.frame(ask = part(2L), low = part(4L), high = part(3L), stringsAsFactors = FALSE)
    if (!identical(rows$ask, as.character(asks))) stop(bad)
    attr(rows, "bs") <- whole[2]
    attr(rows, "cells") <- as.integer(whole[3])
    rows
}

# Ends as doubles: the greatest double that is not above a low end, and the least one that is not below a high end. Which one that is
# is decided from the digits of the end, since the nearest double can lie on either side of it, also where it is whole.
decl_numeric <- function(rows) {
    number <- function(ends, infinite, up) {
        vapply(ends, function(end) {
            if (end == "-") NA_real_ else if (end == "beyond") infinite else decl_double(end, up)
        }, 0, USE.NAMES = FALSE)
    }
    rows$low <- number(rows$low, -Inf, FALSE)
    rows$high <- number(rows$high, Inf, TRUE)
    rows
}

# The least double that is not below a decimal of at least 0, or with up = FALSE the greatest one that is not above it.
decl_double <- function(decimal, up) {
    value <- as.numeric(decimal)
    while (decl_order(value, decimal) > 0) value <- decl_next(value, FALSE)
    while (decl_order(decl_next(value, TRUE), decimal) <= 0) value <- decl_next(value, TRUE)
    if (up && decl_order(value, decimal) < 0) decl_next(value, TRUE) else value
}

# The next double above one of at least 0, or below one above 0, where its exponent is not at the end of its range.
decl_next <- function(value, up) {
    if (value == 0) return(.Machine$double.xmin)
    power <- floor(log2(value))
    power <- power - (2^power > value) + (2^(power + 1) <= value)
    if (up) value + 2^(power - 52) else value - 2^(power - 52 - (value == 2^power))
}

# -1, 0 or 1: whether a double of at least 0 is below a decimal, equal to it or above it. sprintf writes all digits of the double.
decl_order <- function(value, decimal) {
    digits <- strsplit(c(sprintf("%.1100f", value), decimal), ".", fixed = TRUE)
    whole <- sub("^0+", "", vapply(digits, `[`, "", 1L))
    after <- vapply(digits, function(parts) if (length(parts) > 1L) parts[2] else "", "")
    both <- paste0(strrep("0", max(nchar(whole)) - nchar(whole)), whole, after, strrep("0", max(nchar(after)) - nchar(after)))
    apart <- which(utf8ToInt(both[1]) != utf8ToInt(both[2]))
    if (length(apart)) sign(utf8ToInt(both[1])[apart[1]] - utf8ToInt(both[2])[apart[1]]) else 0
}

# An error of class decl_fault.
decl_fault <- function(message, ...) {
    structure(class = c("decl_fault", "error", "condition"), list(message = message, call = NULL, ...))
}

# The error for a status other than 0, with a caret under the place.
decl_fault_of <- function(status, said, bytes, asks) {
    if (status > 128L) {
        return(decl_fault(sprintf("decl was ended by signal %d before its report was whole", status - 128L)))
    }
    if (status == 6L) said <- "decl: the report could not be written whole; what came through is dropped"
    if (status == 7L) said <- "decl: there was no memory"
    if (!nzchar(said)) said <- sprintf("decl ended with status %d", status)
    part <- function(pattern) {
        found <- regmatches(said, regexec(pattern, said))[[1]]
        if (length(found)) found[-1] else NULL
    }
    whole <- function(text) if (is.null(text)) NULL else as.integer(text)
    place <- whole(part("^decl: ([0-9]+):([0-9]+): "))
    rule <- part("unit ([0-9]+): rule ([0-9]+) ([A-Za-z]+)")
    sentence <- if (!is.null(rule)) decl_sentences[as.integer(rule[2])]
    decl_fault(
        paste(c(paste0(said, decl_pointed(bytes, place)), sentence), collapse = "\n"),
        status = status, told = said, line = place[1], column = place[2], unit = whole(if (is.null(rule)) part("^decl: unit ([0-9]+): not covered") else rule[1]),
        step = whole(part("^decl: step ([0-9]+): not verified")), rule = whole(rule[2]),
        name = rule[3], sentence = sentence, word = part("continuous severity ([a-z]+)"),
        ask = whole(part("ask ([0-9]+): ")), needed = part("needs width ([0-9]+)")
    )
}

# The line of a place with a caret under it; a column counts bytes.
decl_pointed <- function(bytes, place) {
    if (length(place) != 2L) return("")
    lines <- strsplit(rawToChar(bytes), "\n", fixed = TRUE, useBytes = TRUE)[[1]]
    line <- if (place[1] <= length(lines)) charToRaw(lines[place[1]]) else raw()
    before <- rawToChar(head(line, place[2] - 1L))
    Encoding(before) <- "UTF-8"
    shown <- rawToChar(line)
    Encoding(shown) <- "UTF-8"
    paste0("\n  ", shown, "\n  ", gsub("[^\t]", " ", before), "^")
}
