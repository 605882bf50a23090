# A book in money: its bucket and its grid are chosen, amounts are given and answered in money, each answer by two ends.

# So many asks the program takes at once.
decl_most_asks <- 256L
# A book warns where it may lose more than so much probability past the largest grid.
decl_most_lost <- 1e-4

# The book that the text declares: a list of class decl_book with text, bs (the size of a bucket in money, as text), log2, cells (the
# number of buckets), digits, timeout and rules.
#
# The bucket is the greatest that divides all amounts, the grid the least in which a probability of inside is sure to lie, else the
# largest that takes the text; either can be given. digits are those of an answer in buckets, of which there are fewer where it needs a
# larger width than there is. rules are those of decl_run.
decl_book <- function(text, bs = NULL, log2 = NULL, digits = 6, inside = "0.999999", timeout = 0, rules = NULL) {
    size <- if (is.null(bs)) decl_bucket(text, timeout = timeout, rules = rules) else decl_written(decl_value(decl_spelled(bs, "bs")))
    if (is.null(log2)) {
        log2 <- tryCatch(decl_grid(text, inside, bs = size, timeout = timeout, rules = rules), decl_fault = function(fault) {
            if (is.null(fault$log2)) stop(fault)
            lost <- 1 - as.numeric(fault$low)
            if (lost > decl_most_lost) {
                warning(sprintf("the largest grid may lose a probability of %.6f; what lies past it is not answered", lost), call. = FALSE)
            }
            fault$log2
        })
    } else {
        decl_check(text, bs = size, log2 = log2, timeout = timeout, rules = rules)
    }
    structure(class = "decl_book", list(
        text = text, bs = size, log2 = log2, cells = 2^log2, digits = digits, timeout = timeout, rules = rules
    ))
}

# The report on asks in money about the book: a data.frame with the columns ask, low and high, and the attributes bs and cells.
#
# asks are those of the program (docs/USAGE.md), and sf:x, the probability of a total above x; their amounts are in money. Between two
# buckets and past the grid cdf and sf are answered too, and a pmf between two buckets is 0; the other amounts have to be whole numbers
# of buckets, which bs of decl_book chooses. numeric is that of decl_run.
decl_ask <- function(book, asks, numeric = FALSE) {
    asks <- as.character(asks)
    read <- lapply(asks, decl_ask_read, size = decl_value(book$bs), cells = book$cells)
    wanted <- unique(vapply(read, `[[`, "", "ask"))
    rows <- do.call(rbind, lapply(split(wanted, (seq_along(wanted) - 1L) %/% decl_most_asks), decl_narrowed, book = book))
    found <- lapply(read, function(each) decl_row_in_money(each, rows[match(each$ask, rows$ask), ], decl_value(book$bs)))
    ends <- function(at) vapply(found, `[`, "", at)
    report <- data.frame(ask = asks, low = ends(1L), high = ends(2L), stringsAsFactors = FALSE)
    attr(report, "bs") <- book$bs
    attr(report, "cells") <- as.integer(book$cells)
    if (numeric) decl_numeric(report) else report
}

# A table of return periods in years: the total that is passed at most once in so many years (VaR), and the mean of the worst such years
# (TVaR), each by two ends.
decl_return_periods <- function(book, years = c(10, 50, 100, 200, 250), numeric = FALSE) {
    if (any(years < 1 | years != round(years))) stop("a return period is a whole number of at least 1 year")
    levels <- vapply(years, function(n) decl_written(decl_reduced(n - 1, n)), "")
    value <- decl_ask(book, paste0("q:", levels), numeric)
    tail <- decl_ask(book, paste0("tail:", levels), numeric)
    data.frame(years = years, VaR_low = value$low, VaR_high = value$high, TVaR_low = tail$low, TVaR_high = tail$high, stringsAsFactors = FALSE)
}

# One line on the book.
print.decl_book <- function(x, ...) {
    cat(sprintf("decl book: %s buckets of %s\n", format(x$cells, big.mark = ","), x$bs))
    invisible(x)
}

# The mean of the total, by two ends.
mean.decl_book <- function(x, numeric = FALSE, ...) {
    decl_ask(x, "mean", numeric)
}

# The quantiles of the total, by two ends each.
quantile.decl_book <- function(x, probs = c(0.5, 0.9, 0.95, 0.99, 0.995), numeric = FALSE, ...) {
    decl_ask(x, paste0("q:", vapply(probs, decl_spelled, "", name = "probs")), numeric)
}

# The rows of at most 256 asks in buckets, with fewer digits where one of them needs more width than the widest.
decl_narrowed <- function(asks, book) {
    for (digits in seq(book$digits, min(book$digits, 1))) {
        rows <- tryCatch(
            decl_run(book$text, asks, bs = book$bs, log2 = book$log2, digits = digits, width = 1e9, mwidth = 1e12, timeout = book$timeout,
                     rules = book$rules),
            decl_fault = function(fault) if (identical(fault$status, 4L) && digits > 1) NULL else stop(fault)
        )
        if (!is.null(rows)) return(rows)
    }
}

# An ask in money as one in buckets: kind, ask, whether it lies past the grid (past), and, where its answer is known without one, its
# ends (known).
decl_ask_read <- function(ask, size, cells) {
    parts <- strsplit(ask, ":", fixed = TRUE)[[1]]
    kind <- parts[1]
    if (kind %in% c("cdf", "sf", "pmf") && length(parts) == 2L) return(decl_at_amount(kind, decl_buckets(parts[2], size), cells))
    if (kind %in% c("joint", "kappa") && length(parts) == 3L) {
        parts[3] <- decl_plain(decl_whole_buckets(ask, decl_buckets(parts[3], size)))
    }
    if (kind == "layer" && length(parts) == 2L) {
        ends <- strsplit(parts[2], "xs", fixed = TRUE)[[1]]
        whole <- vapply(ends, function(end) {
            if (end == "inf") end else decl_plain(decl_whole_buckets(ask, decl_buckets(end, size)))
        }, "")
        parts[2] <- paste(whole, collapse = "xs")
    }
    list(kind = kind, ask = paste(parts, collapse = ":"), past = FALSE)
}

# The ask for a probability at so many buckets, a fraction. Below 0, between two buckets and past the grid it asks for what stands there.
decl_at_amount <- function(kind, buckets, cells) {
    at <- buckets[1] %/% buckets[2]
    past <- at >= cells
    between <- kind == "pmf" && buckets[2] != 1
    asked <- if (kind == "pmf" && !past) "pmf" else "cdf"
    list(
        kind = kind, ask = sprintf("%s:%s", asked, decl_plain(if (between) 0 else min(at, cells - 1))), past = past && !between,
        known = if (between) c("0", "0")
    )
}

# An amount in money as a fraction of buckets.
decl_buckets <- function(amount, size) {
    if (!grepl("^([0-9]+/0*[1-9][0-9]*|[0-9]+[.]?[0-9]*%?|[.][0-9]+%?)$", amount)) {
        stop(decl_fault(sprintf("'%s' is no amount", amount)))
    }
    value <- decl_value(amount)
    first <- decl_gcd(value[1], size[1])
    second <- decl_gcd(size[2], value[2])
    decl_reduced(decl_exact((value[1] / first) * (size[2] / second)), decl_exact((value[2] / second) * (size[1] / first)))
}

# A whole number of buckets, which a fraction has to be.
decl_whole_buckets <- function(ask, buckets) {
    if (buckets[2] != 1) {
        stop(decl_fault(sprintf("%s: an amount is no whole number of buckets; give decl_book a bs that divides it", ask)))
    }
    buckets[1]
}

# The two ends in money of what was asked, by the row in buckets.
decl_row_in_money <- function(read, row, size) {
    if (!is.null(read$known)) return(read$known)
    ends <- c(row$low, row$high)
    if (read$kind %in% c("cdf", "sf", "pmf")) {
        ends <- c(ends[1], if (read$past) "1" else ends[2])
        if (read$kind == "sf" || read$past && read$kind == "pmf") ends <- c(decl_complement(ends[2]), decl_complement(ends[1]))
        return(ends)
    }
    told <- ends %in% c("-", "beyond")
    c(if (told[1]) ends[1] else decl_times(ends[1], size, FALSE), if (told[2]) ends[2] else decl_times(ends[2], size, TRUE))
}
