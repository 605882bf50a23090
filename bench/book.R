# A book by the package actuar, in doubles: what bench/bench.py measures beside `decl`. Standard input is as bench/book.h says; a line
# is written for each ask. Poisson, gamma and binomial counts go by its recursion, listed counts by its convolution. A changed
# probability of no claim is the `p0` of the recursion, which then is not halved.
suppressPackageStartupMessages(library(actuar))

severity_of <- function(pairs) {
    parts <- strsplit(pairs, ":")
    amounts <- as.integer(sapply(parts, `[`, 1))
    cells <- numeric(max(amounts) + 1)
    cells[amounts + 1] <- as.numeric(sapply(parts, `[`, 2))
    cells
}

poisson <- function(claim, mean) {
    halvings <- max(0, ceiling(log2(mean / 500)))
    aggregateDist("recursive", model.freq = "poisson", model.sev = claim, lambda = mean / 2^halvings,
                  convolve = halvings, maxit = 1e6, tol = 1e-10)
}

changed <- function(count, number, claim, zero, cells) {
    go <- function(...) suppressWarnings(aggregateDist("recursive", model.sev = claim, p0 = zero, maxit = cells, tol = 1e-10, ...))
    switch(count,
        poisson = go(model.freq = "poisson", lambda = number[1]),
        gamma = go(model.freq = "negative binomial", size = number[2], prob = 1 / (1 + number[1] / number[2])),
        binomial = go(model.freq = "binomial", size = number[1], prob = number[2]),
        stop("no recursion for this count"))
}

claims_cells <- function(count, claim, zero, cells) {
    number <- as.numeric(count[-1])
    total <- if (!is.null(zero)) changed(count[1], number, claim, zero, cells) else switch(count[1],
        poisson = poisson(claim, number[1]),
        gamma = aggregateDist("recursive", model.freq = "negative binomial", model.sev = claim, size = number[2],
                              prob = 1 / (1 + number[1] / number[2]), maxit = 1e6, tol = 1e-10),
        binomial = aggregateDist("recursive", model.freq = "binomial", model.sev = claim, size = number[1],
                                 prob = number[2], maxit = 1e6, tol = 1e-10),
        table = aggregateDist("convolution", model.freq = number, model.sev = claim))
    diff(c(0, total(0:(cells - 1))))
}

count_mean <- function(count, zero) {
    number <- as.numeric(count[-1])
    mean <- switch(count[1], binomial = number[1] * number[2], table = sum((seq_along(number) - 1) * number), number[1])
    if (is.null(zero)) return(mean)
    none <- switch(count[1], poisson = exp(-number[1]), gamma = (1 + number[1] / number[2])^-number[2],
                   binomial = (1 - number[2])^number[1], number[1])
    mean * (1 - zero) / (1 - none)
}

# The cells of the sum of two parts.
added <- function(x, y) {
    turned <- function(part) fft(c(part, numeric(length(part))))
    pmax(Re(fft(turned(x) * turned(y), inverse = TRUE))[seq_along(x)] / (2 * length(x)), 0)
}

# The cells of the sum of all parts; or of the first ones, how many they are, from none on.
sum_cells <- function(parts, cells, ...) Reduce(added, parts, c(1, numeric(cells - 1)), ...)

# The distribution function, and the mean of what of the total lies within 0 and each amount.
sums_of <- function(cell) {
    below <- cumsum(cell)
    list(below = below, left = c(0, cumsum(1 - below)))
}

layer_mean <- function(sums, mean, limit, attachment) {
    within <- function(x) sums$left[min(x + 1, length(sums$left))]
    if (limit < 0) mean - within(attachment) else within(attachment + limit) - within(attachment)
}

quantile_of <- function(sums, p) findInterval(p, sums$below, left.open = TRUE)

tail_mean <- function(sums, mean, p) {
    q <- quantile_of(sums, p)
    q + layer_mean(sums, mean, -1, q) / (1 - p)
}

# The sum of y times the unit's probability of y times `other` at x - y.
weighed <- function(own, other, x) if (x < 0) 0 else sum(0:x * own[0:x + 1] * other[x - 0:x + 1])

# A unit's share of the tail mean: its mean without its part below the quantile, and without that part of it at the quantile which is
# needed to reach p.
share <- function(book, unit, p) {
    q <- quantile_of(book$sums, p)
    own <- book$cells[[unit]]
    others <- book$others(unit)
    needed <- p - c(0, book$sums$below)[q + 1]
    here <- if (needed > 0) weighed(own, others$cell, q) * needed / book$total[q + 1] else 0
    (book$means[unit] - weighed(own, others$below, q - 1) - here) / (1 - p)
}

answer <- function(book, ask) {
    number <- as.numeric(ask[-1])
    total <- book$total
    switch(ask[1],
        pmf = total[number + 1],
        cdf = book$sums$below[number + 1],
        mean = book$mean,
        q = quantile_of(book$sums, number),
        layer = layer_mean(book$sums, book$mean, number[1], number[2]),
        tail = tail_mean(book$sums, book$mean, number),
        price = {
            terms <- matrix(number, nrow = 2)
            sum(apply(terms, 2, function(term) term[1] * tail_mean(book$sums, book$mean, term[2])))
        },
        cotail = share(book, number[1] + 1, number[2]),
        joint = ,
        kappa = {
            joint <- book$joint(number[1] + 1, number[2])
            if (ask[1] == "joint") joint else joint / total[number[2] + 1]
        })
}

# A book of Poisson units under a common factor: its total is that of one gamma unit with the claims of all, and a joint mean comes from
# such a unit with one more in the shape.
shared <- function(common, claims, severities, cells) {
    shape <- common^-2
    whole <- sum(claims)
    long <- function(claim) c(claim, numeric(max(lengths(severities)) - length(claim)))
    claim <- Reduce(`+`, Map(function(n, each) n / whole * long(each), claims, severities))
    pooled <- function(more) claims_cells(c("gamma", whole * (1 + more / shape), shape + more), claim, NULL, cells)
    total <- pooled(0)
    raised <- NULL
    list(
        mean = sum(claims * sapply(severities, function(each) sum((seq_along(each) - 1) * each))), total = total, sums = sums_of(total),
        joint = function(i, x) {
            if (is.null(raised)) raised <<- pooled(1)
            amounts <- 0:min(x, length(severities[[i]]) - 1)
            claims[i] * sum(amounts * severities[[i]][amounts + 1] * raised[x - amounts + 1])
        })
}

main <- function() {
    source <- file("stdin")
    words <- strsplit(readLines(source), " ")
    close(source)
    kinds <- sapply(words, `[`, 1)
    cells <- as.integer(words[[which(kinds == "cells")]][2])
    starts <- which(kinds == "unit")
    asked <- function(book) for (ask in words[kinds == "ask"]) cat(sprintf("%.12g\n", answer(book, ask[-1])))
    if ("common" %in% kinds) {
        claims <- sapply(words[starts], function(unit) as.numeric(unit[3]))
        severities <- lapply(words[kinds == "severity"], function(pairs) severity_of(pairs[-1]))
        return(asked(shared(as.numeric(words[[which(kinds == "common")]][2]), claims, severities, cells)))
    }
    made <- lapply(starts, function(at) {
        parts <- words[at:length(words)]
        parts <- parts[seq_len(c(which(kinds[at:length(words)][-1] %in% c("unit", "ask")), length(parts))[1])]
        told <- function(kind) unlist(lapply(parts, function(part) if (part[1] == kind) part[-1]))
        claim <- severity_of(told("severity"))
        count <- told("unit")
        zero <- if (is.null(told("zero"))) NULL else as.numeric(told("zero"))
        cell <- claims_cells(count, claim, zero, cells)
        mean <- count_mean(count, zero) * sum((seq_along(claim) - 1) * claim)
        if (!is.null(told("net"))) {
            layer <- as.numeric(told("net"))
            mean <- mean - layer_mean(sums_of(cell), mean, layer[1], layer[2])
            sums <- 0:(cells - 1)
            kept <- sums - pmin(pmax(sums - layer[2], 0), layer[1])
            cell <- as.numeric(tapply(c(cell, numeric(cells)), c(kept, sums), sum))
        }
        list(cell = cell, mean = mean)
    })
    parts <- lapply(made, `[[`, "cell")
    without <- vector("list", length(parts))
    before <- behind <- NULL
    total <- sum_cells(parts, cells)
    means <- sapply(made, `[[`, "mean")
    book <- list(
        cells = parts, means = means, mean = sum(means), total = total, sums = sums_of(total),
        others = function(i) {
            if (is.null(before)) {
                before <<- sum_cells(parts, cells, accumulate = TRUE)
                behind <<- rev(sum_cells(rev(parts), cells, accumulate = TRUE))
            }
            if (is.null(without[[i]])) {
                cell <- added(before[[i]], behind[[i + 1]])
                without[[i]] <<- list(cell = cell, below = cumsum(cell))
            }
            without[[i]]
        })
    book$joint <- function(i, x) weighed(book$cells[[i]], book$others(i)$cell, x)
    asked(book)
}

tryCatch(main(), error = function(found) {
    message(conditionMessage(found))
    quit(status = 1)
})
