# Decimals of any length as text, times a fraction: R's numbers do not hold them.

# A decimal times a fraction c(above, below) of at most 11 digits each, rounded down, or with up = TRUE up, to a decimal as text. It is
# exact where below divides a power of ten, and has 9 more digits than the decimal where it does not.
decl_times <- function(decimal, fraction, up) {
    parts <- strsplit(decimal, ".", fixed = TRUE)[[1]]
    places <- if (length(parts) > 1L) nchar(parts[2]) else 0L
    more <- decl_places(fraction[2])
    digits <- paste0(parts[1], if (places) parts[2], strrep("0", more))
    divided <- decl_divided(decl_multiplied(decl_chunks(digits), fraction[1]), fraction[2])
    whole <- if (up && divided$rest > 0) decl_carried(divided$chunks, 1) else divided$chunks
    decl_pointed_at(paste(sprintf("%03d", as.integer(whole)), collapse = ""), places + more)
}

# How many digits a decimal needs so that it is whole times 1 / below: the least power of ten that below divides, else 9.
decl_places <- function(below) {
    powers <- which((10^(0:11)) %% below == 0)
    if (length(powers)) powers[1] - 1L else 9L
}

# The digits of a whole number in threes, the highest first.
decl_chunks <- function(digits) {
    padded <- paste0(strrep("0", (3L - nchar(digits) %% 3L) %% 3L), digits)
    from <- seq(1L, nchar(padded), 3L)
    as.numeric(substring(padded, from, from + 2L))
}

# Threes of digits, the highest first, each times a number of at most 11 digits: below 10^14, which doubles hold.
decl_multiplied <- function(chunks, number) {
    decl_carried(chunks * number, 0)
}

# Numbers in the places of threes of digits, with a number added to the lowest, as threes of digits.
decl_carried <- function(chunks, carry) {
    found <- numeric()
    for (chunk in rev(chunks)) {
        sum <- chunk + carry
        found <- c(sum %% 1000, found)
        carry <- sum %/% 1000
    }
    while (carry > 0) {
        found <- c(carry %% 1000, found)
        carry <- carry %/% 1000
    }
    found
}

# Threes of digits over a number of at most 11 digits: the whole part in threes, and the rest.
decl_divided <- function(chunks, below) {
    rest <- 0
    for (at in seq_along(chunks)) {
        number <- rest * 1000 + chunks[at]
        chunks[at] <- number %/% below
        rest <- number %% below
    }
    list(chunks = chunks, rest = rest)
}

# Digits with a point before the last ones, without zeros in front and behind that say nothing.
decl_pointed_at <- function(digits, places) {
    padded <- paste0(strrep("0", max(0L, places + 1L - nchar(digits))), digits)
    whole <- sub("^0+(?=[0-9])", "", substring(padded, 1L, nchar(padded) - places), perl = TRUE)
    after <- sub("0+$", "", substring(padded, nchar(padded) - places + 1L))
    if (nzchar(after)) paste0(whole, ".", after) else whole
}

# 1 less a probability, as text: each three of its digits less than 999, and 1 more in the last place.
decl_complement <- function(probability) {
    parts <- strsplit(probability, ".", fixed = TRUE)[[1]]
    if (parts[1] != "0") return("0")
    if (length(parts) == 1L) return("1")
    after <- paste0(parts[2], strrep("0", (3L - nchar(parts[2]) %% 3L) %% 3L))
    chunks <- decl_carried(999 - decl_chunks(after), 1)
    decl_pointed_at(paste(sprintf("%03d", as.integer(chunks)), collapse = ""), nchar(after))
}
