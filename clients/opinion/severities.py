"""The severity of one claim, step by step, and what a clause makes of an amount (docs/DEFINITIONS.md, "Severities and clauses").

A severity is a dictionary of amounts in buckets with their probabilities, as fractions; a cession is a limit (None for `inf`), an
attachment and a share; a clause is a side, `net` or `ceded`, and a list of cessions.
"""

from fractions import Fraction


def merge(amounts, chances):
    """The severity of one atom: the probabilities of equal amounts are added up, and amounts of probability 0 dropped."""
    found = {}
    for amount, chance in zip(amounts, chances):
        if chance:
            found[amount] = found.get(amount, 0) + chance
    return found


def mix(severities, weights):
    """The mixture of several severities by these weights."""
    parts = [(amount, weight * chance) for severity, weight in zip(severities, weights) for amount, chance in severity.items()]
    return merge(*zip(*parts))


def above(attachment, severity):
    """The severity given that it exceeds the attachment."""
    kept = {amount: chance for amount, chance in severity.items() if amount > attachment}
    whole = sum(kept.values())
    return {amount: Fraction(chance) / whole for amount, chance in kept.items()}


def layer(limit, attachment, x):
    """What of `x` lies above the attachment, and within the limit where there is one."""
    above_it = max(x - attachment, 0)
    return above_it if limit is None else min(above_it, limit)


def cut(limit, attachment, severity):
    """The severity in a layer."""
    return merge([layer(limit, attachment, amount) for amount in severity], severity.values())


def ceded(cessions, x):
    """The sum over the layers of share times layer."""
    return sum(share * layer(limit, attachment, x) for limit, attachment, share in cessions)


def kept(clause, x):
    """The outcome of an amount: what the clause's layers take of it with `ceded`, and leave of it with `net`."""
    side, cessions = clause
    return ceded(cessions, x) if side == "ceded" else x - ceded(cessions, x)


def cede_each(clause, severity):
    """The severity after an occurrence clause."""
    return merge([int(kept(clause, amount)) for amount in severity], severity.values())


def edges(clause):
    """The attachments of a clause and the ends of its finite layers: between two of them it is a line."""
    return {end for limit, attachment, _ in clause[1] for end in (attachment, attachment + (limit or 0))}


def fits(clause, step):
    """Whether the clause maps every multiple of the step to a whole number: two multiples of each of its lines decide it."""
    tried = [-(-edge // step) * step + more for edge in edges(clause) | {0} for more in (0, step)] if step else [0]
    return all(Fraction(kept(clause, x)).denominator == 1 for x in tried)


def horizon(clause, cells):
    """How many buckets of the sum before an aggregate clause a grid of so many cells after it asks for."""
    if clause is None:
        return cells
    end = max(edges(clause))
    slope = kept(clause, end + 1) - kept(clause, end)
    last = max([1] + [attachment + (limit or 0) for limit, attachment, _ in clause[1]])
    missing = cells - kept(clause, end)
    return max(last, end + int(-(-missing // slope))) if slope and missing > 0 else last


def mean_of(severity):
    """The mean of a severity."""
    return sum((amount * chance for amount, chance in severity.items()), Fraction(0))
