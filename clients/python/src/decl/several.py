"""Answers to one level or amount, and to a list or an array of them."""

import functools
from typing import TYPE_CHECKING, Any, Callable, Iterable, List, Protocol, Tuple, Union, cast, overload

from .calls import Number
from .figures import plain
from .reports import Report, Row

if TYPE_CHECKING:
    from .books import Book


class Array(Protocol):
    """An array of numpy, or a column of pandas."""

    def __len__(self) -> int: ...

    def tolist(self) -> List[Any]: ...


Several = Union[List[Any], Tuple[Any, ...], Array]


class OfLevel(Protocol):
    """A row for one level, a report for several."""

    @overload
    def __call__(self, p: Number) -> Row: ...

    @overload
    def __call__(self, p: Several) -> Report: ...


class OfAmount(Protocol):
    """A row for one amount, a report for several."""

    @overload
    def __call__(self, x: Number) -> Row: ...

    @overload
    def __call__(self, x: Several) -> Report: ...


def listed(value: object) -> Union[Iterable[Any], None]:
    """The items of a list, a tuple or an array; None for one number."""
    if isinstance(value, (list, tuple)):
        return value
    return None if isinstance(value, str) or not hasattr(value, "__len__") else cast(Array, value).tolist()


def of_each(method: Callable[..., Row]) -> Callable[..., Any]:
    """The method, which also takes a list or an array: then its rows are answered by few calls of the program."""

    @functools.wraps(method)
    def asked(book: "Book", *values: Any, **named: Any) -> Union[Row, Report]:
        from .books import exact

        items = listed((*values, *named.values())[0])
        if items is None:
            return method(book, *values, **named)
        return Report(book.each(f"{method.__name__}:{plain(exact(each))}" for each in items), book.bs, book.cells)

    return asked


def of_level(method: Callable[[Any, Number], Row]) -> OfLevel:
    """A method of a level."""
    return cast(OfLevel, of_each(method))


def of_amount(method: Callable[[Any, Number], Row]) -> OfAmount:
    """A method of an amount."""
    return cast(OfAmount, of_each(method))
