"""What translated definitions run on: the values, and the library's functions that they name.

What is made imports all names from here, those of the values too."""
from __future__ import annotations

import itertools
import operator
from collections.abc import Callable
from typing import Any

from values import (  # noqa: F401
    ANYTHING, KEPT, NIL, NONE, Joined, Made, Nil, NoClause, Pair, Record,
    curried, forget, joined, kept0, kept1, listed, some, updated,
)


def length(items: Any) -> int:
    """How many elements a list has; each part of it keeps its own number."""
    counted: list[Pair] = []
    size = 0
    while items is not NIL:
        if isinstance(items, Joined):
            items = items.force()
            continue
        if hasattr(items, "size"):
            size = items.size
            break
        counted.append(items)
        items = items.tail
    for pair in reversed(counted):
        size += 1
        pair.size = size
    return size


def drop(count: int, items: Any) -> Any:
    while count > 0 and items is not NIL:
        items, count = items.tail, count - 1
    return items


def mapped(function: Callable[[Any], Any], items: Any) -> Any:
    return listed([function(item) for item in items])


def flat_mapped(function: Callable[[Any], Any], items: Any) -> Any:
    found: list[Any] = []
    for item in items:
        inner = function(item)
        if inner is not NIL:
            found.extend(inner)
    return listed(found)


def count_by(test: Callable[[Any], bool], items: Any) -> int:
    count = 0
    for item in items:
        if test(item):
            count += 1
    return count


def slice_index_or(items: Any, index: int, default: Any) -> Any:
    rest = drop(index, items)
    return default if rest is NIL else rest.head


def slice_get(items: Any, index: int) -> Made:
    rest = drop(index, items)
    return NONE if rest is NIL else some(rest.head)


def slice_set(items: Any, index: int, value: Any) -> Any:
    rest = drop(index, items)
    return items if rest is NIL else listed(itertools.islice(items, index), Pair(value, rest.tail))


def find(test: Callable[[Any], bool], items: Any) -> Made:
    for item in items:
        if test(item):
            return some(item)
    return NONE


def option_map(function: Callable[[Any], Any], value: Made) -> Made:
    return NONE if value.tag == "None" else some(function(value.args[0]))


def option_and_then(function: Callable[[Any], Made], value: Made) -> Made:
    return NONE if value.tag == "None" else function(value.args[0])


def unwrap_or(value: Made, default: Any) -> Any:
    return default if value.tag == "None" else value.args[0]


def digit_value(byte: int) -> int:
    """What a digit or a letter counts, 36 for any other byte."""
    sign = chr(byte)
    return int(sign, 36) if sign.isascii() and sign.isalnum() else 36


def without_plus(text: Any) -> Any:
    return text.tail if text is not NIL and text.head == 43 else text


def digits_value(base: int, text: Any) -> int:
    value = 0
    for byte in text:
        value = value * base + digit_value(byte)
    return value


def slice_cmp(rank: Any, left: Any, right: Any) -> Made:
    """The first pair that is not equal decides, and else the lengths do."""
    while left is not NIL and right is not NIL:
        answer = rank(left.head)(right.head)
        if answer.tag != "Equal":
            return Made(answer.tag)
        left, right = left.tail, right.tail
    return Made("Equal" if left is right else "Less" if left is NIL else "Greater")


def is_unsigned_in(least: int, most: int, text: Any) -> bool:
    """Whether a text is a number in decimal digits, with at most one `+` in front, in this range."""
    digits = bytes(without_plus(text)).decode("latin-1")
    return digits.isascii() and digits.isdigit() and least <= int(digits) <= most


def from_bytes(width: int, items: Any) -> int:
    return int.from_bytes(bytes([*items, *[0] * width][:width]), "big")


def to_bytes(width: int, value: int) -> Any:
    return listed((value % 256 ** width).to_bytes(width, "big"))


# Each function of the libraries by name: how many arguments it takes, and what it gives.
LIBRARY: dict[str, tuple[int, Callable[..., Any]]] = {
    "length": (1, length),
    "map": (2, mapped),
    "reverse": (1, lambda xs: listed(reversed(list(xs)))),
    "take": (2, lambda count, xs: listed(itertools.islice(xs, count))),
    "drop": (2, drop),
    "replicate": (2, lambda count, item: listed([item] * count)),
    "filter": (2, lambda test, xs: listed(item for item in xs if test(item))),
    "flat_map": (2, flat_mapped),
    "list_all": (2, lambda test, xs: all(test(item) for item in xs)),
    "list_any": (2, lambda test, xs: any(test(item) for item in xs)),
    "count_by": (2, count_by),
    "find": (2, find),
    "take_while": (2, lambda test, xs: listed(itertools.takewhile(test, xs))),
    "prefix_len": (2, lambda test, xs: sum(1 for _ in itertools.takewhile(test, xs))),
    "range_with_len": (2, lambda start, count: listed(range(start, start + count))),
    "slice_get": (2, slice_get),
    "slice_index": (2, lambda xs, index: slice_index_or(xs, index, 0)),
    "slice_index_or": (3, slice_index_or),
    "get_or": (3, slice_index_or),
    "slice_set": (3, slice_set),
    "is_some": (1, lambda option: option.tag == "Some"),
    "is_none": (1, lambda option: option.tag == "None"),
    "option_map": (2, option_map),
    "option_and_then": (2, option_and_then),
    "option_to_list": (1, lambda option: listed(option.args)),
    "unwrap_or": (2, unwrap_or),
    "option_map_or": (3, lambda function, option, default: default if option.tag == "None" else function(option.args[0])),
    "suffix_len": (2, lambda test, xs: sum(1 for _ in itertools.takewhile(test, reversed(list(xs))))),
    "before_first": (2, lambda test, xs: listed(itertools.takewhile(lambda item: not test(item), xs))),
    "after_first": (2, lambda test, xs: drop(sum(1 for _ in itertools.takewhile(lambda item: not test(item), xs)) + 1, xs)),
    "nat_cmp": (2, lambda left, right: Made("Less" if left < right else "Equal" if left == right else "Greater")),
    "slice_cmp": (3, slice_cmp),
    "is_unsigned_in": (3, is_unsigned_in),
    "IsTrue": (1, lambda truth: truth),
    "IsFalse": (1, lambda truth: not truth),
    "IsSome": (1, lambda option: option.tag == "Some"),
    "IsNone": (1, lambda option: option.tag == "None"),
    "IfSome": (2, lambda option, test: option.tag == "None" or test(option.args[0])),
    "nat_eq": (2, operator.eq),
    "nat_lt": (2, operator.lt),
    "nat_le": (2, operator.le),
    "int_lt": (2, operator.lt),
    "int_le": (2, operator.le),
    "int_eq": (2, operator.eq),
    "int_max": (2, max),
    "int_min": (2, min),
    "max": (2, max),
    "min": (2, min),
    "not": (1, lambda truth: not truth),
    "cond": (3, lambda truth, left, right: left if truth else right),
    "neg_ℤ": (1, lambda number: -number),
    "pred": (1, lambda number: max(0, number - 1)),
    "codes": (1, lambda text: listed(map(ord, text))),
    "decimal": (1, lambda number: listed(map(ord, str(number)))),
    "bytes_eq": (2, operator.eq),
    "append_known": (2, lambda option, xs: option_map(lambda known: listed(known, xs), option)),
    "prepend_known": (2, lambda xs, option: option_map(lambda known: listed(xs, known), option)),
    "digits_value": (2, digits_value),
    "without_leading_plus": (1, without_plus),
    "from_be_bytes": (2, from_bytes),
    "to_be_bytes": (2, to_bytes),
    "w16": (0, lambda: 2),
    "w32": (0, lambda: 4),
    "vec_items": (1, lambda vector: vector.items),
    "fold": (3, lambda function, begun, xs: _fold(function, begun, xs)),
    "string_bytes": (1, lambda text: text),
    "digit_value": (1, digit_value),
    "to_ascii_lowercase": (1, lambda byte: byte + 32 if 65 <= byte <= 90 else byte),
    # no option of the command is a number with a sign
    "signed_digits_value": (2, lambda base, text: no_clause("signed_digits_value")),
    "without_leading_sign": (1, lambda text: no_clause("without_leading_sign")),
    "chars": (1, lambda text: listed(map(ord, bytes(text).decode()))),
    "encode_utf8": (1, lambda char: listed(chr(char).encode())),
    # no option of the command is a number with a fraction
    "is_float_text": (1, lambda text: no_clause("is_float_text")),
}


def _fold(function: Any, start: Any, items: Any) -> Any:
    for item in items:
        start = function(start)(item)
    return start


def power(base: int, exponent: int) -> int:
    return int(base ** exponent)


def less(left: int, right: int) -> int:
    """A difference of natural numbers, which is never below 0."""
    return max(0, left - right)


def quotient(left: int, right: int) -> int:
    return left // right if right else 0


def remainder(left: int, right: int) -> int:
    return left % right if right else left


def no_clause(name: str) -> Any:
    raise NoClause(name)
