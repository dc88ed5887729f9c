"""Numbers tested against the field that holds them on the other side.

ctypes would take the low bits of a number that does not fit, which is another number, and would round a whole number
to a double. So every number passes one of these functions before it crosses.
"""

import ctypes
import operator
from collections.abc import Iterable
from typing import Any

from .errors import Misused

u8, u32, u64, i64, size = ctypes.c_uint8, ctypes.c_uint32, ctypes.c_uint64, ctypes.c_int64, ctypes.c_size_t
f64, octets = ctypes.c_double, ctypes.c_char_p
u32s, u64s, i64s, sizes = (ctypes.POINTER(field) for field in (u32, u64, i64, size))

LIMITS: dict[Any, tuple[int, int]] = {
    u8: (0, 2 ** 8 - 1),
    u32: (0, 2 ** 32 - 1),
    u64: (0, 2 ** 64 - 1),
    size: (0, 2 ** (8 * ctypes.sizeof(size)) - 1),
    i64: (-2 ** 63, 2 ** 63 - 1),
}
"""The least and the greatest number of each field."""


def whole(field: Any, value: Any, what: str = "a number") -> int:
    """The value as a whole number that the field holds: TypeError for another type, ValueError for another size."""
    try:
        number = operator.index(value)
    except TypeError:
        raise TypeError(f"{what}: {value!r} is no whole number") from None
    low, high = LIMITS[field]
    if not low <= number <= high:
        raise ValueError(f"{what}: {number} is not from {low} to {high}")
    return number


def double(value: Any, what: str = "a number") -> float:
    """The value, where it is a float: what is none would be rounded to one."""
    if not isinstance(value, float):
        raise TypeError(f"{what}: {value!r} is no float")
    return value


def data(value: Any, what: str = "a sheet") -> bytes:
    """Bytes, from anything that holds them."""
    if not isinstance(value, (bytes, bytearray, memoryview)):
        raise Misused(f"{what} is bytes, and not {value!r}")
    return bytes(value)


def array(field: Any, values: Iterable[Any], what: str = "a number") -> Any:
    """The values in an array of that field, each tested."""
    tested = [whole(field, value, what) for value in values]
    return (field * len(tested))(*tested)


def crossed(field: Any, value: Any) -> Any:
    """An argument of an exported function, tested where it is a number."""
    if field is f64:
        return double(value)
    return whole(field, value) if field in LIMITS else value
