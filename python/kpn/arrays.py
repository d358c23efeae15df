"""Arrays of NumPy, which need not be there, and numbers with a point that become items."""
from __future__ import annotations

import array
import contextlib
import fractions
import importlib
import numbers
import operator
from typing import Any, List, Sequence

from .errors import LARGEST, KpnError, whole
from .fixed import MOST_BITS

WHOLE = ('int8', 'int16', 'int32', 'int64', 'uint8')
REAL = ('float32', 'float64')
# The kinds whose numbers become such of 64 bits as they are.
EXACT = ('float16', *REAL)


def numpy() -> Any:
    """The module NumPy. Raises KpnError if it is not there."""
    try:
        return importlib.import_module('numpy')
    except ImportError:
        raise KpnError('an array of NumPy is asked for, and NumPy is not there: install it') from None


def checked_scale(scale: Any) -> int:
    """A scale, if it is a power of two that may be."""
    given = whole('the scale', scale, 1, 1 << MOST_BITS)
    if given & (given - 1):
        raise KpnError(f'the scale is {given}: it has to be a power of two')
    return given


def is_numpy(items: Any) -> bool:
    """Whether this is an array of NumPy."""
    return hasattr(items, '__array_interface__')


def unmasked(items: Any) -> Any:
    """These items, but an array of NumPy with masked cells as a list, which has None there: that is no item."""
    return items.tolist() if is_numpy(items) and numpy().ma.is_masked(items) else items


def check_shape(source: str, items: Any) -> None:
    """Raises TypeError for an array that has not one dimension, and for a text or bytes, which may be meant as a name.
    """
    if isinstance(items, (str, bytes)):
        raise TypeError(f'what is given for the source `{source}` is {items[:40]!r}, and items have to be whole '
                        'numbers: for a run, a file of items is a `pathlib.Path`, and the name of a WAV file a string '
                        'that ends in `.wav`; `kpn.Wav(name)[0]` has the samples of one')
    shape = getattr(items, 'shape', (0,))
    if len(shape) != 1:
        raise TypeError(f'the items of the source `{source}` have the shape {shape}: they have to have one dimension, '
                        'as a column `items[:, 0]` has')


def listed(source: str, items: Any, what: str) -> List[Any]:
    """The items of a source as a list. Raises TypeError if they are none."""
    try:
        return list(items.tolist() if hasattr(items, 'tolist') else items)
    except TypeError:
        raise TypeError(f'the items of the source `{source}` have to be {what}, and not {items!r}') from None


def scaled(source: str, items: Any, scale: int) -> Any:
    """The items of a source multiplied by a scale and rounded to the nearest, a half away from 0.

    An array of NumPy or of `array` becomes one of 64 bits, and anything else a list.
    """
    check_shape(source, items)
    items = unmasked(items)
    if is_numpy(items) and items.dtype.name in EXACT:
        return scaled_array(source, items, scale)
    given = listed(source, items, 'numbers')
    made = [scaled_item(source, place, it, scale) for place, it in enumerate(given)]
    if is_numpy(items):
        return numpy().array(made, dtype='int64')
    return array.array('q', made) if isinstance(items, array.array) else made


def scaled_array(source: str, items: Any, scale: int) -> Any:
    """The same of an array of numbers with a point: each product is exact, since the scale is a power of two."""
    np = numpy()
    with np.errstate(over='ignore', invalid='ignore'):
        products = items.astype('float64') * scale
        fits = (products >= -2.0**63) & (products < 2.0**63)
    if not fits.all():
        place = int(np.argmin(fits))
        scaled_item(source, place, items.tolist()[place], scale)
    sizes = np.floor(np.abs(products))
    sizes += np.abs(products) - sizes >= 0.5
    return np.copysign(sizes, products).astype('int64')


def scaled_item(source: str, place: int, given: Any, scale: int) -> int:
    """The same of one item. Raises TypeError if it is no number, and KpnError if it is none that has a nearest item."""
    if not isinstance(given, numbers.Real):
        raise TypeError(f'item {place} of the source `{source}` is {given!r}, and items have to be numbers')
    try:
        exact = exact_of(given) * scale
    except (ValueError, OverflowError):
        raise KpnError(f'item {place} of the source `{source}` is {given!r}, which is no number') from None
    number = int(abs(exact) + fractions.Fraction(1, 2)) * (1 if exact > 0 else -1)
    if not -LARGEST - 1 <= number <= LARGEST:
        raise KpnError(f'item {place} of the source `{source}` is {given!r}, out of range: '
                       f'times {scale} it has to be from -2^63 to 2^63 - 1')
    return number


def exact_of(given: Any) -> fractions.Fraction:
    """A number as a fraction, exactly. Those of NumPy are no `int` and some no `float`, and their products wrap."""
    if hasattr(given, '__index__'):
        return fractions.Fraction(operator.index(given))
    if hasattr(given, 'as_integer_ratio'):
        above, below = given.as_integer_ratio()
        return fractions.Fraction(int(above), int(below))
    return fractions.Fraction(given) if isinstance(given, numbers.Rational) else fractions.Fraction(float(given))


def array_of(sink: str, items: Sequence[int], dtype: Any, scale: int) -> Any:
    """The items of a sink as an array of NumPy, and raises what `Result.array` does."""
    np = numpy()
    kind: Any = None
    # None would stand for float64.
    if dtype is not None:
        with contextlib.suppress(TypeError, ValueError):
            kind = np.dtype(dtype)
    name = dtype if kind is None else kind.name
    if name not in (*WHOLE, *REAL):
        raise KpnError(f'`dtype` is {name}: it has to be one of {", ".join((*WHOLE, *REAL))}')
    values = np.array(items, dtype='int64')
    if kind.name in REAL:
        return values.astype(kind) / kind.type(checked_scale(scale))
    if checked_scale(scale) != 1:
        raise KpnError(f'a scale of {scale} is given: it is for {" and ".join(REAL)}')
    info = np.iinfo(kind)
    fits = (values >= info.min) & (values <= info.max)
    if not fits.all():
        place = int(np.argmin(fits))
        raise KpnError(f'item {place} of the sink `{sink}` is {values[place]}, out of range: '
                       f'{kind.name} is from {info.min} to {info.max}')
    return values.astype(kind)
