"""WAV files: samples as items of sources, and items of sinks as samples."""
from __future__ import annotations

import array
import collections.abc
import contextlib
import io
import os
import pathlib
import secrets
import shutil
import struct
import sys
import wave
from typing import Any, List, NamedTuple, Optional, Sequence, Tuple, Union, overload

from .errors import KpnError, whole

# The path of a file.
Path = Union[str, 'os.PathLike[str]']
# The tag of whole samples, and that of the form of a head that says what they are by these bytes at its place.
WHOLE, EXTENSIBLE = 1, 0xFFFE
PLACE_OF_KIND, WHOLE_KIND = 24, bytes.fromhex('0100000000001000800000aa00389b71')
# The bytes of a sample, by its bits.
WIDTHS = {16: 2, 24: 3}
# The most bytes of a sample of each channel, and of those of a second.
LARGEST_FRAME, LARGEST_SECOND = 65_535, 2**32 - 1
# The most bytes of all samples of a file, whose head has 36 more in 32 bits.
LARGEST_DATA = 2**32 - 1 - 36
# From this size on a head tells nothing: programs that write to a pipe do not know it before.
UNKNOWN_SIZE = 0x7FFFE000
# What helps with a file of another kind.
CONVERT = 'convert it to whole samples of 16 or 24 bits'


class Wav(collections.abc.Sequence):  # type: ignore[type-arg]
    """The samples of a WAV file: `wav[k]` has those of channel k, from 0 on, as an array of whole numbers.

    Samples of 16 bits, which `bits` says then, are from -32,768 to 32,767, and those of 24 bits from -8,388,608 to
    8,388,607. `rate` is how many samples a second has, and `len(wav)` how many channels there are. All channels have
    equally many samples. Raises KpnError for a file that is no WAV file of such samples or ends within them, and
    OSError for one that can't be read.
    """

    def __init__(self, path: Path):
        self.path = os.fspath(path)
        data = pathlib.Path(self.path).read_bytes()
        try:
            head = head_of(data)
        except ValueError as error:
            raise KpnError(f'{self.path} is no WAV file of 16 or 24 bits: {error}') from None
        self.bits, self.rate = head.bits, head.rate
        samples = samples_of(self.data_of(data, head), WIDTHS[self.bits], head.channels)
        self._channels = [samples[channel::head.channels] for channel in range(head.channels)]

    def data_of(self, data: bytes, head: Head) -> bytes:
        """The bytes of the samples, and of none a part."""
        data = data[head.start:None if head.size is None else head.start + head.size]
        if head.size is not None and len(data) < head.size:
            raise KpnError(f'{self.path} is no whole WAV file: it ends within its samples: {len(data)} of {head.size} '
                           'bytes')
        over = len(data) % WIDTHS[head.bits]
        # A byte 0 fills up an odd number of bytes.
        if over and (head.size is not None or len(data) % 2 or data[-1]):
            raise KpnError(f'{self.path} is no whole WAV file: it ends within a sample')
        return data

    def __repr__(self) -> str:
        return f'<Wav {self.path}: {len(self)} channels of {len(self[0])} samples, {self.bits} bits, {self.rate} Hz>'

    def __len__(self) -> int:
        return len(self._channels)

    @overload
    def __getitem__(self, channel: int) -> array.array[int]: ...

    @overload
    def __getitem__(self, channel: slice) -> List[array.array[int]]: ...

    def __getitem__(self, channel: Union[int, slice]) -> Any:
        return self._channels[channel]

    def only(self) -> array.array[int]:
        """The samples of the only channel. Raises KpnError if there are several."""
        if len(self) > 1:
            raise KpnError(f'{self.path} has {len(self)} channels: give one, as `kpn.Wav({self.path!r})[0]`')
        return self._channels[0]


class Head(NamedTuple):
    """What the head of a WAV file says, and where its samples begin.

    `size` is how many bytes they have, and None if the program that wrote the file did not know it.
    """
    bits: int
    channels: int
    rate: int
    start: int
    size: Optional[int]


def head_of(data: bytes) -> Head:
    """The head of a WAV file of whole samples. Raises ValueError, which says what is wrong."""
    if data[:4] != b'RIFF':
        raise ValueError('it does not start with RIFF')
    if data[8:12] != b'WAVE'[:max(0, len(data) - 8)]:
        raise ValueError('it is no WAVE')
    whole, place, kind = number_at(data, 4), 12, None
    while place + 8 <= len(data):
        name, size, body = data[place:place + 4], number_at(data, place + 4), place + 8
        if name == b'data' and kind:
            is_empty = size == 0 and place < whole < UNKNOWN_SIZE
            return Head(*kind, body, size if is_empty or 0 < size < UNKNOWN_SIZE else None)
        if name == b'data':
            raise ValueError('it does not say what its samples are')
        if name == b'fmt ':
            kind = kind_of(data[body:body + size])
        place = body + size + size % 2
    raise ValueError('it ends too early')


def number_at(data: bytes, place: int) -> int:
    return int.from_bytes(data[place:place + 4], 'little')


def kind_of(chunk: bytes) -> Tuple[int, int, int]:
    """The bits, the channels and the samples a second that a chunk `fmt ` says."""
    if len(chunk) < 16:
        raise ValueError('it ends too early')
    tag, channels, rate, _, frame, bits = struct.unpack('<HHIIHH', chunk[:16])
    kind = chunk[PLACE_OF_KIND:PLACE_OF_KIND + len(WHOLE_KIND)]
    if tag != WHOLE and (tag != EXTENSIBLE or kind != WHOLE_KIND):
        raise ValueError(f'unknown format: {tag}: {CONVERT}')
    if bits not in WIDTHS:
        raise ValueError(f'it has samples of {bits} bits: {CONVERT}')
    if channels == 0 or frame != channels * WIDTHS[bits]:
        raise ValueError(f'it has {channels} channels in {frame} bytes')
    return bits, channels, rate


def samples_of(data: bytes, width: int, channels: int) -> array.array[int]:
    """The samples in these bytes, of this many bytes each.

    What is left of a frame at the end is dropped.
    """
    data = data[:len(data) - len(data) % (width * channels)]
    if width == 2:
        return array.array('q', from_little('h', data))
    # The highest bytes of numbers of 32 bits, which have the sign.
    wide = bytearray(len(data) // 3 * 4)
    for place in range(3):
        wide[place + 1::4] = data[place::3]
    return array.array('q', (it >> 8 for it in from_little('i', bytes(wide))))


def from_little(kind: str, data: bytes) -> array.array[int]:
    """The numbers that these bytes write, the lowest byte of each first."""
    made = array.array(kind, data)
    if sys.byteorder == 'big':
        made.byteswap()
    return made


def bytes_of(samples: array.array[int], width: int) -> bytes:
    """The bytes of samples that this many bytes have room for, as `wave` takes them: in the order of the machine."""
    if width == 2:
        return array.array('h', samples).tobytes()
    wide, data = array.array('i', samples).tobytes(), bytearray(len(samples) * 3)
    first = int(sys.byteorder == 'big')
    for place in range(3):
        data[place::3] = wide[place + first::4]
    return bytes(data)


def fitting(sink: str, items: Sequence[int], bits: int, clip: bool) -> array.array[int]:
    """The items of a sink as samples of this many bits."""
    low, high = -2**(bits - 1), 2**(bits - 1) - 1
    values = array.array('q', items.tolist() if hasattr(items, 'tolist') else items)
    if not values or low <= min(values) and max(values) <= high:
        return values
    if clip:
        return array.array('q', (max(low, min(high, it)) for it in values))
    place = next(place for place, it in enumerate(values) if not low <= it <= high)
    raise KpnError(f'item {place} of the sink `{sink}` is {values[place]}, out of range: samples of {bits} bits are '
                   f'from {low} to {high}. `clip=True` takes the nearest one')


def write_wav(path: Path, sinks: Sequence[str], lists: Sequence[Sequence[int]], rate: int = 48_000, bits: int = 16,
              clip: bool = False) -> None:
    """Writes the items of sinks as the channels of a WAV file, and raises what `Result.wav` does."""
    if bits not in WIDTHS:
        raise KpnError(f'`bits` is {bits}: it has to be 16 or 24')
    width = WIDTHS[bits]
    if not 1 <= len(sinks) <= LARGEST_FRAME // width:
        raise KpnError(f'{len(sinks)} sinks are given: a file of {bits} bits has from 1 to {LARGEST_FRAME // width} '
                       'channels')
    lengths = {len(items) for items in lists}
    if len(lengths) > 1:
        counts = ', '.join(f'{len(items)} of `{name}`' for name, items in zip(sinks, lists))
        raise KpnError(f'the sinks have unequally many items, {counts}: the channels of a file have equally many')
    rate = whole('`rate`', rate, 1, LARGEST_SECOND // (width * len(sinks)))
    samples = array.array('q', bytes(8 * len(sinks) * lengths.pop()))
    for channel, (name, items) in enumerate(zip(sinks, lists)):
        samples[channel::len(sinks)] = fitting(name, items, bits, clip)
    data = bytes_of(samples, width)
    if len(data) > LARGEST_DATA:
        raise KpnError(f'the samples have {len(data)} bytes: a WAV file has at most {LARGEST_DATA}')
    file = io.BytesIO()
    with wave.open(file, 'wb') as made:
        made.setnchannels(len(sinks))
        made.setsampwidth(width)
        made.setframerate(rate)
        made.writeframes(data)
    store(path, file.getbuffer())


def store(path: Path, data: memoryview) -> None:
    """Stores a file, which an old one gives way to once it is whole.

    What is no plain file, as a FIFO, and a file in a folder that takes no other one, are written where they are.
    """
    file = os.path.realpath(path) if os.path.islink(path) else os.fspath(path)
    folder = os.path.dirname(file) or os.curdir
    may_replace = (os.path.isfile(file) and os.access(file, os.W_OK)) or not os.path.exists(path)
    if not (may_replace and os.access(folder, os.W_OK)):
        pathlib.Path(path).write_bytes(data)
        return
    part = os.path.join(folder, f'.{secrets.token_hex(8)}.part')
    try:
        pathlib.Path(part).write_bytes(data)
        if os.path.exists(file):
            shutil.copymode(file, part)
        os.replace(part, file)
    finally:
        with contextlib.suppress(FileNotFoundError):
            os.unlink(part)
