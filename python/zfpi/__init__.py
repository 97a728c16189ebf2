"""Integer arrays of numpy as streams of zfpi, and back, in this process.

    import numpy, zfpi
    stream = zfpi.compress(field)                 # lossless
    stream = zfpi.compress(field, rate=8)         # 8 bits a value
    stream = zfpi.compress(field, precision=20)   # the top 20 bit planes of each block
    field = zfpi.decompress(stream)
    part = zfpi.open("field.zfp")[10:20, ..., 3]  # of a stream in a file, which is mapped

Type, shape and byte order come from the array. Arrays have one to four axes and int8, uint8, int16, uint16, int32 or
int64 values. The stream of 8 and 16 bits says int32, so `decompress(stream, "uint16")` names the type again. The
interpreter's lock is free during each call, so threads compress side by side.

The work is done by `libzfpi.so.1`, which install.sh builds: the one that the environment variable ZFPI_LIBRARY names, or
beside this package, or where the system looks.
"""

import ctypes
import functools
import io
import mmap
import operator
import os
import pathlib

import numpy

__version__ = "1.1.0"
__all__ = ["Refused", "compress", "compress_into", "decompress", "decompress_into", "greatest_error", "info", "most_bytes", "open"]


class _Field(ctypes.Structure):
    _fields_ = (
        [("type", ctypes.c_uint32), ("dims", ctypes.c_uint32)]
        + [(name, ctypes.c_uint64) for name in ("nx", "ny", "nz", "nw")]
        + [("mode", ctypes.c_uint32), ("parameter", ctypes.c_uint32)]
    )


class _Info(ctypes.Structure):
    _fields_ = [("field", _Field), ("raw_len", ctypes.c_uint64), ("stream_len", ctypes.c_uint64)]


_CAUSES = {
    1: "type: it is none of the library's",
    2: "shape: it is invalid or too large",
    3: "mode: its parameter is out of range",
    4: "input: fewer bytes than the shape needs",
    5: "input: more bytes than the shape needs",
    6: "room: the output is too small",
    7: "out of memory",
    8: "header: these bytes begin with none that is read",
    9: "stream: it ends too early",
    10: "stream: a fill bit is one, so it is damaged",
    11: "stream: a byte follows it",
    12: "type: the stream's values are int64",
    13: "part: the array has no such block or window",
    14: "index: it is not that of this stream",
}
_TYPES = {order + name: number for number, name in enumerate("i4 i8 i1 u1 i2 u2".split(), 1) for order in "<>|"}
_NARROW = (3, 4, 5, 6)
# looked up once, as small arrays take no longer than what is asked about them here
_from_buffer, _addressof = ctypes.c_char.from_buffer, ctypes.addressof
_REVERSIBLE, _RATE, _PRECISION = 1, 2, 3
_INSTEAD = {
    "b": "use array.view('u1')",
    "u": "uint32 fits int64, and below 2**31 int32: use array.astype",
    "f": "zfpi compresses integers: zfp compresses floating-point numbers",
}


class _Axes(ctypes.Structure):
    _fields_ = [(name, ctypes.c_uint64) for name in "xyzw"]


class Refused(ValueError):
    """A stream or an array that is refused. `status` is the library's number, which zfpi.h names."""

    def __init__(self, status):
        super().__init__(_CAUSES.get(status, f"status {status}"))
        self.status = status


def _loaded():
    """The library, with the types of its calls."""
    beside = pathlib.Path(__file__).resolve().parents[3] / "libzfpi.so.1"
    name = os.environ.get("ZFPI_LIBRARY") or (str(beside) if beside.exists() else "libzfpi.so.1")
    library = ctypes.CDLL(name)
    # of what is written or read here the address is given: a pointer takes longer to be made
    pointer, size = ctypes.c_void_p, ctypes.c_size_t
    library.zfpi_compress.argtypes = [pointer, pointer, size, pointer, size, pointer]
    library.zfpi_restore.argtypes = [pointer, size, pointer, size, pointer]
    library.zfpi_restore_narrow.argtypes = [ctypes.c_uint32, pointer, size, pointer, size, pointer]
    library.zfpi_header.argtypes = [pointer, size, pointer]
    library.zfpi_read.argtypes = [pointer, size, pointer, pointer, pointer, size]
    library.zfpi_index.argtypes = [pointer, size, pointer, size]
    library.zfpi_read_at.argtypes = [pointer, size, pointer, size, pointer, pointer, pointer, size]
    library.zfpi_most.argtypes = [pointer, pointer]
    library.zfpi_version.argtypes = []
    if not 10100 <= library.zfpi_version() < 20000:
        raise ImportError(f"{name} is of another version")
    return library


_library = _loaded()


def _check(status):
    if status == 7:
        raise MemoryError("zfpi")
    if status:
        raise Refused(status)


@functools.lru_cache(256)
def _number_of(dtype):
    """The library's number of a type in either byte order, or a `TypeError` that says what to do."""
    number = _TYPES.get(dtype.str)
    if number is None:
        raise TypeError(f"zfpi has no {dtype.name}: {_INSTEAD.get(dtype.kind, 'it takes integers of 8 to 64 bits')}")
    return number


def _mode_of(dims, reversible, rate, precision):
    """The library's numbers of a mode: a rate comes in bits a value, and goes in bits a block."""
    if (reversible is not None) + (rate is not None) + (precision is not None) > 1:
        raise ValueError("give one of reversible, rate and precision")
    if rate is not None:
        bits = rate * 4**dims
        if bits != int(bits) or not 1 <= bits <= 32768:
            raise ValueError(f"a rate of {rate} bits a value is {bits} bits a block, and not one of 1 to 32768")
        return _RATE, int(bits)
    if precision is not None:
        if precision != int(precision) or not 1 <= precision <= 128:
            raise ValueError("a precision is 1 to 128")
        return _PRECISION, int(precision)
    if reversible is False:
        raise ValueError("give a rate or a precision")
    return _REVERSIBLE, 0


class _Described:
    """What the library is told of an array: its field, which no call writes to, where that is, and whether the bytes of
    its values are to be turned."""

    def __init__(self, dtype, shape, mode):
        dims = len(shape)
        if not 1 <= dims <= 4:
            raise ValueError(f"an array of zfpi has one to four axes, and not {dims}")
        sizes = [*shape[::-1], 0, 0, 0][:4]
        self.field = _Field(_number_of(dtype), dims, *sizes, *_mode_of(dims, *mode))
        self.address = _addressof(self.field)
        self.is_swapped = dtype.str[0] == ">"

    @functools.cached_property
    def most(self):
        most = ctypes.c_uint64()
        _check(_library.zfpi_most(self.address, _addressof(most)))
        return most.value


@functools.lru_cache(256)
def _described(dtype, shape, *mode):
    return _Described(dtype, shape, mode)


def _place(array):
    """Where the bytes of a contiguous array are, and how many. They are there as long as it is."""
    try:
        # a third of the time that array.ctypes takes, for what may be written to and has bytes
        return _addressof(_from_buffer(array)), array.nbytes
    except (BufferError, TypeError, ValueError):
        if not array.flags.c_contiguous:
            raise ValueError("the bytes are not contiguous") from None
        return array.ctypes.data, array.nbytes


def _place_to_write(out):
    """The same of an output."""
    try:
        return _addressof(_from_buffer(out)), out.nbytes
    except (BufferError, TypeError, ValueError):
        if not (out.flags.c_contiguous and out.flags.writeable):
            raise ValueError("the output is not contiguous, or not writable") from None
        return out.ctypes.data, out.nbytes


def _words(numbers):
    """The same of numbers of 8 bytes, which are counted."""
    return numbers.ctypes.data, numbers.size


def _place_of_stream(stream):
    """The same of a stream, which is not copied. The library takes bytes as they are."""
    if type(stream) is bytes:
        return stream, len(stream)
    return _place(stream if type(stream) is numpy.ndarray else numpy.frombuffer(stream, "u1"))


def most_bytes(array, *, reversible=None, rate=None, precision=None):
    """The most bytes that the stream of an array of this type and shape can have."""
    return _described(array.dtype, array.shape, reversible, rate, precision).most


def compress_into(array, out, *, reversible=None, rate=None, precision=None):
    """Writes the stream of an array to the start of `out`, a writable array of bytes, and says how long it is."""
    described, length = _described(array.dtype, array.shape, reversible, rate, precision), ctypes.c_uint64()
    if described.is_swapped:
        array = array.astype(array.dtype.newbyteorder("<"))
    try:
        # where values are not contiguous they have no place, so that nothing is asked of most arrays
        values = _addressof(_from_buffer(array))
    except (BufferError, TypeError, ValueError):
        array = numpy.ascontiguousarray(array)
        values = array.ctypes.data
    status = _library.zfpi_compress(described.address, values, array.nbytes, *_place_to_write(out), _addressof(length))
    if status:
        _check(status)
    return length.value


def compress(array, *, reversible=None, rate=None, precision=None):
    """The stream of an array, as bytes: lossless, or at a rate in bits a value, or at a precision in bit planes."""
    array = numpy.asarray(array)
    mode = {"reversible": reversible, "rate": rate, "precision": precision}
    out = numpy.empty(most_bytes(array, **mode), "u1")
    return out[: compress_into(array, out, **mode)].tobytes()


def _header(place):
    found = _Info()
    _check(_library.zfpi_header(*place, _addressof(found)))
    return found


def info(stream):
    """What the header of a stream says: a dict of `dtype`, `shape` and the mode, `reversible`, `rate` or `precision`."""
    field = _header(_place_of_stream(stream)).field
    shape = (field.nx, field.ny, field.nz, field.nw)[: field.dims][::-1]
    mode = {
        _REVERSIBLE: {"reversible": True},
        _RATE: {"rate": field.parameter / 4**field.dims},
        _PRECISION: {"precision": field.parameter},
    }[field.mode]
    return {"dtype": numpy.dtype("<i4" if field.type == 1 else "<i8"), "shape": shape, **mode}


def _says(number, stream):
    """Whether a stream, if its header is one, says this type of 32 or 64 bits: the fifth byte tells."""
    return type(stream) is bytes and len(stream) > 4 and stream[4] & 3 == number - 1


def decompress_into(stream, out):
    """Writes the values of a stream to a contiguous little-endian array. Its type of 8 or 16 bits is that of the values."""
    number = _number_of(out.dtype)
    if out.dtype.byteorder == ">":
        raise TypeError("the output is not little-endian")
    to, place, length = _place_to_write(out), _place_of_stream(stream), ctypes.c_uint64()
    if number in _NARROW:
        status = _library.zfpi_restore_narrow(number, *place, *to, _addressof(length))
    elif _says(number, stream) or _header(place).field.type == number:
        status = _library.zfpi_restore(*place, *to, _addressof(length))
    else:
        raise TypeError("the stream's values are of another type")
    if status:
        _check(status)
    return out


def decompress(stream, dtype=None):
    """The array of a stream. `dtype` is the type of 8 or 16 bits that it had: the stream says int32 then."""
    said = info(stream)
    own = said["dtype"] if dtype is None else numpy.dtype(dtype)
    out = numpy.empty(said["shape"], own.newbyteorder("<"))
    return decompress_into(stream, out).astype(own, copy=False)


class _Opened:
    """The array of a stream of which parts are read as they are asked for: `array[2, 10:20, ...]`."""

    def __init__(self, stream):
        self._stream = numpy.frombuffer(stream, "u1")
        said = info(self._stream)
        self.dtype, self.shape = said["dtype"], said["shape"]
        self.ndim, self.size = len(self.shape), int(numpy.prod(self.shape))
        self._has_rate = "rate" in said

    @functools.cached_property
    def _places(self):
        """Where the code of each block begins. It is found once, and only where there is no rate that tells it."""
        places = numpy.empty(int(numpy.prod([-(-size // 4) for size in self.shape])), "u8")
        _check(_library.zfpi_index(*_place(self._stream), *_words(places)))
        return places

    def _read(self, origin, many, out):
        args = _addressof(origin), _addressof(many), *_place(out)
        if self._has_rate:
            return _library.zfpi_read(*_place(self._stream), *args)
        return _library.zfpi_read_at(*_place(self._stream), *_words(self._places), *args)

    def __getitem__(self, key):
        keys = list(key) if isinstance(key, tuple) else [key]
        if sum(it is Ellipsis for it in keys) > 1 or len(keys) - (Ellipsis in keys) > self.ndim:
            raise IndexError("too many indices")
        at = keys.index(Ellipsis) if Ellipsis in keys else len(keys)
        keys[at : at + 1] = [slice(None)] * (self.ndim - len(keys) + (Ellipsis in keys))
        first, sizes, kept = [], [], []
        for it, size in zip(keys, self.shape, strict=True):
            if isinstance(it, slice):
                start, stop, step = it.indices(size)
                if step != 1:
                    raise IndexError("a step is 1")
                first, sizes, kept = [*first, start], [*sizes, max(stop - start, 0)], [*kept, max(stop - start, 0)]
                continue
            place = operator.index(it)
            if not -size <= place < size:
                raise IndexError(f"{place} is out of range for an axis of {size}")
            first, sizes = [*first, place % size], [*sizes, 1]
        out = numpy.empty(sizes, self.dtype)
        if out.size:
            origin, many = _Axes(*first[::-1]), _Axes(*sizes[::-1])
            _check(self._read(origin, many, out))
        return out.reshape(kept)[()]


def open(path):
    """The array of a stream in a file, which is mapped and only read: `zfpi.open(path)[10:20, :, 3]` reads that part.

    No other codes are looked at, but without a rate all are walked over once, before the first part. Steps are 1. The file stays as it is while the array is used.
    """
    with io.open(path, "rb") as file:
        return _Opened(mmap.mmap(file.fileno(), 0, access=mmap.ACCESS_READ))


def greatest_error(array, stream):
    """How far the values of a stream are from those of the array that it was made of, at most."""
    array = numpy.asarray(array)
    narrow = array.dtype if _number_of(array.dtype) in _NARROW else None
    back = decompress(stream, narrow)
    if array.size == 0 or back.shape != array.shape:
        raise ValueError(f"the stream has the shape {back.shape}, and not {array.shape}")
    least, most = numpy.minimum(array, back), numpy.maximum(array, back)
    # a difference of int64 may have 65 bits, or 64 with no sign: it fits a uint64, which wraps to it
    return int((most.astype("i8").view("u8") - least.astype("i8").view("u8")).max())
