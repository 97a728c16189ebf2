"""zfpi as a codec of numcodecs, and so of zarr 2.

    import zarr, zfpi.codec
    zarr.array(field, chunks=(64, 64, 64), compressor=zfpi.codec.Zfpi(field.dtype, rate=8))

A chunk with more than four axes is stored with its slowest ones joined, one with axes of size 1 without them, and one
in Fortran's order as it lies in memory. The configuration holds the type with its byte order, since the stream of 8 and
16 bits says int32.
"""

import numpy
import zfpi
from numcodecs.abc import Codec
from numcodecs.compat import ensure_contiguous_ndarray, ensure_ndarray
from numcodecs.registry import register_codec


class Zfpi(Codec):
    """`dtype` is that of the array; the mode is lossless, a `rate` in bits a value or a `precision` in bit planes."""

    codec_id = "zfpi"

    def __init__(self, dtype, rate=None, precision=None):
        self.dtype, self.rate, self.precision = numpy.dtype(dtype).str, rate, precision

    def encode(self, buf):
        chunk = ensure_ndarray(buf)
        if chunk.dtype.str != self.dtype:
            raise TypeError(f"the chunk is of {chunk.dtype.str}, and not of {self.dtype}")
        if not chunk.flags.c_contiguous and chunk.flags.f_contiguous:
            chunk = chunk.T
        shape = [size for size in chunk.shape if size != 1] or [1]
        while len(shape) > 4:
            shape[:2] = [shape[0] * shape[1]]
        return zfpi.compress(chunk.reshape(shape), rate=self.rate, precision=self.precision)

    def decode(self, buf, out=None):
        own = numpy.dtype(self.dtype)
        stream = ensure_contiguous_ndarray(buf).view("u1")
        back = zfpi.decompress(stream, own if own.itemsize < 4 else None).astype(own, copy=False).reshape(-1)
        if out is None:
            return back
        ensure_contiguous_ndarray(out).view(own)[:] = back
        return out

    def get_config(self):
        return {"id": self.codec_id, "dtype": self.dtype, "rate": self.rate, "precision": self.precision}


register_codec(Zfpi)
