#!/usr/bin/env python3
"""Integer arrays of numpy as streams of zfpi, and back, by the command `zfpi`, which has to be on PATH.

    python3 examples/packing.py

`pack`, `unpack` and `greatest_error` take type, shape and byte order from the array, so none can be given
wrongly. numpy counts axes slowest first and zfpi fastest first: `array.shape[::-1]` is the shape of zfpi.

Scripts (`zfpi run`, `zfpi look`) speak of the stream's values. Those of 8 and 16 bits are stored as int32:
`to_script`, `from_script` and `position` turn values and places of an array into those of a script, and back.
"""

import pathlib
import subprocess
import tempfile

import numpy

# Of 8 and 16 bits: the middle m and the step s of the int32 value (v - m) * s that is stored for v.
STORED_AS = {"int8": (0, 2**23), "uint8": (128, 2**23), "int16": (0, 2**15), "uint16": (32768, 2**15)}
TYPES = [*STORED_AS, "int32", "int64"]
INSTEAD = {
    "b": "pack array.view('uint8'), and take unpack(stream, 'uint8').view(bool)",
    "u": "use array.astype('int64'), or 'int32', where the values fit it",
    "f": "it compresses integers; zfp compresses floating-point numbers",
    "c": "it compresses integers; zfp compresses floating-point numbers",
}


def zfpi(data, *words):
    """What zfpi writes for these bytes. A refusal is a `CalledProcessError`, its line on standard error."""
    return subprocess.run(["zfpi", *words], input=data, stdout=subprocess.PIPE, check=True).stdout


def type_word(dtype):
    """The word of zfpi for a type in either byte order, or a `TypeError` that says what to do instead."""
    dtype = numpy.dtype(dtype)
    if dtype.name not in TYPES:
        instead = INSTEAD.get(dtype.kind, "it compresses integers of 8 to 64 bits")
        raise TypeError(f"zfpi has no type {dtype.name}: {instead}")
    return dtype.name


def fits(values, dtype):
    """Whether an array has integers alone, and those that a type has."""
    limits = numpy.iinfo(dtype)
    return values.dtype.kind in "iu" and limits.min <= int(values.min()) and int(values.max()) <= limits.max


def pack(array, *mode):
    """The stream of an array: `pack(array, "reversible")`, or `pack(array, "rate", "64")`, in bits a block.

    TypeError: the type is none of zfpi's. ValueError: there are not one to four axes, or one is empty.
    """
    array = numpy.asarray(array)
    word = type_word(array.dtype)
    if not 1 <= array.ndim <= 4 or array.size == 0:
        raise ValueError(f"zfpi takes arrays of one to four axes with values in them, and not {array.shape}")
    shape = "x".join(str(size) for size in array.shape[::-1])
    raw = array.astype(array.dtype.newbyteorder("<"), copy=False).tobytes()
    return zfpi(raw, "compress", word, shape, *mode)


def unpack(stream, dtype=None):
    """The array of a stream, which can be written to.

    `dtype` is the type of 8 or 16 bits that the array had, in either byte order: the stream says int32 then.
    TypeError: the stream's values are of another type.
    """
    of_stream, shape = zfpi(stream[:19], "info").decode().split()[:2]
    own = numpy.dtype(of_stream if dtype is None else dtype)
    word = type_word(own)
    if word not in (of_stream, *STORED_AS):
        raise TypeError(f"the stream's values are {of_stream}, and not {word}")
    raw = zfpi(stream, "restore", *([word] if word in STORED_AS else []))
    sizes = [int(size) for size in shape.split("x")]
    return numpy.frombuffer(raw, own.newbyteorder("<")).astype(own).reshape(sizes[::-1])


def greatest_error(array, stream):
    """How far the values of a stream are from those of the array that it was made of, at most: an exact int.

    `abs(unpack(stream) - array).max()` would be wrong: differences wrap in the type of the array.
    ValueError: the shape is another one, or a value of the array is 2^63 or more.
    """
    array = numpy.asarray(array)
    back = unpack(stream, array.dtype if array.dtype.name in STORED_AS else None)
    if back.shape != array.shape:
        raise ValueError(f"the stream has the shape {back.shape}, and not {array.shape}")
    if not fits(array, "int64"):
        raise ValueError("no stream has these values")
    array, back = array.astype("int64"), back.astype("int64")
    # a difference of two int64 is below 2^64: the uint64 that it wraps to
    greater, less = numpy.maximum(array, back), numpy.minimum(array, back)
    return int((greater.view("uint64") - less.view("uint64")).max())


def position(index):
    """A place of the array as a script says it: `position((0, 3))`, row 0 and column 3, is `3,0`."""
    return ",".join(str(place) for place in reversed(index))


def to_script(values, dtype):
    """What a script says for a value of this type, an int; for an array of values an array of int64.

    `to_script(2000, "uint16")` is -1008205824. `add` takes a difference: 2^15 or 2^23 times the values' own.
    ValueError: a value is none of the type.
    """
    word, given = type_word(dtype), numpy.asarray(values)
    if not fits(given, dtype):
        raise ValueError(f"{values} is no value of {word}")
    middle, step = STORED_AS.get(word, (0, 1))
    stored = (given.astype("int64") - middle) * step
    return stored if stored.ndim else int(stored)


def from_script(replies, dtype):
    """The value of this type that a reply of `get` stands for, an int; of many replies an array of this type.

    Replies are numbers or their texts, and are rounded down to a value of the type, as in `unpack`. A sum of
    n values is no such reply: it is 2^15 or 2^23 times the sum of the values less n middles.
    ValueError: a reply is no number, as `! range`.
    """
    word, limits = type_word(dtype), numpy.iinfo(dtype)
    middle, step = STORED_AS.get(word, (0, 1))
    stored = numpy.asarray(replies).astype("int64")
    values = numpy.clip(stored // step + middle, limits.min, limits.max).astype(dtype)
    return values if values.ndim else int(values)


def changed(stream, name, script):
    """The stream that a script makes of one, in a file of this name, and the replies."""
    with tempfile.TemporaryDirectory() as folder:
        file = pathlib.Path(folder, name)
        file.write_bytes(stream)
        done = subprocess.run(
            ["zfpi", "run", name], input=script.encode(), cwd=folder, stdout=subprocess.PIPE, check=True
        )
        return file.read_bytes(), done.stdout.decode().splitlines()


def main():
    plate = numpy.fromfile("data/plate.i32", dtype="<i4").reshape(32, 48)
    for array in (plate, plate.astype(">u2")):
        for mode in (["reversible"], ["rate", "64"]):
            stream = pack(array, *mode)
            error = greatest_error(array, stream)
            print(array.dtype.name, *mode, len(stream), "bytes, greatest error", error)
    place = position((0, 3))
    script = f"set {place} {to_script(2000, 'uint16')}\nget {place}\n"
    stream, replies = changed(pack(plate.astype("uint16"), "rate", "256"), "plate", script)
    print("set", from_script(replies[0], "uint16"), "and restored", unpack(stream, "uint16")[0, 3])


if __name__ == "__main__":
    main()
