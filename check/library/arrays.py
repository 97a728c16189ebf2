"""Arrays of numpy there and back in process, beside the program. Each line that it writes is a case, in JSON."""

import json
import os
import pathlib
import random
import subprocess
import sys
import threading

import numpy
import zfpi

PROGRAM = os.environ["ZFPI"]
CODES = {8: 4, 9: 5, 10: 5, 11: 5, 12: 13}
RANDOM = random.Random(int(sys.argv[1]))
QUICK = sys.argv[2] == "quick"
TYPES = ("int32", "int64", "int8", "uint8", "int16", "uint16")
MOST_ALONG = (300, 40, 13, 7)


def case(holds, what, seen=""):
    print(json.dumps({"holds": bool(holds), "what": what, "seen": str(seen)[:300]}))


def command(words, data):
    ran = subprocess.run([PROGRAM, *words], input=data, capture_output=True, check=False)
    return ran.returncode, ran.stdout


def field():
    dims = RANDOM.randint(1, 4)
    shape = tuple(RANDOM.randint(1, MOST_ALONG[dims - 1]) for _ in range(dims))
    kind = numpy.dtype(RANDOM.choice(TYPES))
    noise = numpy.random.default_rng(RANDOM.getrandbits(32)).integers(-(10**6), 10**6, shape) // RANDOM.choice((1, 50, 10**5))
    return noise.astype(kind)


def mode(dims):
    kind = RANDOM.choice(("reversible", "rate", "precision"))
    if kind == "reversible":
        return {"reversible": True}, [kind]
    if kind == "rate":
        bits = RANDOM.randint(1, RANDOM.choice((64, 900, 9000)))
        return {"rate": bits / 4**dims}, [kind, str(bits)]
    bits = RANDOM.randint(1, 70)
    return {"precision": bits}, [kind, str(bits)]


def damaged(stream):
    kind, stream = RANDOM.choice(("none", "flip", "head", "cut", "more")), bytearray(stream)
    if kind == "flip":
        stream[RANDOM.randrange(len(stream))] ^= 1 << RANDOM.randrange(8)
    elif kind == "head":
        stream[RANDOM.randrange(12)] ^= 1 << RANDOM.randrange(8)
    elif kind == "cut":
        del stream[RANDOM.randrange(len(stream)) :]
    elif kind == "more":
        stream += bytes(RANDOM.randint(1, 9))
    return bytes(stream)


def there_and_back():
    array = field()
    name, shape, (keywords, words) = array.dtype.name, "x".join(map(str, array.shape[::-1])), mode(array.ndim)
    stream = zfpi.compress(array, **keywords)
    what = f"{name} {shape} {' '.join(words)}"
    case((0, stream) == command(["compress", name, shape, *words], array.tobytes()), f"{what}: the program's stream")
    narrow = name if array.dtype.itemsize < 4 else None
    back = zfpi.decompress(stream, narrow)
    case(command(["restore", *([name] if narrow else [])], stream) == (0, back.tobytes()), f"{what}: the program's values")
    case(words != ["reversible"] or numpy.array_equal(back, array), f"{what}: back without loss")
    return stream


def refused_alike(stream):
    """A damaged stream: the same refusal as the program's, or the same values, and nothing outside what is lent."""
    stream = damaged(stream)
    code, out = command(["restore"], stream)
    try:
        said = zfpi.info(stream or b"\0")
        wanted = min(int(numpy.prod(said["shape"])) * said["dtype"].itemsize, 1 << 24)
        kind = said["dtype"]
    except zfpi.Refused:
        wanted, kind = 64, numpy.dtype("<i4")
    if code == 0 and len(out) > 1 << 24:
        return
    guarded = numpy.full(64 + wanted + 64, 0xA5, "u1")
    room = guarded[64 : 64 + wanted].view(kind)
    try:
        zfpi.decompress_into(stream or b"\0", room)
        answer = 0
    except zfpi.Refused as refused:
        answer = CODES.get(refused.status, refused.status)
    held = (guarded[:64] == 0xA5).all() and (guarded[64 + wanted :] == 0xA5).all()
    case(held, f"nothing outside what is lent: {stream[:40].hex()}")
    case(answer == code or (answer == 6 and code in (0, 5)), f"a damaged stream: {answer} for {code}", stream[:60].hex())
    case(answer != 0 or room.tobytes() == out, "its values are the program's")


def other_arrays():
    grid = numpy.arange(6 * 7 * 8, dtype="i4").reshape(6, 7, 8) * 1000
    for what, array in (("big-endian", grid.astype(">i4")), ("in Fortran's order", numpy.asfortranarray(grid)), ("a slice", grid[::2, 1:, ::-1])):
        case(numpy.array_equal(zfpi.decompress(zfpi.compress(array)), array), f"an array {what} comes back")
    for kind in ("u4", "u8", "f4", "?"):
        try:
            zfpi.compress(grid.astype(kind))
            case(False, f"{kind} is refused")
        except TypeError as refused:
            case("use" in str(refused) or "zfp" in str(refused), f"{kind} is refused with a word on what to do", refused)
    for what, array, keywords in (("five axes", grid.reshape(1, 6, 7, 2, 4), {}), ("no axis", numpy.int32(7), {}), ("no values", grid[:0], {}), ("half a bit", grid, {"rate": 1 / 128}), ("two modes", grid, {"rate": 8, "precision": 9}), ("planes 0", grid, {"precision": 0})):
        try:
            zfpi.compress(array, **keywords)
            case(False, f"{what} refused")
        except ValueError:
            case(True, f"{what} refused")
    wide = zfpi.compress(grid.astype("i8"))
    for what, stream, kind in (("int64 into int32", wide, "i4"), ("the same in an array", numpy.frombuffer(wide, "u1"), "i4"), ("int32 into int64", zfpi.compress(grid), "i8")):
        room = numpy.full(grid.shape, 77, kind)
        try:
            zfpi.decompress_into(stream, room)
            case(False, f"{what} is refused")
        except TypeError:
            case((room == 77).all(), f"{what} is refused, and nothing is written")
    whole = numpy.array([0, 65535, 1, 65534], "u2")
    case(zfpi.greatest_error(whole, zfpi.compress(whole)) == 0, "no error where nothing is lost")
    ends = numpy.array([-(2**63), 2**63 - 1, 0, 5] * 16, "i8")
    coarse = zfpi.compress(ends, rate=1)
    wide = max(abs(int(a) - int(b)) for a, b in zip(ends, zfpi.decompress(coarse)))
    case(zfpi.greatest_error(ends, coarse) == wide, "the greatest error of int64", wide)


def part_of(shape):
    """Indices of an array: numbers, slices and a dot for the rest."""
    key = []
    for size in shape:
        low = RANDOM.randrange(-size, size)
        key.append(RANDOM.choice((low, slice(low, None), slice(None, low), slice(low, low + RANDOM.randint(0, 9)), slice(None))))
    return tuple(key[: RANDOM.randint(0, len(key))] + RANDOM.choice(([], [Ellipsis])))


def opened():
    array = field()
    given, words = mode(array.ndim)
    stream = zfpi.compress(array, **given)
    pathlib.Path("part.zfp").write_bytes(stream)
    whole, mapped = zfpi.decompress(stream), zfpi.open("part.zfp")
    case(mapped.shape == whole.shape and mapped.dtype == whole.dtype, "an opened stream has its shape and type")
    for key in [part_of(array.shape) for _ in range(8)]:
        mine, theirs = mapped[key], whole[key]
        same = mine.shape == theirs.shape and numpy.array_equal(mine, theirs)
        case(same, f"a part of an opened stream: {array.shape} {words} {key}", mine)
    for key, fault in ((array.shape, IndexError), ((slice(None, None, 2),), IndexError), ("x", TypeError)):
        try:
            mapped[key]
            case(False, f"an opened stream has no {key}")
        except fault:
            case(True, f"an opened stream has no {key}")


def side_by_side():
    """Calls of several threads on their own arrays."""
    arrays, wrong = [field() for _ in range(4)], []

    def work(array):
        narrow = array.dtype if array.dtype.itemsize < 4 else None
        for _ in range(20):
            if not numpy.array_equal(zfpi.decompress(zfpi.compress(array), narrow), array):
                wrong.append(array.shape)

    workers = [threading.Thread(target=work, args=(array,)) for array in arrays]
    for it in workers:
        it.start()
    for it in workers:
        it.join()
    case(not wrong, "four threads at once", wrong)


def main():
    for _ in range(40 if QUICK else 400):
        refused_alike(there_and_back())
    for _ in range(10 if QUICK else 100):
        opened()
    other_arrays()
    side_by_side()


if __name__ == "__main__":
    main()
