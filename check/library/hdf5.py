"""Datasets of HDF5 through the filter, found by HDF5_PLUGIN_PATH. Each line that it writes is a case, in JSON."""

import json

import h5py
import numpy

FILTER, REVERSIBLE, RATE = 347, 1, 2


def case(holds, what, seen=""):
    print(json.dumps({"holds": bool(holds), "what": what, "seen": str(seen)[:300]}))


def waves(*shape):
    grid = numpy.meshgrid(*(numpy.arange(n) for n in shape), indexing="ij")
    return 100 * sum(numpy.sin(axis / 9) for axis in grid)


def written(name, array, chunks, options=(REVERSIBLE, 0), **more):
    with h5py.File(name, "w") as file:
        file.create_dataset("field", data=array, chunks=chunks, compression=FILTER, compression_opts=options, **more)
        return file["field"].id.get_storage_size()


def main():
    for kind in ("i1", "u1", "<i2", "<u2", ">i2", "<i4", ">i4", "<i8", ">i8"):
        array = (waves(40, 50, 60) / 3).astype("i8").astype(kind)
        written("a.h5", array, (16, 16, 32))
        with h5py.File("a.h5") as file:
            case(numpy.array_equal(file["field"][:], array), f"{kind} comes back")
            case(numpy.array_equal(file["field"][3:21, 40:, 7], array[3:21, 40:, 7]), f"a part of {kind}")
    for shape, chunks in (((1000,), (100,)), ((60, 70), (8, 70)), ((20, 21, 22), (1, 21, 22)), ((9, 8, 7, 6), (4, 4, 4, 4)), ((3, 4, 5, 6, 7), (3, 4, 5, 6, 7)), ((5, 5), (1, 1))):
        array = (1000 * waves(*shape)).astype("<i4")
        written("b.h5", array, chunks)
        with h5py.File("b.h5") as file:
            case(numpy.array_equal(file["field"][:], array), f"chunks {chunks} of {shape}")
    array = (1000 * waves(64, 64, 64)).astype("<i4")
    size = written("c.h5", array, (32, 32, 32), (RATE, 512))
    with h5py.File("c.h5") as file:
        lost = abs(file["field"][:].astype("i8") - array).max()
        case(0 < lost < 100 and size < array.nbytes / 3.9, "8 bits a value", f"{size} {lost}")
    for kind in ("<f4", "<u4", "<u8"):
        try:
            written("d.h5", array.astype(kind), (32, 32, 32))
            case(False, f"{kind} is refused")
        except (OSError, ValueError):
            case(True, f"{kind} is refused")
    try:
        written("d.h5", array, (32, 32, 32), (RATE, 40000))
        case(False, "a rate out of range is refused")
    except (OSError, ValueError):
        case(True, "a rate out of range is refused")
    written("e.h5", array, (64, 64, 64), fletcher32=True)
    data = bytearray(open("e.h5", "rb").read())
    at = data.find(b"zfp\x05")
    at = at if at > 0 else data.find(b"zfp")
    data[at + 5000] ^= 16
    open("e.h5", "wb").write(data)
    with h5py.File("e.h5") as file:
        try:
            file["field"][:]
            case(False, "a flipped bit is found by fletcher32")
        except OSError:
            case(True, "a flipped bit is found by fletcher32")


if __name__ == "__main__":
    main()
