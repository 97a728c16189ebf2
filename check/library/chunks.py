"""Chunks of zarr through the codec. Each line that it writes is a case, in JSON."""

import json
import os
import shutil

import numcodecs
import numpy
import zarr
import zfpi.codec


def case(holds, what, seen=""):
    print(json.dumps({"holds": bool(holds), "what": what, "seen": str(seen)[:300]}))


def main():
    grid = numpy.mgrid[0:50, 0:65, 0:35].astype("f8")
    waves = (1e6 * numpy.sin(grid[0] / 9) * numpy.cos(grid[1] / 7) * numpy.sin(grid[2] / 11)).astype("i4")
    kinds = {
        "i1": waves // 8192, "u1": waves // 8192 + 128, "<i2": waves // 32, "<u2": waves // 32 + 32768, ">u2": waves // 32 + 32768,
        "<i4": waves, ">i4": waves, "<i8": waves.astype("i8") * 3, ">i8": waves,
    }
    for kind, values in kinds.items():
        array = values.astype(kind)
        there = zarr.open("a.zarr", mode="w", shape=array.shape, dtype=array.dtype, chunks=(32, 32, 32), compressor=zfpi.codec.Zfpi(kind))
        there[:] = array
        back = zarr.open("a.zarr", mode="r")
        case(numpy.array_equal(back[:], array), f"{kind} comes back")
        case(numpy.array_equal(back[3:40, 5:9, 30:], array[3:40, 5:9, 30:]), f"a part of {kind}")
    for what, array, more in (
        ("Fortran's order", numpy.asfortranarray(waves), {"order": "F"}),
        ("five axes", waves[:48, :60, :30].reshape(3, 16, 60, 6, 5), {}),
        ("one axis", waves.reshape(-1), {}),
    ):
        there = zarr.open("b.zarr", mode="w", shape=array.shape, dtype=array.dtype, chunks=tuple(min(32, n) for n in array.shape), compressor=zfpi.codec.Zfpi(array.dtype), **more)
        there[:] = array
        case(numpy.array_equal(zarr.open("b.zarr", mode="r")[:], array), what)
    coarse = zarr.array(waves, chunks=(32, 32, 32), compressor=zfpi.codec.Zfpi("<i4", rate=8))
    lost = abs(coarse[:].astype("i8") - waves).max()
    case(0 < lost < 10000, "8 bits a value", lost)
    codec = zfpi.codec.Zfpi("<i4", rate=8)
    case(numcodecs.get_codec(codec.get_config()) == codec, "the codec of its configuration")
    there = zarr.open("c.zarr", mode="w", shape=waves.shape, dtype=waves.dtype, chunks=(64, 64, 64), filters=[zfpi.codec.Zfpi("<i4")], compressor=numcodecs.CRC32())
    there[:] = waves
    path = os.path.join("c.zarr", "0.0.0")
    data = bytearray(open(path, "rb").read())
    data[len(data) // 2] ^= 8
    open(path, "wb").write(data)
    try:
        zarr.open("c.zarr", mode="r")[:]
        case(False, "a flipped bit is found by CRC32")
    except Exception:  # of whatever kind the store makes of it
        case(True, "a flipped bit is found by CRC32")
    shutil.rmtree("c.zarr")


if __name__ == "__main__":
    main()
