#!/bin/sh
# Builds libzfpi.a and libzfpi.so.1 over crates that `rt ci` has proved:
#
#     capi/build.sh BUILT FOLDER [FLAG..]
#
# BUILT is the top of the clone in which it ran, FOLDER is where the two go. A FLAG is one of `rattle build`, as
# --cpu x86-64-v3 for processors with AVX2. Both have the calls of zfpi.h and no other name, and need the C library alone.
set -eu

top=$(CDPATH='' cd -- "$(dirname -- "$0")/.." && pwd)
built=$1 to=$2
shift 2
kit=$(dirname "$(rt doc)")
mkdir -p "$to"

python3 "$top/bench/over.py" "$built" archive zfpi_c "$@"
ld -r -o "$to/zfpi.o" --whole-archive "$top/crates/zfpi_c/out/over/libzfpi_c.a" --no-whole-archive "$kit/c/liblibc_c.a"
objcopy --wildcard --keep-global-symbol='zfpi_*' "$to/zfpi.o"
rm -f "$to/libzfpi.a"
ar rcsD "$to/libzfpi.a" "$to/zfpi.o"
cc -shared -o "$to/libzfpi.so.1" -Wl,-soname,libzfpi.so.1 -Wl,--version-script="$top/capi/zfpi.map" -Wl,-z,defs "$to/zfpi.o"
rm "$to/zfpi.o"
