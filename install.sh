#!/bin/sh
# Proves the program, the library and all that they stand on, builds them, and installs them: the program with
# its manual page and completions, the library with its header file, the Python package, and the filter of
# HDF5 where that is there.
#
#     ./install.sh [FOLDER]
#
# FOLDER is where bin, lib, include and share are, by default ~/.local. It needs `rt`, Python 3.10, and for
# the library cc and objcopy. Both are built for this processor; for all of them where ZFPI_CPU=x86-64 is set.
# The proofs run in a folder of their own, which goes at the end, and without planted bugs and tests, which
# `rt ci` tries at the top of the repository. FOLDER/share/zfpi/installed lists what was installed.
set -eu

lacks() { echo "install.sh: $1" >&2; exit 2; }
[ $# -le 1 ] || lacks 'usage: ./install.sh [FOLDER]'
command -v rt > /dev/null || lacks 'there is no rt on PATH: it is the command of the Rattle toolchain'
command -v python3 > /dev/null || lacks 'there is no python3 on PATH: Python 3.10 or later is needed'
python3 -c 'import sys; sys.exit(sys.version_info < (3, 10))' || lacks "$(python3 -V) is older than 3.10"
top=$(CDPATH='' cd -- "$(dirname -- "$0")" && pwd)
to=${1:-$HOME/.local}
mkdir -p "$to" || lacks "$to cannot be made"
to=$(CDPATH='' cd -- "$to" && pwd)
[ -w "$to" ] || lacks "$to cannot be written to"
room=$(mktemp -d)
trap 'rm -rf "$room"' EXIT

# Installs a file with these rights under FOLDER, and notes it.
put() {
    install -D -m "$1" "$2" "$to/$3"
    echo "$3" >> "$room/installed"
}

# Says where all went, how it is found, and how it is taken away.
ended() {
    echo share/zfpi/installed >> "$room/installed"
    install -D -m 644 "$room/installed" "$to/share/zfpi/installed"
    echo "installed in $to:"
    sed 's/^/    /' "$room/installed"
    case ":$PATH:" in
        *":$to/bin:"*) ;;
        *) echo "PATH lacks $to/bin; have in your shell's profile: export PATH=\"$to/bin:\$PATH\"" ;;
    esac
    printf '%s\n' "to take it away: cd '$to' && xargs -d '\n' rm -f < share/zfpi/installed"
    exit 0
}

cpu=${ZFPI_CPU:-x86-64-v3}
for feature in avx2 bmi1 bmi2 fma f16c movbe abm; do
    grep -qw "$feature" /proc/cpuinfo || cpu=x86-64
done
flag="--cpu $cpu"
[ "$cpu" != x86-64 ] || flag=
jobs=$(nproc)
[ "$jobs" -le 4 ] || jobs=4

# Ends with what a step has said, where it went wrong.
failed() { tail -n 40 "$1"; exit 1; }

# All that the program and the library stand on is proved once, for every processor. They are the two crates that
# are built for one: each is proved as it is built.
below=$(sed -n 's/^zfpi: //p; s/^zfpi_c staticlib: //p' "$top/crates.txt" | tr ' ' '\n' | grep '^zf' | sort -u)
# shellcheck disable=SC2086 # a name each
python3 "$top/examples/take_crates.py" "$room" $below
cp "$top/HANDLES" "$room"
cp -r "$top/capi" "$top/bench" "$room"
echo "proving in $room"
(cd "$room" && rt ci) 2>&1 | tee "$room/log" | grep '^rt: .* proved$' || true
tail -n 1 "$room/log" | grep ' 0 failed$' || failed "$room/log"
python3 "$top/examples/take_crates.py" "$room" zfpi zfpi_c > /dev/null
# shellcheck disable=SC2086 # no word for the processor that is the default
python3 "$room/bench/over.py" "$room" program zfpi --jobs "$jobs" $flag > "$room/log" 2>&1 || failed "$room/log"
echo "zfpi proved, and built for $cpu"

put 755 "$room/crates/zfpi/out/over/zfpi" bin/zfpi
put 644 "$top/docs/zfpi.1" share/man/man1/zfpi.1
put 644 "$top/docs/zfpi.bash" share/bash-completion/completions/zfpi
put 644 "$top/docs/_zfpi" share/zsh/site-functions/_zfpi
put 644 "$top/docs/zfpi.fish" share/fish/vendor_completions.d/zfpi.fish
put 644 "$top/docs/zfpi.magic" share/zfpi/zfpi.magic

if ! command -v cc > /dev/null || ! command -v objcopy > /dev/null; then
    echo 'left out: the library, since there is no cc, or no objcopy'
    ended
fi
# shellcheck disable=SC2086 # no word for the processor that is the default
"$room/capi/build.sh" "$room" "$room/made" --jobs "$jobs" $flag > "$room/log" 2>&1 || failed "$room/log"

put 644 "$room/made/libzfpi.a" lib/libzfpi.a
put 755 "$room/made/libzfpi.so.1" lib/libzfpi.so.1
ln -sf libzfpi.so.1 "$to/lib/libzfpi.so"
echo lib/libzfpi.so >> "$room/installed"
put 644 "$top/capi/zfpi.h" include/zfpi.h
sed "s#@prefix@#$to#" "$top/capi/zfpi.pc.in" > "$room/zfpi.pc"
put 644 "$room/zfpi.pc" lib/pkgconfig/zfpi.pc
packages=lib/python$(python3 -c 'import sys; print("%d.%d" % sys.version_info[:2])')/site-packages
for module in "$top"/python/zfpi/*.py; do
    put 644 "$module" "$packages/zfpi/$(basename "$module")"
done
words_of() { pkg-config --cflags --libs "$1" 2> /dev/null; }
if hdf5=$(words_of hdf5 || words_of hdf5-serial); then
    # shellcheck disable=SC2086 # the words of pkg-config
    cc -O2 -fPIC -shared -I"$top/capi" -o "$room/filter.so" "$top/hdf5/H5Zzfpi.c" "$room/made/libzfpi.a" $hdf5
    put 755 "$room/filter.so" lib/hdf5/plugin/libH5Zzfpi.so
    echo "HDF5 finds its filter by HDF5_PLUGIN_PATH=$to/lib/hdf5/plugin"
else
    echo 'left out: the filter of HDF5, since there is no libhdf5-dev'
fi
echo "Python finds its package by PYTHONPATH=$to/$packages"
echo "C finds the library by PKG_CONFIG_PATH=$to/lib/pkgconfig"
ended
