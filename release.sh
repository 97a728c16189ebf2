#!/bin/sh
# Makes zfpi-VERSION-x86_64-linux.tar.gz of the commit that is checked out: what install.sh proves and builds.
#
#     ./release.sh [FOLDER]
#
# The archive goes to FOLDER, by default the current one. It has the program, the library for all processors,
# the header file, the Python package, the manual page, completions, SHA256SUMS, and in BUILD the commit and
# the toolchain. It needs git, and all that install.sh needs. Changes that are not committed are left out. The
# same commit, toolchain and C compiler give the same bytes in any folder.
set -eu

lacks() { echo "release.sh: $1" >&2; exit 2; }
[ $# -le 1 ] || lacks 'usage: ./release.sh [FOLDER]'
for program in git rt cc objcopy; do
    command -v "$program" > /dev/null || lacks "there is no $program on PATH"
done
top=$(CDPATH='' cd -- "$(dirname -- "$0")" && pwd)
commit=$(git -C "$top" rev-parse --verify HEAD) || lacks "$top is no clone"
seconds=$(git -C "$top" show -s --format=%ct "$commit")
version=$(sed -n 's/^Version: //p' "$top/capi/zfpi.pc.in")
name=zfpi-$version-x86_64-linux
mkdir -p "${1:-.}"
to=$(CDPATH='' cd -- "${1:-.}" && pwd)
room=$(mktemp -d)
trap 'rm -rf "$room"' EXIT
umask 022
export LC_ALL=C

mkdir "$room/source"
git -C "$top" archive "$commit" | tar -x -C "$room/source"
echo "proving and building $commit"
if ! ZFPI_CPU=x86-64 "$room/source/install.sh" "$room/$name" > "$room/log" 2>&1; then
    tail -n 40 "$room/log"
    exit 1
fi
[ -f "$room/$name/lib/libzfpi.a" ] || lacks 'the library could not be built'

# What hangs on this machine: its folders, its Python, its HDF5.
cd "$room/$name"
rm -rf lib/hdf5 share/zfpi/installed
# shellcheck disable=SC2016 # pkg-config fills it in
sed 's#@prefix@#${pcfiledir}/../..#' "$room/source/capi/zfpi.pc.in" > lib/pkgconfig/zfpi.pc
mv lib/python3.* lib/python3
cat > BUILD << END
zfpi $version for x86-64 Linux
commit $commit
toolchain $(rt version)
compiler $(cc --version | head -n 1)

Have bin on PATH. C finds the library by PKG_CONFIG_PATH=lib/pkgconfig, Python its package by
PYTHONPATH=lib/python3/site-packages. sha256sum -c SHA256SUMS compares these files with what was built.
END
find . -type f -printf '%P\0' | sort -z | xargs -0 sha256sum > "$room/SHA256SUMS"
mv "$room/SHA256SUMS" .

cd "$room"
tar --format=ustar --sort=name --owner=0 --group=0 --numeric-owner --mode='u=rwX,go=rX' --mtime="@$seconds" \
    -cf "$name.tar" "$name"
gzip -9n "$name.tar"
mv "$name.tar.gz" "$to/"
echo "made $to/$name.tar.gz"
(cd "$to" && sha256sum "$name.tar.gz")
