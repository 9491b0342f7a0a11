#!/bin/sh
# Makes libSystem.B.dylib, libcount.dylib and libanswer.dylib in a folder with clang and lld, and writes the
# split-segment information that this linker leaves out. Where a tool is missing it says so and makes nothing.
#
# usage: make.sh FOLDER
set -e
here=$(CDPATH= cd -- "$(dirname -- "$0")" && pwd)
folder=$1
linker=$(command -v ld64.lld || command -v ld64.lld-14 || true)
if ! command -v clang >/dev/null || [ -z "$linker" ]; then
    echo "make.sh: no clang or no ld64.lld" >&2
    exit 0
fi
# Newer linkers fix pointers up by chains unless they are told not to; older ones don't know the word.
chains=-no_fixup_chains
"$linker" --help 2>/dev/null | grep -q -- "$chains" || chains=

# make NAME SOURCE DYLIB..: the dylib /usr/lib/NAME of a source, which needs these dylibs
make() {
    name=$1 source=$2
    shift 2
    object=$folder/${source%.c}.o
    clang --target=x86_64-apple-macosx10.14 -c -O1 -fno-asynchronous-unwind-tables -fno-stack-protector \
        "$here/$source" -o "$object"
    "$linker" -arch x86_64 -dylib $chains -headerpad 0x200 -platform_version macos 10.14 10.14 \
        -install_name "/usr/lib/$name" "$object" "$@" -o "$folder/$name"
    python3 "$here/split_info.py" "$folder/$name" "$object"
}

make libSystem.B.dylib system.c
make libcount.dylib count.c "$folder/libSystem.B.dylib"
make libanswer.dylib answer.c "$folder/libcount.dylib" "$folder/libSystem.B.dylib"
