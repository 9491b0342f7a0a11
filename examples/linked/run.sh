#!/bin/sh
# Builds a cache of three dylibs from a real linker, and calls a function of one of them out of the mapped cache, at
# two slides. It says so where clang, lld or python3 is missing.
set -e
here=$(CDPATH= cd -- "$(dirname -- "$0")" && pwd)
folder=$(mktemp -d)
trap 'rm -r "$folder"' EXIT
sh "$here/make.sh" "$folder"
[ -e "$folder/libanswer.dylib" ] || exit 0
"$here/../../dsc" build "$folder/cache" "$folder/libSystem.B.dylib" "$folder/libcount.dylib" "$folder/libanswer.dylib"
for slide in 0 0x1000000; do
    python3 "$here/call_symbol.py" "$folder/cache" /usr/lib/libanswer.dylib _answer "$slide"
done
