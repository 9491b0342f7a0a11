#!/bin/sh
# Builds a cache of three dylibs from a real linker, makes files of its images again, and calls a function of one of them
# out of these files, each loaded at a slide of its own. It says so where clang, lld or python3 is missing.
set -e
here=$(CDPATH= cd -- "$(dirname -- "$0")" && pwd)
folder=$(mktemp -d)
trap 'rm -r "$folder"' EXIT
sh "$here/make.sh" "$folder"
[ -e "$folder/libanswer.dylib" ] || exit 0
"$here/../../dsc" build "$folder/cache" "$folder/libSystem.B.dylib" "$folder/libcount.dylib" "$folder/libanswer.dylib"
"$here/../../dsc" extract "$folder/cache" "$folder/out"
cd "$folder/out/usr/lib"
for slide in 0 0x1000000; do
    python3 "$here/call_files.py" "$slide" _answer libanswer.dylib libcount.dylib libSystem.B.dylib
done
