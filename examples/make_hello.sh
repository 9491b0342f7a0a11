#!/bin/sh
# Makes libhello.dylib of hello.c with clang and lld. Where these are missing, the ready libhello.dylib serves.
# The linker leaves a string area of a few bytes for no symbols; it is emptied.
set -e
here=$(CDPATH= cd -- "$(dirname -- "$0")" && pwd)
linker=$(command -v ld64.lld || command -v ld64.lld-14 || true)
if ! command -v clang >/dev/null || [ -z "$linker" ]; then
    echo "make_hello.sh: no clang or no ld64.lld; libhello.dylib stays as it is" >&2
    exit 0
fi
object=$(mktemp)
trap 'rm -f "$object"' EXIT
clang --target=x86_64-apple-macosx10.14 -c -O1 -fno-asynchronous-unwind-tables "$here/hello.c" -o "$object"
# Newer linkers fix pointers up by chains unless they are told not to; older ones don't know the word.
chains=-no_fixup_chains
"$linker" --help 2>/dev/null | grep -q -- "$chains" || chains=
"$linker" -arch x86_64 -dylib $chains -no_function_starts -no_data_in_code_info \
    -platform_version macos 10.14 10.14 -install_name /usr/lib/libhello.dylib "$object" -o "$here/libhello.dylib"
python3 "$here/empty_strings.py" "$here/libhello.dylib"
