#!/bin/sh
# Builds a cache of libhello.dylib, a dylib from a real linker, and shows its head.
set -e
here=$(CDPATH= cd -- "$(dirname -- "$0")" && pwd)
cache=$(mktemp)
trap 'rm -f "$cache"' EXIT
"$here/../dsc" build "$cache" "$here/libhello.dylib"
python3 "$here/show_head.py" "$cache"
