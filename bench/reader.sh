#!/bin/sh
# Reads a cache with a reader that isn't ours, the crate `object` of Debian's librust-object-dev, and compares the symbols
# and exports of each image with those of its dylib. Where the crate or cargo is missing it says so.
#
# usage: reader.sh CACHE DYLIB..
set -e
here=$(CDPATH= cd -- "$(dirname -- "$0")" && pwd)
registry=/usr/share/cargo/registry
if ! command -v cargo >/dev/null || [ ! -d $registry/object-0.30.0 ]; then
    echo "reader.sh: no cargo, or no librust-object-dev" >&2
    exit 0
fi
build=${TMPDIR:-/tmp}/dsc-reader
cargo build --quiet --offline --manifest-path "$here/reader/Cargo.toml" --target-dir "$build" \
    --config 'source.crates-io.replace-with="debian"' --config "source.debian.directory=\"$registry\""
exec "$build/debug/reader" "$@"
