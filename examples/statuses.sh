#!/bin/sh
# Tries each exit status that the built program gives, in a folder of its own, and says which one isn't the
# expected one. Status 5, want of memory, isn't tried.
top=$(CDPATH= cd -- "$(dirname -- "$0")/.." && pwd) || exit 1
work=$(mktemp -d) || exit 1
trap 'rm -rf "$work"' EXIT
python3 "$top/examples/make_plain.py" "$work/a.dylib" || exit 1
cd "$work" || exit 1
wrong=0
# expect STATUS WORD..: the status that the program ends with at these words
expect() {
    want=$1
    shift
    "$top/dsc" "$@" >out 2>err
    got=$?
    if [ "$got" -ne "$want" ]; then
        echo "dsc $*: status $got, not $want: $(cat err)"
        wrong=1
    fi
}
expect 0 build cache a.dylib
expect 0 list cache
expect 0 info cache
expect 0 extract cache taken
expect 0 build --jobs 2 -- -cache a.dylib
expect 0 trial --jobs 2 5 2
expect 1 build other err
expect 1 info a.dylib
expect 1 extract a.dylib taken
expect 1 extract --image /z cache taken
expect 2
expect 2 --help
expect 2 build cache
expect 2 build a.dylib a.dylib
expect 2 extract cache
expect 2 trial 5
expect 2 trial 5 4097
expect 3 build cache missing.dylib
expect 3 list missing
expect 3 extract missing taken
mkdir folder
expect 4 build folder a.dylib
if [ -w /dev/full ]; then
    "$top/dsc" list cache >/dev/full 2>err
    got=$?
    [ "$got" -eq 4 ] || { echo "dsc list cache >/dev/full: status $got, not 4"; wrong=1; }
fi
[ "$wrong" -eq 0 ] && echo "all statuses are as expected"
exit "$wrong"
