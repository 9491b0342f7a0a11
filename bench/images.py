#!/usr/bin/env python3
"""Builds caches of 1, 64 and 1,024 images of 60 KiB with the proved program and prints the time for one image of each
set; then of 64 images of 4 MiB, against `cat` of the same files on the same disk in the same run, and peak memory over
the input's size. Times are the median of five.

usage: images.py [FOLDER]     FOLDER is where the files are written; a folder of its own beside this script if absent
"""
import os

import plain


def dylib(number, size):
    """A text segment of so many bytes, of which all but the first page is one section, and an empty linkedit."""
    return plain.dylib(b"/image%04d.dylib" % number, size)


def main():
    with plain.workplace() as place:
        cache = os.path.join(place, "cache")
        for count in (1, 64, 1024):
            paths = plain.write_set(place, count, lambda number: dylib(number, 60 << 10))
            seconds, _ = plain.build(paths, cache)
            print(f"{count} images of 60 KiB: {1000 * seconds / count:.3f} ms an image")
        paths = plain.write_set(place, 64, lambda number: dylib(number, 4 << 20))
        plain.against_cat(paths, cache, *plain.build(paths, cache))


main()
