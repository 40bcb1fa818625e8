#!/usr/bin/env bash
# Proves the program and the library for C, and makes two files of the library in crates/usi_library/out:
# libusi.a, which a program is linked with, and libusi.so, which is loaded. Both have the toolchain's calls of
# malloc and free in them, and show the names that begin with usi_ alone, so that they stand beside any other
# library.
set -euo pipefail
cd "$(dirname "$0")"
./build.py usi_host usi_library
heap=$(dirname "$(dirname "$(readlink -f "$(command -v rt)")")")/c/liblibc_c.a
cd ../crates/usi_library/out
folder=$(mktemp -d)
trap 'rm -rf "$folder"' EXIT
cc=${CC:-cc}
ld=$("$cc" -print-prog-name=ld)
objcopy=$("$cc" -print-prog-name=objcopy)
"$ld" -r -o "$folder/usi.o" --whole-archive libusi_library.a "$heap"
"$objcopy" --wildcard --keep-global-symbol='usi_*' "$folder/usi.o"
ar rcs "$folder/libusi.a" "$folder/usi.o"
"$cc" -shared -o "$folder/libusi.so" -Wl,-soname,libusi.so.0 -Wl,-z,relro,-z,now,-z,noexecstack,-z,defs "$folder/usi.o"
mv "$folder/libusi.a" "$folder/libusi.so" .
