#!/usr/bin/env bash
# check/uninstall.sh PREFIX [DESTDIR]: takes away what check/install.sh put there.
set -euo pipefail
root=${2:-}$1
rm -f "$root"/bin/usi_{host,analyst} "$root"/share/man/man1/usi_{host,analyst}.1 \
    "$root"/share/bash-completion/completions/usi_{host,analyst} \
    "$root/share/zsh/site-functions/_usi_host" "$root/include/usi_library.h" "$root"/lib/libusi.{a,so,so.0,so.0.1.0} \
    "$root/lib/pkgconfig/usi.pc"
rm -rf "$root/share/doc/usi_host" "$root/lib/cmake/usi"
