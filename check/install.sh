#!/usr/bin/env bash
# check/install.sh PREFIX [DESTDIR]: puts the built program and what goes with it below a prefix: usi_analyst, man
# pages, completions, pages, units, example clients; and the library for C, if it is built. USI_HOST names another
# program to install, and USI_LIBRARY another folder with libusi.so and libusi.a.
set -euo pipefail
cd "$(dirname "$0")/.."
prefix=$1 root=${2:-}$1
program=${USI_HOST:-crates/usi_host/out/usi_host} library=${USI_LIBRARY:-crates/usi_library/out}
[ -x "$program" ] || {
    echo 'Nothing is built yet: call make build first.' >&2
    exit 1
}
doc=$root/share/doc/usi_host
install -D -m 755 "$program" "$root/bin/usi_host"
install -m 755 share/usi_analyst "$root/bin/usi_analyst"
install -D -m 644 share/usi_host.1 "$root/share/man/man1/usi_host.1"
echo '.so man1/usi_host.1' >"$root/share/man/man1/usi_analyst.1"
install -D -m 644 share/usi_host.bash "$root/share/bash-completion/completions/usi_host"
ln -sf usi_host "$root/share/bash-completion/completions/usi_analyst"
install -D -m 644 share/_usi_host "$root/share/zsh/site-functions/_usi_host"
install -D -m 644 -t "$doc" LICENSE deploy/usi_host.service deploy/usi_host@.service deploy/haproxy*.cfg \
    deploy/Containerfile
install -D -m 755 -t "$doc" deploy/certificates.sh
install -D -m 644 -t "$doc/pictures" docs/pictures/*.png docs/pictures/game.svg
install -D -m 755 -t "$doc/examples" share/examples/*.py
install -D -m 644 -t "$doc/examples" share/examples/problems.sfen
install -D -m 755 -t "$doc/examples/batch" share/examples/batch/*
# The pages lie beside each other there, and the examples below them. What else they link to is no link there.
for page in SECURITY docs/GUIDE docs/PROTOCOL docs/OPERATING docs/TROUBLESHOOTING share/examples/README; do
    to=$doc/${page##*/}.md up=
    case $page in share/*) to=$doc/examples/README.md up=../ ;; esac
    sed -E "s#\]\((\.\./)*(docs/)?((SECURITY|GUIDE|PROTOCOL|OPERATING|TROUBLESHOOTING)\.md)#](:$up\3#g
        s#\]\((\.\./)+share/(examples/)#](:\2#g; s#\]\((\#|pictures/[a-z]+\.(png|svg)\))#](:\1#g
        s#\[([^]]*)\]\([^:)][^)]*\)#\1#g; s#\]\(:#](#g" "$page.md" >"$to"
    chmod 644 "$to"
done
install -m 644 -t "$doc/examples" share/examples/pyproject.toml
for folder in shogi_host shogi_host/mates shogi_host/records shogi_host/report; do
    install -D -m 644 -t "$doc/examples/$folder" share/examples/$folder/*.*
done
if [ -e "$library/libusi.so" ] && [ -e "$library/libusi.a" ]; then
    version=$(sed -n 's/^#define USI_VERSION "\(.*\)"$/\1/p' share/library/usi_library.h)
    install -D -m 644 share/library/usi_library.h "$root/include/usi_library.h"
    install -D -m 644 "$library/libusi.a" "$root/lib/libusi.a"
    install -D -m 755 "$library/libusi.so" "$root/lib/libusi.so.$version"
    ln -sf "libusi.so.$version" "$root/lib/libusi.so.0"
    ln -sf libusi.so.0 "$root/lib/libusi.so"
    install -d "$root/lib/pkgconfig" "$root/lib/cmake/usi"
    sed "s|@PREFIX@|$prefix|; s|@VERSION@|$version|" share/library/usi.pc.in >"$root/lib/pkgconfig/usi.pc"
    sed "s|@VERSION@|$version|" share/library/usi-config-version.cmake.in >"$root/lib/cmake/usi/usi-config-version.cmake"
    install -m 644 share/library/usi-config.cmake "$root/lib/cmake/usi/"
    install -D -m 644 -t "$doc/library" share/library/engine.c share/library/usi_library.py
else
    echo 'Without the library for C: make library builds it.' >&2
fi
