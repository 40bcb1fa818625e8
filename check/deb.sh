#!/usr/bin/env bash
# Makes Debian packages of the built program and library below dist/: usi-host with man pages, completions, units and
# their user, pages and examples; libusi0 and libusi-dev. USI_HOST and USI_LIBRARY name others than those that are built.
set -euo pipefail
cd "$(dirname "$0")/.."
umask 022
folder=$(mktemp -d)
trap 'rm -rf "$folder"' EXIT
check/install.sh /usr "$folder/all"
[ -e "$folder/all/usr/lib/libusi.so" ] || exit 1
version=$(sed -n 's/^#define USI_VERSION "\(.*\)"$/\1/p' share/library/usi_library.h)
machine=$(dpkg --print-architecture) triplet=$(dpkg-architecture -qDEB_HOST_MULTIARCH)
# As Debian's tools take it; without these two it is who made the last commit.
maintainer="${DEBFULLNAME:-$(git log -1 --format=%an)} <${DEBEMAIL:-$(git log -1 --format=%ae)}>"
dated=$(git log -1 --format=%cD)
epoch=$(git log -1 --format=%ct)

# glibc FILE..: the oldest C library that has all that these files ask for.
glibc() {
    objdump -T "$@" | grep -o 'GLIBC_[0-9.]*' | sort -uV | tail -n 1 | sed 's/GLIBC_//'
}

# moved PACKAGE FROM TO: moves what lies there into a package.
moved() {
    mkdir -p "$folder/$1/$(dirname "$3")"
    mv "$folder"/all/usr/$2 "$folder/$1/$3"
}

# packed PACKAGE SECTION DEPENDS DESCRIPTION FURTHER: writes what Debian wants to know of a package, and packs it.
packed() {
    local at=$folder/$1 doc=$folder/$1/usr/share/doc/$1
    mkdir -p "$at/DEBIAN" "$doc"
    {
        printf 'Format: https://www.debian.org/doc/packaging-manuals/copyright-format/1.0/\n\nFiles: *\n'
        sed -n 's/^Copyright (c) /Copyright: /p' LICENSE
        printf 'License: Expat\n'
        sed '1,4d; s/^$/./; s/^/ /' LICENSE
    } >"$doc/copyright"
    printf '%s (%s) unstable; urgency=medium\n\n  * First release.\n\n -- %s  %s\n' "$1" "$version" "$maintainer" "$dated" |
        gzip -9n >"$doc/changelog.gz"
    printf 'Package: %s\nVersion: %s\nArchitecture: %s\nMaintainer: %s\nInstalled-Size: %s\nSection: %s\nPriority: optional\n' \
        "$1" "$version" "$machine" "$maintainer" "$(du -sk "$at" | cut -f1)" "$2" >"$at/DEBIAN/control"
    printf 'Depends: %s\n%bDescription: %b\n' "$3" "${5:-}" "$4" >>"$at/DEBIAN/control"
    (cd "$at" && find . -type f ! -path './DEBIAN/*' -printf '%P\0' | sort -z | xargs -0 md5sum >DEBIAN/md5sums)
    find "$at" -newermt "@$epoch" -print0 | xargs -0r touch -h -d "@$epoch"
    SOURCE_DATE_EPOCH=$epoch dpkg-deb --root-owner-group -Zgzip --build "$at" "dist/${1}_${version}_$machine.deb" >/dev/null
    echo "dist/${1}_${version}_$machine.deb"
}

mkdir -p dist
# The library.
lib=usr/lib/$triplet
moved libusi0 "lib/libusi.so.$version" "$lib/libusi.so.$version"
moved libusi0 lib/libusi.so.0 "$lib/libusi.so.0"
moved libusi-dev lib/libusi.so "$lib/libusi.so"
moved libusi-dev lib/libusi.a "$lib/libusi.a"
moved libusi-dev lib/pkgconfig "$lib/pkgconfig"
moved libusi-dev lib/cmake "$lib/cmake"
moved libusi-dev include usr/include
moved libusi-dev share/doc/usi_host/library usr/share/doc/libusi-dev/examples
sed -i "s|^libdir=.*|libdir=/$lib|" "$folder/libusi-dev/$lib/pkgconfig/usi.pc"
chmod 644 "$folder/libusi0/$lib/libusi.so.$version" "$folder"/libusi-dev/usr/share/doc/libusi-dev/examples/*
strip --strip-unneeded --remove-section=.comment "$folder/libusi0/$lib/libusi.so.$version"
strip --strip-debug "$folder/libusi-dev/$lib/libusi.a"
needed=$(glibc "$folder/libusi0/$lib/libusi.so.$version")
mkdir -p "$folder/libusi0/DEBIAN"
printf 'libusi 0 libusi0 (>= %s)\n' "$version" >"$folder/libusi0/DEBIAN/shlibs"
printf 'activate-noawait ldconfig\n' >"$folder/libusi0/DEBIAN/triggers"

# The program, with its units where a package has them.
moved usi-host bin usr/bin
moved usi-host share usr/share
doc=$folder/usi-host/usr/share/doc
mv "$doc/usi_host" "$doc/usi-host"
rm "$doc/usi-host/LICENSE"
units=$folder/usi-host/usr/lib/systemd/system
mkdir -p "$units"
mv "$doc"/usi-host/usi_host*.service "$units"
sed -i 's#/usr/local/bin/#/usr/bin/#; s#^\(\# .*\)Install it as.*#\1#; s#^\# /etc/systemd/system.*#\# docs/OPERATING.md has the steps.#' "$units"/*
install -D -m 644 deploy/usi_host.sysusers "$folder/usi-host/usr/lib/sysusers.d/usi_host.conf"
install -D -m 644 deploy/usi_host.tmpfiles "$folder/usi-host/usr/lib/tmpfiles.d/usi_host.conf"
strip --strip-unneeded --remove-section=.comment "$folder/usi-host/usr/bin/usi_host"
gzip -9n "$folder"/usi-host/usr/share/man/man1/*
mkdir -p "$folder/usi-host/usr/share/zsh/vendor-completions"
mv "$folder"/usi-host/usr/share/zsh/site-functions/_usi_host "$folder/usi-host/usr/share/zsh/vendor-completions"
rmdir "$folder/usi-host/usr/share/zsh/site-functions"
sed -i 's#/usr/local/share/doc/usi_host/#/usr/share/doc/usi-host/#' "$doc"/usi-host/examples/batch/*
mkdir -p "$folder/usi-host/DEBIAN"
cat >"$folder/usi-host/DEBIAN/postinst" <<'END'
#!/bin/sh
# Makes the user and the folder of the sockets. No unit is started: which one, the operator decides.
set -e
if [ "$1" = configure ]; then
    systemd-sysusers usi_host.conf
    systemd-tmpfiles --create usi_host.conf || true
    if [ -d /run/systemd/system ]; then
        systemctl --system daemon-reload >/dev/null || true
    fi
fi
END
cat >"$folder/usi-host/DEBIAN/prerm" <<'END'
#!/bin/sh
# Ends the hosts of the units.
set -e
if [ "$1" = remove ] && [ -d /run/systemd/system ]; then
    systemctl stop usi_host.service 'usi_host@*.service' >/dev/null 2>&1 || true
fi
END
cat >"$folder/usi-host/DEBIAN/postrm" <<'END'
#!/bin/sh
# Takes away the folders of the hosts. The user stays, so that its number is given to nobody else.
set -e
if [ "$1" = purge ]; then
    rm -rf /run/usi_host /var/lib/usi_host
fi
if [ -d /run/systemd/system ]; then
    systemctl --system daemon-reload >/dev/null || true
fi
END
chmod 755 "$folder"/usi-host/DEBIAN/post* "$folder"/usi-host/DEBIAN/prerm

packed usi-host utils "libc6 (>= $(glibc "$folder/usi-host/usr/bin/usi_host")), systemd | systemd-standalone-sysusers, systemd | systemd-standalone-tmpfiles" \
    'host for shogi analysis that speaks USI\n usi_host answers front ends on standard input and output, and many clients on\n a Unix socket: minimax at exactly the depth that is asked for, proved.' \
    'Recommends: python3\nSuggests: haproxy, parallel, socat, xboard\n'
packed libusi0 libs "libc6 (>= $needed)" \
    'sessions of shogi analysis by USI, shared library\n A session takes lines of USI and gives the replies of usi_host.' 'Multi-Arch: same\n'
packed libusi-dev libdevel "libusi0 (= $version), libc6-dev" \
    'sessions of shogi analysis by USI, development files\n The header, the static library, and the files of pkg-config and CMake.' 'Multi-Arch: same\n'
