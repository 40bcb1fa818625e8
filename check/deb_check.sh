#!/usr/bin/env bash
# Tries the packages of check/deb.sh: lintian finds no error in them; in a root of their own they are installed, started
# and purged, and no file of theirs is left. Its last line is `N passed, M failed`.
set -uo pipefail
cd "$(dirname "$0")/.."
root=$(mktemp -d)
trap 'rm -rf "$root"' EXIT
passed=0 failed=0
packages=(dist/usi-host_*.deb dist/libusi0_*.deb dist/libusi-dev_*.deb)

# tried NAME COMMAND..: runs a check.
tried() {
    local name=$1
    shift
    if "$@" >"$root/told" 2>&1; then
        passed=$((passed + 1))
        echo "deb $name ... ok"
    else
        failed=$((failed + 1))
        echo "deb $name ... FAILED: $(tail -c 2000 "$root/told")"
    fi
}

# kept: the files in the root that no folder of dpkg has.
kept() {
    (cd "$root/tree" && find . ! -type d ! -path './var/lib/dpkg/*' ! -path './var/log/*' | sort)
}

dpkg_there() {
    # The scripts want a user and a root with programs; both are the business of chroot, where that can be had.
    dpkg --root="$root/tree" --force-depends --force-not-root --force-script-chrootless --log=/dev/null "$@"
}

installed() {
    mkdir -p "$root"/tree/var/lib/dpkg/{info,updates}
    touch "$root/tree/var/lib/dpkg/status" "$root/tree/var/lib/dpkg/available"
    dpkg_there --unpack "${packages[@]}" || return 1
    local file
    for file in usr/bin/{usi_host,usi_analyst} usr/lib/systemd/system/usi_host{,@}.service usr/lib/sysusers.d/usi_host.conf \
        usr/lib/tmpfiles.d/usi_host.conf usr/share/man/man1/{usi_host,usi_analyst}.1.gz usr/include/usi_library.h \
        usr/lib/"$(dpkg-architecture -qDEB_HOST_MULTIARCH)"/{libusi.so,libusi.so.0,libusi.a,pkgconfig/usi.pc}; do
        [ -e "$root/tree/$file" ] || {
            echo "$file is missing"
            return 1
        }
    done
}

starts() {
    [ "$(printf 'go depth 1\n' | "$root/tree/usr/bin/usi_analyst")" = 'info depth 1 score cp 0 pv 1g1f
bestmove 1g1f' ] && ! grep -r /usr/local "$root"/tree/usr/lib/systemd "$root"/tree/usr/share/doc/*/examples/batch
}

# The user and the folder, by the files of the packages.
has_user() {
    mkdir -p "$root/tree/etc"
    systemd-sysusers --root="$root/tree" usi_host.conf && grep -q '^usi_host:' "$root/tree/etc/passwd" &&
        systemd-tmpfiles --root="$root/tree" --create usi_host.conf &&
        [ "$(stat -c '%a %u' "$root/tree/run/usi_host")" = "750 $(sed -n 's/^usi_host:[^:]*:\([0-9]*\):.*/\1/p' "$root/tree/etc/passwd")" ]
}

purged() {
    rm -rf "$root"/tree/run "$root"/tree/etc/{passwd,group,shadow,gshadow,.pwd.lock}*
    # The scripts of the package are those of a running system; what they do is tried above.
    rm -f "$root"/tree/var/lib/dpkg/info/usi-host.{prerm,postrm,postinst}
    dpkg_there --purge libusi-dev usi-host libusi0 || return 1
    [ -z "$(kept)" ] || {
        kept
        return 1
    }
}

# without_errors PACKAGE..: what lintian calls an error.
without_errors() {
    lintian --fail-on error --tag-display-limit 0 "$@"
}

if command -v lintian >/dev/null; then
    tried lintian without_errors "${packages[@]}"
else
    echo 'deb lintian ... left out: lintian is not installed'
fi
tried installed installed
tried starts starts
if command -v systemd-sysusers >/dev/null && command -v systemd-tmpfiles >/dev/null; then
    tried has_user has_user
else
    echo 'deb has_user ... left out: systemd-sysusers or systemd-tmpfiles is not installed'
fi
tried purged purged
echo "$passed passed, $failed failed"
[ "$failed" -eq 0 ]
