#!/usr/bin/env bash
# Makes dist/usi_host-VERSION.tar.gz of the built program and library, with all that `make install` has, and its
# checksum beside it; and the sdist and the wheel of the Python package. PROVED in the tarball says which sources and which
# toolchain proved them, and what they need.
set -euo pipefail
cd "$(dirname "$0")/.."
program=crates/usi_host/out/usi_host
version=$("$program" --version | awk 'NR == 1 { print $2 }')
name=usi_host-$version
folder=$(mktemp -d)
trap 'rm -rf "$folder"' EXIT
check/install.sh "/$name" "$folder"
# Found from where the file is, wherever the tree is put.
sed -i 's|^prefix=.*|prefix=${pcfiledir}/../..|' "$folder/$name/lib/pkgconfig/usi.pc"
changed=$(git status --porcelain --untracked-files=no)
commit=$(git rev-parse HEAD)${changed:+, with changes}
newest=$(objdump -T "$program" crates/usi_library/out/libusi.so | grep -o 'GLIBC_[0-9.]*' | sort -uV | tail -n 1)
cat >"$folder/$name/PROVED" <<END
Proved and built from commit $commit by $(rt version).
Needs 64-bit Linux on x86 with the GNU C library, ${newest#GLIBC_} or later, and nothing else.
Copy bin/, include/, lib/ and share/ to a prefix, as /usr/local.
END
mkdir -p dist
tar -C "$folder" --owner=0 --group=0 -czf "dist/$name.tar.gz" "$name"
(cd dist && sha256sum "$name.tar.gz" >"$name.tar.gz.sha256")
cat "dist/$name.tar.gz.sha256"
# Without the tools for it, which is said, there is no Python package.
check/package.sh dist || [ $? -eq 3 ]
