#!/usr/bin/env bash
# What `make install`, `make dist` and `make uninstall` do, in folders whose names have a blank: the files that are there,
# and whether a stranger can use them. Its last line is 'N passed, M failed'.
set -u -o pipefail
cd "$(dirname "$0")/.." || exit 1
unset MAKEFLAGS # the words of a `make test` that runs this aren't meant for the calls of make below

work="$PWD/target/install"
prefix="$work/in stalled"
unpacked="$work/un packed"
sources="$work/sources"
version=$(sed -n 's/^#define FENCE_VERSION "\(.*\)"$/\1/p' include/fence.h)
tree="$unpacked/fence-$version"
passed=0
failed=0

# shellcheck source=machine.sh
. host/machine.sh
# shellcheck source=stranger.sh
. host/stranger.sh
install_missing "$cc" "$cxx" cmake make pkg-config "${to_run[@]}" || { echo "0 passed, 1 failed"; exit 1; }

# Counts a check by its status, and shows what it printed where it failed.
holds() {
    local what=$1 said; shift
    if said=$("$@" 2>&1); then
        passed=$((passed + 1))
    else
        failed=$((failed + 1))
        printf 'not so: %s\n%s\n' "$what" "$said"
    fi
}

expected="bin/fence-list
include/fence.h
include/fence.hpp
include/fence_explain.hpp
include/fence_request.hpp
lib/cmake/fence/fence-config-version.cmake
lib/cmake/fence/fence-config.cmake
lib/libfence.a
lib/pkgconfig/fence.pc
share/man/man1/fence-list.1"

files_of() { (cd "$1" && find . ! -type d -printf '%P\n' | LC_ALL=C sort); }
has_files() { diff <(LC_ALL=C sort <<<"$2") <(files_of "$1"); }
is_filled() { ! grep -rIE '@[A-Z]+@' "$1"; }
is_gone() { ! [ -e "$1" ] || { find "$1"; return 1; }; }
place() { make -s "$1" DESTDIR= PREFIX="$prefix"; }
pack() { make -s dist && mv "target/dist/fence-$version-x86_64-linux.tar.gz" "$1" && rm -rf target/dist; }
unpack() { mkdir "$unpacked" && tar -xzf "$1" -C "$unpacked" && diff <(echo "fence-$version") <(ls "$unpacked"); }
sums_hold() { (cd "$1" && sha256sum --check --quiet SHA256SUMS); }
sums_name_all() { has_files "$1" "$(cut -c 67- "$1/SHA256SUMS")"$'\nSHA256SUMS'; }

# All that a tree is good for. The numbers asked for go with FENCE_VERSION.
use() {
    local tree=$1 name=$2 build="$work/$2" asked
    holds "$name: no name is left to fill in" is_filled "$tree"
    holds "$name: fence-list prints the lines of graph D" lists "$tree"
    holds "$name: pkg-config serves C and C++" by_pkg_config "$tree" "$build"
    for asked in 0.1 0.1.0; do holds "$name: CMake gets $asked" by_cmake "$tree" "$build" $asked; done
    for asked in 0.0 0.1.9 0.2 1.0; do holds "$name: CMake is refused $asked" is_refused "$tree" "$build" $asked; done
    holds "$name: fence.hpp says that C++14 is too old" says_cpp17 "$tree"
}

rm -rf "$work"
write_sources
holds "make install" place install
holds "install makes these files" has_files "$prefix" "$expected"
use "$prefix" installed

holds "make uninstall" place uninstall
holds "uninstall leaves nothing" is_gone "$prefix"
mkdir -p "$prefix/include" && touch "$prefix/include/other.h"
holds "make install beside another's file" place install
holds "make uninstall beside another's file" place uninstall
holds "uninstall leaves what isn't its own" has_files "$prefix" include/other.h

holds "make dist" pack "$work/first.tar.gz"
holds "make dist again" pack "$work/second.tar.gz"
holds "dist makes the same bytes again" cmp "$work/first.tar.gz" "$work/second.tar.gz"
holds "dist makes one folder" unpack "$work/first.tar.gz"
holds "dist makes these files" has_files "$tree" "$expected"$'\nKIT\nSHA256SUMS\nVERSION'
holds "the sums hold" sums_hold "$tree"
holds "the sums name all files" sums_name_all "$tree"
use "$tree" unpacked

echo "$passed passed, $failed failed"
[ "$failed" -eq 0 ]
