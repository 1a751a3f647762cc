# shellcheck shell=bash disable=SC2154
# For install.sh: what someone does who has only a tree, as `make install` or `make dist` made it, and no repository.
# Each function takes the tree; those that build also take a folder to build in. Needs machine.sh, `sources` and `version`.

# A program in C, one in C++, and a project for CMake that asks for a version of the package.
write_sources() {
    mkdir -p "$sources"
    sed -n '/^ \*   #include <stdio.h>/,/^ \*   }$/ s/^ \* \{0,3\}//p' include/fence.h >"$sources/example.c"
    cp examples/peterson.cpp "$sources/example.cpp"
    cat >"$sources/CMakeLists.txt" <<'END'
cmake_minimum_required(VERSION 3.18)
project(stranger C CXX)
find_package(fence ${ASKED} REQUIRED)
add_executable(example_c example.c)
add_executable(example_cpp example.cpp)
target_compile_features(example_cpp PRIVATE cxx_std_17)
target_link_libraries(example_c fence::fence)
target_link_libraries(example_cpp fence::fence)
END
}

# Runs the two programs that were built in a folder.
run_both() {
    local said
    said=$("${emulator[@]}" "$1/example_c") || return
    [ "$said" = "2 fences of weight 2, 108 bytes" ] || { echo "in C: $said"; return 1; }
    mkdir -p "$1/pictures"
    said=$("${emulator[@]}" "$1/example_cpp" "$1/pictures") || return
    [ "$said" = "a fence between store turn and load flag1" ] || { echo "in C++: $said"; return 1; }
    grep -q '^digraph' "$1/pictures/peterson_before.dot" && grep -q '4: load data' "$1/pictures/peterson_after.dot"
}

# Puts the flags of pkg-config behind a command. It writes a backslash before a blank, so the shell has to read them.
with_flags() {
    local flags; flags=$(PKG_CONFIG_PATH="$1/lib/pkgconfig" pkg-config --cflags --libs fence) || return
    shift
    eval '"$@"' "$flags"
}

by_pkg_config() {
    local to="$2/by_pkg_config"; mkdir -p "$to"
    with_flags "$1" "$cc" -std=c99 -Wall -Wextra -Werror -o "$to/example_c" "$sources/example.c" &&
        with_flags "$1" "$cxx" -std=c++17 -Wall -Wextra -Werror -o "$to/example_cpp" "$sources/example.cpp" &&
        run_both "$to"
}

configured() { cmake -S "$sources" -B "$2/by_cmake" "${cmake_words[@]}" -DCMAKE_PREFIX_PATH="$1" -DASKED="$3"; }

by_cmake() { configured "$@" && cmake --build "$2/by_cmake" && run_both "$2/by_cmake"; }

# The version that is there must be named as the reason: anything else that fails is no refusal.
is_refused() {
    local said
    said=$(configured "$@" 2>&1) && { echo "accepted"; return 1; }
    grep -F "fence-config.cmake, version: $version" <<<"$said" || { echo "$said"; return 1; }
}

# An older C++ gets this one sentence, and no page of errors behind it.
says_cpp17() {
    local said
    said=$(LC_ALL=C with_flags "$1" "$cxx" -std=c++14 -fsyntax-only -x c++ - 2>&1 <<<'#include <fence.hpp>') && return 1
    diff <(echo '#error "fence.hpp needs C++17"') <(sed -n 's/^.* error: //p' <<<"$said")
}

lists() { diff host/list/d.lines <("${emulator[@]}" "$1/bin/fence-list" <host/list/d.request); }
