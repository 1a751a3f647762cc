# shellcheck shell=bash disable=SC2034
# For the scripts that build and run x86-64 code: which compilers, which emulator, and how to get what is missing.
# Sets cc, cxx, emulator and to_run (what it needs; both arrays, empty on x86-64), cmake_words; gives install_missing.

if [ "$(uname -m)" = x86_64 ]; then
    cc=gcc cxx=g++ emulator=() to_run=()
    cmake_words=()
else
    cc=x86_64-linux-gnu-gcc cxx=x86_64-linux-gnu-g++ emulator=(qemu-x86_64 -L /usr/x86_64-linux-gnu)
    to_run=(qemu-x86_64 /usr/x86_64-linux-gnu/lib64/ld-linux-x86-64.so.2) # programs of rt share the C library
    cmake_words=(-DCMAKE_SYSTEM_NAME=Linux -DCMAKE_SYSTEM_PROCESSOR=x86_64 "-DCMAKE_C_COMPILER=$cc"
        "-DCMAKE_CXX_COMPILER=$cxx" "-DCMAKE_CROSSCOMPILING_EMULATOR=${emulator[0]};${emulator[1]};${emulator[2]}")
fi

# The Debian package that has a command.
package_of() {
    case $1 in
        cbc) echo coinor-cbc ;;
        doctest) echo doctest-dev ;;
        dot) echo graphviz ;;
        glpsol) echo glpk-utils ;;
        qemu-x86_64) echo qemu-user ;;
        x86_64-linux-gnu-g++) echo g++-x86-64-linux-gnu ;;
        x86_64-linux-gnu-gcc) echo gcc-x86-64-linux-gnu ;;
        */ld-linux-x86-64.so.2) echo libc6-amd64-cross ;;
        *) echo "$1" ;;
    esac
}

# Doctest is a header: no command stands for it, so the compiler is asked.
present() {
    if [ "$1" = doctest ]; then
        "$cxx" -E -x c++ - <<<'#include <doctest/doctest.h>' >/dev/null 2>&1
    else
        command -v "$1" >/dev/null 2>&1
    fi
}

# Installs Debian packages. What apt-get says is long, so it is kept only where it explains a failure.
install_packages() {
    local log; log=$(mktemp)
    echo "installing $*"
    export DEBIAN_FRONTEND=noninteractive
    if { apt-get update -qq && apt-get install -y -qq --no-install-recommends "$@"; } >"$log" 2>&1; then
        rm -f "$log"
    else
        echo "packages could not be installed: see $log" >&2
        return 1
    fi
}

# Installs what is missing of the commands named. Only root can; another user gets the line that root has to type.
install_missing() {
    local missing=() packages=() command
    for command in "$@"; do
        present "$command" || { missing+=("$command"); packages+=("$(package_of "$command")"); }
    done
    if [ ${#missing[@]} -eq 0 ]; then
        return
    elif [ "$(id -u)" -eq 0 ]; then
        install_packages "${packages[@]}"
    else
        echo "missing: ${missing[*]}; as root: apt-get install -y --no-install-recommends ${packages[*]}" >&2
        return 1
    fi
}
