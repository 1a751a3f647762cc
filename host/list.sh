#!/usr/bin/env bash
# fence-list, as `rt ci` built it, on stored requests and at its limit, against the lines that it must print.
set -u
cd "$(dirname "$0")" || exit 1

passed=0
failed=0

# shellcheck source=machine.sh
. ./machine.sh
install_missing "${to_run[@]}" || { echo "0 passed, 1 failed"; exit 1; }

# Compares what fence-list prints for its standard input with a text.
prints() {
    if [ "$("${emulator[@]}" ../target/bin/fence_list; echo .)" = "$2"$'\n'. ]; then
        passed=$((passed + 1))
    else
        failed=$((failed + 1))
        echo "fence-list prints other lines for $1"
    fi
}

for request in list/*.request; do
    prints "$request" "$(cat "${request%.request}.lines")" <"$request"
done
prints "65,536 bytes" "1 0 0 0 0" < <(head -c 65536 /dev/zero)
prints "65,537 bytes" "too long" < <(head -c 65537 /dev/zero)

echo "$passed passed, $failed failed"
[ "$failed" -eq 0 ]
