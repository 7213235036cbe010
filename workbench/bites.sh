#!/bin/sh
# Shows that the comparison bites: builds the second simulator once right and
# once with each wrong rule, and compares every wrong build with the right one.
#
# usage: bites.sh [LTS TICK CALLS]
# LTS, TICK and CALLS are a printing program, a tick program and a call program
# to be used in place of the right second simulator. COUNT and SEED may be set
# from outside.

set -eu

if [ $# -ne 0 ] && [ $# -ne 3 ]; then
    echo "usage: bites.sh [LTS TICK CALLS]" >&2
    exit 2
fi
if [ $# -eq 3 ]; then
    lts=$(realpath "$1")
    tick=$(realpath "$2")
    calls=$(realpath "$3")
fi
cd "$(dirname "$0")"
right=target/release
: "${lts:=$right/second}" "${tick:=$right/second_tick}" "${calls:=$right/second_calls}"
: "${COUNT:=2500}" "${SEED:=1}"

cargo build --release --quiet --offline

wrong_rules=0
missed=0
for feature in $(sed -n 's/^\(wrong-[a-z0-9-]*\) = .*/\1/p' Cargo.toml); do
    dir=target/bites/$feature
    cargo build --release --quiet --offline --target-dir "$dir" \
        --features "$feature" --bin second --bin second_tick --bin second_calls
    wrong_rules=$((wrong_rules + 1))
    status=0
    answer=$("$right/compare" --lts "$lts" --second "$dir/release/second" \
        --tick "$tick" --second-tick "$dir/release/second_tick" \
        --calls "$calls" --second-calls "$dir/release/second_calls" \
        --seed "$SEED" --count "$COUNT" --expect-differences) || status=$?
    # The last line: compared M inputs, seed S: N differences
    counts=$(printf '%s\n' "$answer" |
        sed -n '$s/^compared \([0-9]*\) inputs, .*: \([0-9]*\) differences$/\2 differences of \1/p')
    if [ "$status" -eq 0 ] && [ -n "$counts" ]; then
        echo "$feature: caught ($counts)"
    else
        echo "$feature: NOT caught ($counts)"
        missed=$((missed + 1))
    fi
done

if [ "$missed" -ne 0 ]; then
    echo "$wrong_rules wrong rules, $missed not caught"
    exit 1
fi
echo "$wrong_rules wrong rules, all caught"
