#!/usr/bin/env bash
# Executed instructions of all that the benchmark measures, on both fronts, their ratio, and the goal beside it. Builds the bench
# program first, and installs what counting needs. Works on x86-64 and on Arm.
#
#   instructions.sh [CASE..]
#
# CASE is a name from `bench --goals`; all are counted if none is given. A number is of a unit, or of a submission, a call or a packet where
# the mode says so. Each is the difference of two runs in which all is made ready as often, but played 10 times and 20 times: start,
# set-up and what goes on between two submissions do not count. Missed goals are marked; if there is one, it ends with 1.
set -euo pipefail
shopt -s inherit_errexit

. "$(dirname "${BASH_SOURCE[0]}")/../machine.sh"

few=10 many=20
said=$(mktemp)
trap 'rm -f "$said"' EXIT

counted() { # CASE MODE FRONT TIMES: instructions, and how many of what a number is of
    local pieces
    pieces=$(host_count "$bench" --count "$@" 2>"$said" | awk '{ print $1 }') || {
        cat "$said" >&2
        return 2
    }
    echo "$(grep -o '[0-9][0-9,]*' "$said" | tail -n 1 | tr -d ,) $pieces"
}

a_piece() { # CASE MODE FRONT: instructions
    local more less
    more=$(counted "$@" $many)
    less=$(counted "$@" $few)
    echo "$more $less" | awk '{ printf "%.2f", ($1 - $3) / ($2 - $4) }'
}

host_ready
host_counter_ready
host_cargo build --quiet --release --package compare --bin bench
bench=$(host_program bench)
host_run "$bench" --verify
goals=$(host_run "$bench" --goals)
for case in "$@"; do
    grep -q "^$case " <<<"$goals" || {
        echo "nothing is called $case" >&2
        exit 2
    }
done

missed=0
printf '%-20s %-10s %10s %10s %7s %5s\n' case mode zelezmut plain ratio goal
while read -r case mode goal; do
    [ $# -eq 0 ] || [[ " $* " == *" $case "* ]] || continue
    proved=$(a_piece "$case" "$mode" zelezmut)
    plain=$(a_piece "$case" "$mode" plain)
    ratio=$(awk "BEGIN { printf \"%.3f\", $proved / $plain }")
    mark=
    awk "BEGIN { exit !($ratio > $goal) }" && mark=' missed' missed=$((missed + 1))
    printf '%-20s %-10s %10.1f %10.1f %7s %5s%s\n' "$case" "$mode" "$proved" "$plain" "$ratio" "$goal" "$mark"
done <<<"$goals"

if [ "$missed" -gt 0 ]; then
    echo "goals missed: $missed" >&2
    exit 1
fi
