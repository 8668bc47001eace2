#!/bin/sh
# Compares the oracle with another implementation on random scripts of store calls and of
# machine calls.
#
#   long_scripts.sh CALLS [SEED]
#
# CALLS calls for each kind of store, both of stores and of machines.
#
# Environment:
#   PACLANG  the other implementation: reads scripts, writes them back with answers
#            (default: crates/paclang/out/paclang script, from the repository root).
#            PACLANG=none compares only the oracle's generator with its own replay.
#   WHAT     store or machine, or both (default: "store machine")
#   KINDS    kinds of stores (default: "slab chain split nested")
#   BATCH    calls in a batch (default 50000); batch i is made from SEED + i
#   ORACLE   the oracle (default: oracle/target/release/oracle; built if missing)
#
# Status 0: no difference. 1: a difference, shown. 2: something could not be run.
set -u

if [ $# -lt 1 ] || [ $# -gt 2 ]; then
    echo "usage: long_scripts.sh CALLS [SEED]" >&2
    exit 2
fi
calls=$1
seed=${2:-1}
batch=${BATCH:-50000}
for n in "$calls" "$seed" "$batch"; do
    case $n in
        '' | *[!0-9]*) echo "long_scripts: no number: $n" >&2; exit 2 ;;
    esac
done
if [ "$batch" -eq 0 ]; then
    echo "long_scripts: BATCH must be above 0" >&2
    exit 2
fi

here=$(cd "$(dirname "$0")" && pwd) || exit 2
cd "$here/.." || exit 2
oracle=${ORACLE:-$here/target/release/oracle}
paclang=${PACLANG:-crates/paclang/out/paclang script}
if [ ! -x "$oracle" ]; then
    (cd "$here" && cargo build --release --offline) || exit 2
fi
if [ "$paclang" != none ] && ! command -v "${paclang%% *}" >/dev/null; then
    echo "long_scripts: not there: ${paclang%% *}" >&2
    exit 2
fi

work=$(mktemp -d) || exit 2
trap 'rm -rf "$work"' EXIT
trap 'exit 2' INT TERM

# compare NAME STATUS: $work/mine against $work/NAME. Where they differ, the script that the
# line stands in is shown up to it.
compare() {
    if cmp -s "$work/mine" "$work/$1"; then
        if [ "$2" -ne 0 ]; then
            echo "long_scripts: $1 ended with status $2 ($what-calls $kind, seed $now_seed)" >&2
            exit 2
        fi
        return
    fi
    line=$(awk 'NR == FNR { mine[FNR] = $0; n = FNR; next }
                { m = FNR; if (FNR > n || mine[FNR] != $0) { print FNR; found = 1; exit } }
                END { if (!found) print m + 1 }' "$work/mine" "$work/$1")
    echo "DIFFERENCE in $what-calls $kind, seed $now_seed, line $line (status of $1: $2)"
    start=$(head -n "$line" "$work/mine" | grep -n '^script ' | tail -n 1 | cut -d : -f 1)
    sed -n "${start:-1},${line}p" "$work/mine" >"$work/before"
    echo "the script up to it, the last 40 lines of $(wc -l <"$work/before"):"
    tail -n 40 "$work/before" | cut -c 1-2000
    echo "oracle: $(sed -n "${line}p" "$work/mine")"
    echo "$1: $(sed -n "${line}p" "$work/$1")"
    different=$(paste -d '\n' "$work/mine" "$work/$1" |
        awk 'NR % 2 { mine = $0; next } mine != $0 { n++ } END { print n + 0 }')
    echo "lines that differ in this batch: $different of $(wc -l <"$work/mine")"
    exit 1
}

all=0
for what in ${WHAT:-store machine}; do
    for kind in ${KINDS:-slab chain split nested}; do
        done_calls=0
        answers=0
        now_seed=$seed
        while [ "$done_calls" -lt "$calls" ]; do
            now=$batch
            if [ $((calls - done_calls)) -lt "$now" ]; then
                now=$((calls - done_calls))
            fi
            "$oracle" "$what-calls" "$kind" "$now_seed" "$now" >"$work/mine" ||
                { echo "long_scripts: the generator failed (seed $now_seed)" >&2; exit 2; }
            # The script goes in without its answers, so that nobody can hand them back.
            sed 's/ -> .*//; s/^state .*/state/' "$work/mine" >"$work/bare"
            "$oracle" script <"$work/bare" >"$work/replay"
            compare replay $?
            if [ "$paclang" != none ]; then
                # A command with words: it is meant to be split.
                $paclang <"$work/bare" >"$work/other"
                compare other $?
            fi
            answers=$((answers + $(grep -c ' -> ' "$work/mine")))
            done_calls=$((done_calls + now))
            now_seed=$((now_seed + 1))
        done
        echo "$what-calls $kind: calls $done_calls, answers $answers, differences 0 (seeds $seed to $((now_seed - 1)))"
        all=$((all + done_calls))
    done
done
echo "calls $all, differences 0"
