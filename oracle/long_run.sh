#!/bin/sh
# Compares the oracle with another checker on generated cases.
#
#   long_run.sh COUNT [SEED]
#
# Environment:
#   PACLANG  the other checker: reads hexadecimal lines, writes verdict lines
#            (default: crates/paclang/out/paclang verdicts, from the repository root)
#   LAYER=1  puts layer 1 only to the oracle
#   BATCH    cases in a batch (default 50000); batch i is made from SEED + i
#   KIND     kind of cases (default mixed)
#   ORACLE   the oracle (default: oracle/target/release/oracle; built if missing)
#
# Status 0: no difference. 1: a difference, shown. 2: something could not be run.
set -u

if [ $# -lt 1 ] || [ $# -gt 2 ]; then
    echo "usage: long_run.sh COUNT [SEED]" >&2
    exit 2
fi
count=$1
seed=${2:-1}
for n in "$count" "$seed" "${BATCH:-50000}"; do
    case $n in
        '' | *[!0-9]*) echo "long_run: no number: $n" >&2; exit 2 ;;
    esac
done
batch=${BATCH:-50000}
if [ "$batch" -eq 0 ]; then
    echo "long_run: BATCH must be above 0" >&2
    exit 2
fi
kind=${KIND:-mixed}

here=$(cd "$(dirname "$0")" && pwd) || exit 2
cd "$here/.." || exit 2
oracle=${ORACLE:-$here/target/release/oracle}
paclang=${PACLANG:-crates/paclang/out/paclang verdicts}
layer=
if [ "${LAYER:-}" = 1 ]; then
    layer="--layer 1"
fi

if [ ! -x "$oracle" ]; then
    (cd "$here" && cargo build --release --offline) || exit 2
fi

work=$(mktemp -d) || exit 2
trap 'rm -rf "$work"' EXIT
trap 'exit 2' INT TERM
: >"$work/tallies"

report() {
    echo "tally (verdict, cases, percent):"
    awk '{ n[$1] += $2; all += $2 }
         END { for (v in n) printf "%-4s %10d %8.3f\n", v, n[v], 100 * n[v] / all }' \
        "$work/tallies" | sort
}

start=$(date +%s)
done_cases=0
while [ "$done_cases" -lt "$count" ]; do
    now=$batch
    if [ $((count - done_cases)) -lt "$now" ]; then
        now=$((count - done_cases))
    fi
    "$oracle" generate --seed "$seed" --count "$now" --kind "$kind" >"$work/cases" ||
        { echo "long_run: the generator failed (seed $seed)" >&2; exit 2; }
    # $layer and $paclang are commands with words: they are meant to be split.
    "$oracle" verdicts $layer <"$work/cases" >"$work/mine" ||
        { echo "long_run: the oracle failed (seed $seed)" >&2; exit 2; }
    $paclang <"$work/cases" >"$work/theirs"
    status=$?

    if [ "$status" -ne 0 ] && [ ! -s "$work/theirs" ]; then
        echo "long_run: no verdicts from: $paclang (status $status)" >&2
        exit 2
    fi
    # The first line that differs. Missing and extra lines are differences too, and
    # they are looked for before a bad status is reported: they say where it stopped.
    if ! cmp -s "$work/mine" "$work/theirs"; then
        line=$(awk 'NR == FNR { mine[FNR] = $0; n = FNR; next }
                    { m = FNR; if (FNR > n || mine[FNR] != $0) { print FNR; found = 1; exit } }
                    END { if (!found) print m + 1 }' "$work/mine" "$work/theirs")
        echo "DIFFERENCE in seed $seed, kind $kind, line $line (status of the other checker: $status)"
        echo "case:   $(sed -n "${line}p" "$work/cases")"
        echo "oracle: $(sed -n "${line}p" "$work/mine")"
        echo "other:  $(sed -n "${line}p" "$work/theirs")"
        different=$(paste -d '|' "$work/mine" "$work/theirs" | awk -F '|' '$1 != $2' | wc -l)
        echo "cases done before this batch: $done_cases; differences in this batch: $different of $now"
        exit 1
    fi
    if [ "$status" -ne 0 ]; then
        echo "long_run: the other checker ended with status $status (seed $seed)" >&2
        exit 2
    fi

    "$oracle" tally <"$work/mine" >>"$work/tallies"
    done_cases=$((done_cases + now))
    seconds=$(($(date +%s) - start))
    [ "$seconds" -gt 0 ] || seconds=1
    echo "cases $done_cases, differences 0, cases per second $((done_cases / seconds)) (seed $seed)"
    seed=$((seed + 1))
done
report
