#!/bin/sh
# Counts how often each refusal number is answered over generated histories, by single calls and by runs, and fails if
# one of them comes less often than asked, or 12 at all: count-refusals.sh LINES LEAST MODE SEED [SEED ...]
set -eu
if [ $# -lt 4 ]; then
    echo "count-refusals.sh LINES LEAST MODE SEED [SEED ...]" >&2
    exit 2
fi
lines=$1 least=$2 mode=$3
shift 3
here=$(dirname "$0")
cargo build --quiet --release --offline --manifest-path "$here/Cargo.toml"
programs="${CARGO_TARGET_DIR:-$here/target}/release"
failed=0
for seed in "$@"; do
    "$programs/generate" "$seed" "$lines" "$mode" | "$programs/second" | awk -v seed="$seed" -v least="$least" '
        $1 == "refused" { count[$2]++ }
        $1 == "done" { done++ }
        # The last number of a run is the refusal that stopped it, or 0.
        $1 == "rest" || $1 == "filled" { if ($3 == 0) whole++; else stopped[$3]++ }
        substr($1, 1, 1) == "?" { bad++ }
        END {
            printf "seed %s: done %d, bad lines %d, refused", seed, done, bad
            for (number = 1; number <= 24; number++) {
                printf " %d:%d", number, count[number]
                # "12 is never given again."
                if (number != 12 && count[number] < least) scarce = scarce " " number
            }
            printf "\n"
            printf "seed %s: runs not stopped %d, stopped", seed, whole
            stops = split("1 2 4 5 6 7 8 9 10 19 20 23", stop)
            for (place = 1; place <= stops; place++) {
                printf " %d:%d", stop[place], stopped[stop[place]]
                if (stopped[stop[place]] < least) scarce = scarce " run:" stop[place]
            }
            printf "\n"
            if (scarce != "") printf "seed %s: too seldom:%s\n", seed, scarce
            given_again = count[12] + stopped[12]
            if (given_again > 0) printf "seed %s: 12 is answered: %d\n", seed, given_again
            exit (scarce != "" || given_again > 0)
        }' || failed=1
done
exit $failed
