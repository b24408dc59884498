# For scripts that hold ./ask to brute force: they read this file, call `hold FILE` on questions as often as they like, and `close`.
# A run that is stopped by a signal says so, closes with what it has compared, and fails. ASK names another program to hold.
set -eu
top=$(dirname "$(readlink -f "$0")")/..
built=$top/tools/brute/target/release
ask=${ASK:-$top/ask}
held=$(mktemp -d)
compared=0 differ=0
trap 'rm -rf "$held"' EXIT
trap 'echo "stopped by a signal"; close || :; exit 130' INT TERM HUP
(cd "$top/tools/brute" && cargo build --quiet --release --offline)

# Says that a program ended badly; answers that it did not give then count as different.
ended() { echo "$1 ended with status $2"; }

# Asks both the questions of a file, says where the answers differ, and adds to the counts.
hold() {
    "$built/brute" <"$1" >"$held/brute" || ended "brute force" $?
    "$ask" <"$1" >"$held/ask" || ended "$ask" $?
    "$built/compare" "$1" "$held/brute" "$held/ask" >"$held/said" || sed '$d' "$held/said"
    said=$(tail -n 1 "$held/said")
    compared=$((compared + ${said%% compared*}))
    said=${said#*, }
    differ=$((differ + ${said%% differ*}))
}

# Says how many were compared, and fails where some differ or there was none.
close() {
    echo "$compared compared, $differ differ"
    [ "$differ" -eq 0 ] && [ "$compared" -gt 0 ]
}
