#!/bin/sh
# Builds `bench_jobs` and prints how fast moves are counted and positions searched: a row for each
# request, with the nodes of a count or the steps of a search, and how many of them in a second.
set -eu
cd "$(dirname "$0")/../crates/bench_jobs"
../../check/build.py bench_jobs

many_drops='R8/2K1S1SSk/4B4/9/9/9/9/9/1L1L1L3 b RBGSNLP3g3n17p 1'
middle_game='l6nl/5+P1gk/2np1S3/p1p4Pp/3P2Sp1/1PPb2P1P/P5GS1/R8/LN4bKL w RGgsn5p 1'
played_game='8l/1l+R2P3/p2pBG1pp/kps1p4/Nn1P2G2/P1P1P2PP/1PS6/1KSG3+r1/LN2+p3L w Sbgn3p 124'
columns='%-7s %-11s %5s %7s %6s %-6s %11s %8s %10s\n'

# row NAME REQUEST: NAME is that of the position, REQUEST a line that its job `measure` reads.
row() {
    printf '%s\n' "$2" | out/bench_jobs measure | awk -v columns="$columns" -v name="$1" -v request="$2" '
        function rate(count, seconds) { return seconds > 0 ? int(count / seconds) : "-" }
        BEGIN { split(request, words) }
        $1 == "perft" { printf columns, $1, name, $2, "-", "-", "-", $3, $4, rate($3, $4) }
        $1 == "search" { printf columns, $1, name, $2, words[3], $3, $4, $5, $6, rate($5, $6) }
    '
}

# shellcheck disable=SC2059
printf "$columns" request position depth entries value best nodes/steps seconds per-second
for depth in 1 2 3 4; do
    row opening "perft $depth"
done
for depth in 1 2 3; do
    row many-drops "perft $depth $many_drops"
done
for depth in 1 2 3 4 5 6; do
    row opening "search $depth 0"
done
for entries in 4096 1000000; do
    for depth in 3 4 5; do
        row opening "search $depth $entries"
    done
done
for depth in 1 2 3 4; do
    row middle-game "search $depth 0 $middle_game"
done
for depth in 1 2 3 4; do
    row played-game "search $depth 0 $played_game"
done
