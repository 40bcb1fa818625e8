#!/bin/sh
# Takes the pictures of a game's report: report.png of README.md and docs/GUIDE.md, and game.svg of docs/GUIDE.md. The
# game is the ninth of bench/games.txt, at depth 7, by the built program. It needs chromium. Its argument is the folder
# that they are written to; without it, the one of this script.
set -eu
here=$(cd "$(dirname "$0")" && pwd)
to=$(realpath -m "${1:-$here}")
top=$here/../..
folder=$(mktemp -d)
trap 'rm -rf "$folder"' EXIT
sed -n 9p "$top/bench/games.txt" >"$folder/game.usi"
"$top/share/examples/analyse.py" --program "${PROGRAM:-$top/crates/usi_host/out/usi_host}" --depth 7 --language en \
    --title 'The ninth game of bench/games.txt' --html "$folder/game.html" --svg "$to/game.svg" \
    "$folder/game.usi" >"$folder/game.csv"
chromium --headless --no-sandbox --disable-gpu --hide-scrollbars --user-data-dir="$folder/browser" \
    --window-size=960,1340 --screenshot="$to/report.png" "file://$folder/game.html#ply34"
