#!/bin/sh
# Takes the picture of README.md: xboard analyses a position with the built program, by the words that docs/GUIDE.md has,
# on a screen that is only in memory. It needs Xvfb, xboard, uci2wb, xdotool and ImageMagick (`import`). Its argument is
# the PNG that is written; without it, xboard.png beside this script.
set -eu
here=$(cd "$(dirname "$0")" && pwd)
picture=$(realpath -m "${1:-$here/xboard.png}")
home=$(mktemp -d)
export HOME="$home" DISPLAY=:77 PATH="$home/prefix/bin:$PATH:/usr/games"
Xvfb :77 -screen 0 930x366x24 >"$home/log" 2>&1 &
screen=$!
front=$screen
trap 'kill $front $screen; rm -rf "$home"' EXIT
"$here/../../check/install.sh" "$home/prefix" 2>>"$home/log"
sleep 2

# xboard writes first the side that moves first, as White.
cat >"$home/position" <<'POSITION'
l6nl/5+P1gk/2np1S3/p1p4Pp/3P2Sp1/1PPb2P1P/P5GS1/R8/LN4bKL[RGgsnppppp] b - 0 1
POSITION
touch "$home/.xboard-shogi-rc"
xboard @shogi -fcp "uci2wb -s usi_analyst" -initialMode analysis -size 49 -startupMessage '' \
    -loadPositionFile "$home/position" -engineOutputUp true >>"$home/log" 2>&1 &
front=$!
sleep 5
board=$(xdotool search --name '^xboard' | tail -1)
lines=$(xdotool search --name '^Engine output')
xdotool windowmove "$board" 0 0
xdotool windowmove "$lines" 410 0 windowsize "$lines" 520 366
sleep 20
import -window root "$picture"
