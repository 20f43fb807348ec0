#!/usr/bin/env bash
# Carries 200 random plans through a network that loses, repeats, delays and cuts messages, and kills the
# runs. It looks at the keys meanwhile, changes the server behind each finished plan and refreshes, and probes
# servers through it: bench/storm/main.rs says how. Sockets on 127.0.0.1 only.
#
#     bench/storm.sh PROGRAM [PLANS [SEED]]
#
# Needs rustc. The last line has `0 wrong`, and the exit status is 0, where every plan was finished
# within its bound, every step took effect once and in turn, and no look, refresh or probe said what is not so.
set -euo pipefail

program=$(realpath "$1")
plans=${2:-200}
seed=${3:-$RANDOM$RANDOM}
cd "$(dirname "$0")/.."
out=out/storm

mkdir -p "$out"
rustc --edition 2021 -O -o "$out/storm" bench/storm/main.rs
echo "seed $seed"
exec "$out/storm" "$program" "$out/work" "$plans" "$seed"
