#!/usr/bin/env bash
# Explores a program's states with SPIN, if it is installed: writes the Promela model, compiles SPIN's verifier, runs
# it five times and prints the states and the least processor time. Usage: spin.sh [FILE-OF-WORDS]
#
# SPIN is Debian's package of that name. It is never installed from here; by hand: apt-get install -y spin
set -euo pipefail
here=$(cd "$(dirname "${BASH_SOURCE[0]}")" && pwd)
words=$(realpath "${1:-$here/huge.words}")
if ! command -v spin >/dev/null; then
  echo "SPIN is not installed: its exploration is not measured."
  exit 0
fi
folder=$here/../target/bench/spin
mkdir -p "$folder"
cd "$folder"
python3 "$here/promela.py" "$words" >model.pml
spin -a model.pml >/dev/null
# -DSAFETY: no search for cycles. -DNOREDUCE: all states, no partial-order reduction. The states are kept whole:
# -DCOLLAPSE takes 1.8 times as long here and -DBFS 1.3 times; -O3, -DNOCOMP and -DNOBOUNDCHECK make no difference that
# can be told from noise; -DHC4 loses states.
gcc -O2 -w -DSAFETY -DNOREDUCE -DMEMLIM=4000 -o pan pan.c
# -w22: a table of 4 million slots, the quickest for a million states. No run is longer than 64 moves.
TIMEFORMAT='%U %S'
least=
for _ in 1 2 3 4 5; do
  spent=$( { time ./pan -m100 -w22 >pan.out; } 2>&1 | awk '{ print $1 + $2 }')
  least=$(awk -v a="${least:-$spent}" -v b="$spent" 'BEGIN { print (b < a) ? b : a }')
done
states=$(awk '/states, stored/ { print $1 }' pan.out)
moves=$(awk '/transitions/ { print $1 - 1 }' pan.out)
awk -v name="$(basename "$words")" -v s="$states" -v m="$moves" -v t="$least" 'BEGIN {
  printf "| SPIN, exploration alone | states | moves | processor time | ns a state |\n|---|---|---|---|---|\n"
  printf "| %s | %d | %d | %.3f s | %.0f |\n", name, s, m, t, t * 1e9 / s
}'
