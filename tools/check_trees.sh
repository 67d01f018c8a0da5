#!/usr/bin/env bash
# Compares what the program `scene` writes of its own scene in a tree, of the usual and of 64 slots, with what it has to write,
# and sees that a text which needs more slots than there are is refused, with status 1.
set -euo pipefail
cd "$(dirname "$0")/../crates/scene"
said=$(mktemp)
told=$(mktemp)
trap 'rm -f "$said" "$told"' EXIT

wrong() {
  echo "trees: WRONG, $1; what the program wrote:"
  tail -n 20 "$said" "$told"
  exit 1
}

rt try -- string-comment --tree --tree 64 <stdin >"$said" 2>"$told" || wrong "it failed"
cmp "$said" ../../tools/trees/stdout || wrong "wanted what is in tools/trees/stdout"
echo "trees: of 4096 and of 64 slots: as they must be"

status=0
rt try -- string-comment --tree 5 <stdin >"$said" 2>"$told" || status=$?
if [ "$status" -ne 1 ] || [ -s "$said" ] || ! grep -qF "scene: the text needs more than 5 slots of 64 bytes each" "$told"; then
  wrong "a text of six chunks has to be refused where there are five slots"
fi
echo "trees: of 5 slots: refused, as it must be"
