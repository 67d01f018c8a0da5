#!/usr/bin/env bash
# Shows that a program that breaks the discipline of passes and dues does not compile: each edit of tools/tokens is applied to a
# copy of the program `typing`, and has to be refused with the error it names. The program itself is fine, as the gate shows, which
# proves and runs it: its second edit spends what the first paint gave, and its close what a refused edit handed back.
set -euo pipefail
cd "$(dirname "$0")/.."
copy=$(mktemp -d)
trap 'rm -rf "$copy"' EXIT
cp crates.txt "$copy/"
mkdir "$copy/crates"
for crate in crates/*/; do
  mkdir "$copy/$crate"
  cp -r "$crate/src" "$copy/$crate/src"
  for part in specs proofs; do
    if [ -d "$crate/$part" ]; then cp -r "$crate/$part" "$copy/$crate/$part"; fi
  done
done

try() { (cd "$copy/crates/typing" && rt try --steps 1000 </dev/null 2>&1) || true; }

passed=0
failed=0
verdict() { # NAME OUTPUT WANTED
  if grep -qF -- "$3" <<<"$2"; then
    passed=$((passed + 1))
    echo "tokens: $1: as it must be: $3"
  else
    failed=$((failed + 1))
    echo "tokens: $1: WRONG, wanted: $3"
    echo "$2" | head -20
  fi
}

for edit in tools/tokens/*.edit; do
  file=$(sed -n 's/^file: //p' "$edit")
  old=$(sed -n 's/^old: //p' "$edit")
  new=$(sed -n 's/^new: //p' "$edit")
  text=$(cat "$file")
  changed=${text/"$old"/"$new"}
  if [ "$changed" = "$text" ]; then
    failed=$((failed + 1))
    echo "tokens: $(basename "$edit"): WRONG, its old text is not in $file"
    continue
  fi
  printf '%s\n' "$changed" >"$copy/$file"
  verdict "$(basename "$edit" .edit)" "$(try)" "$(sed -n 's/^error: //p' "$edit")"
  cp "$file" "$copy/$file"
done
echo "tokens: $passed as they must be, $failed wrong"
[ "$failed" -eq 0 ]
