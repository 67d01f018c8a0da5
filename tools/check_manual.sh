#!/usr/bin/env bash
# Sees that the manual shows what is really said: README.md the sessions that the program `sessions` carries out, and the lines, digits
# and colours of the scene that `scene` reports on; README.md and docs/API.md code that stands in the program `typing`; and that `scene --help`
# has a line for each call of docs/RULES.md.
set -euo pipefail
cd "$(dirname "$0")/.."
work=$(mktemp -d)
trap 'rm -rf "$work"' EXIT

wrong() {
  echo "manual: WRONG, $1"
  exit 1
}

# Whether a file has some lines, one behind the other.
has() { # FILE LINES
  local all
  all=$'\n'$(<"$1")$'\n'
  [[ $all == *$'\n'"$2"$'\n'* ]]
}

# The blocks of a file between ``` and ```, each in a file of its own, without these two lines. A block of a language has its name.
blocks() { # FILE LANGUAGE INTO
  awk -v language="$2" -v into="$3" '
    /^```/ && inside { inside = 0; close(out); next }
    /^```/ { inside = 1; wanted = ($0 == "```" language); out = into "." ++count; next }
    inside && wanted { print > out }
  ' "$1"
}

# A session: what is typed stands in crates/sessions/stdin, and behind each # what is answered, in stdout.
blocks README.md sh "$work/session"
sessions=0
for session in "$work"/session.*; do
  words=$(sed -n "1s/^(cd crates\/scene && rt run -- \(.*\)) <<'END'$/\1/p" "$session")
  [ -n "$words" ] || wrong "README.md has a session that does not begin as a session does"
  prompt="\$ scene $words"
  typed=$(sed '1d;$d' "$session")
  answered=$(sed -n 's/^# //p' "$session")
  has crates/sessions/stdin "$prompt"$'\n'"$typed" || wrong "crates/sessions/stdin lacks a session of README.md: $prompt"
  has crates/sessions/stdout "$prompt"$'\n'"$answered" || wrong "crates/sessions/stdout lacks the answers of a session of README.md: $prompt"
  sessions=$((sessions + 1))
done

# The scene: its first five lines in crates/scene/stdin, their digits at the front of stdout, and their colours from the first ESC on.
blocks README.md "" "$work/scene"
cat "$work"/scene.* >"$work/lines_and_digits"
{ head -n 5 crates/scene/stdin && head -n 5 crates/scene/stdout; } | cmp - "$work/lines_and_digits" || wrong "README.md shows other lines or digits than the run of scene"
sed -n '/\x1b/,$p' crates/scene/stdout | head -n 5 |
  awk -v made_by='cd crates/scene && rt run -- string-comment --show <stdin | head -n 5' -f tools/show_as_svg.awk |
  cmp - docs/scene.svg || wrong "docs/scene.svg is not what tools/show_as_svg.awk makes of the run of scene"

# Code.
blocks README.md rust "$work/code_of_readme"
blocks docs/API.md rust "$work/code_of_api"
pieces=0
for code in "$work"/code_*; do
  has crates/typing/src/main.rt "$(<"$code")" || wrong "crates/typing/src/main.rt lacks code that the manual shows: $(head -n 1 "$code")"
  pieces=$((pieces + 1))
done
echo "manual: $sessions sessions, a scene and $pieces pieces of code: as they must be"

# The help.
(cd crates/scene && rt try -- words --help </dev/null >"$work/help" 2>"$work/told") || wrong "scene --help fails: $(tail -n 3 "$work/told")"
calls=$(sed -n '/^| line | answer |$/,/^$/s/^| `\([a-z]*\).*/\1/p' docs/RULES.md | sort -u)
[ "$(wc -w <<<"$calls")" -ge 14 ] || wrong "docs/RULES.md has no list of calls"
for call in $calls; do
  grep -q "^  $call\( \|$\)" "$work/help" || wrong "scene --help has no line for the call $call"
done
echo "manual: scene --help has a line for each call"
