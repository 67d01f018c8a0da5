#!/bin/sh
# Builds the plain Rust program and the program bench, runs both fifteen times in turns, and prints their medians side by side and a table
# of ratios; of each median the least, as a machine may slow down while one of them runs. It needs rustc and rt on the path.
set -e
top=$(cd "$(dirname "$0")/.." && pwd)
made=$(mktemp -d)
trap 'rm -rf "$made"' EXIT

rustc -O --edition 2021 "$top/bench/main.rs" -o "$made/plain"
(cd "$top/crates/bench" && rt run) > "$made/built" 2>&1 || { cat "$made/built" >&2; exit 1; }

for turn in $(seq 15); do
    "$top/crates/bench/out/bench" run | grep '^[0-9]' >> "$made/server.txt"
    "$made/plain" >> "$made/plain.txt"
done

awk '
function time_of(from, size, what) {
    if (!((from, size, what) in took)) { print "no " what " of " size " bytes" > "/dev/stderr"; exit 1 }
    return took[from, size, what]
}
function shown(from, size, what) { return (from, size, what) in took ? took[from, size, what] : "" }
function median(what,    k) {
    printf "| %s |", what
    for (k = 1; k <= 3; k++) printf " %s |", shown("server", sizes[k], what)
    for (k = 1; k <= 3; k++) printf " %s |", shown("plain", sizes[k], what)
    print ""
}
# A row: two times, how many of the second make the first, and the most that is aimed at (0: nothing is).
function row(name, first, second, most,    ratio, aim, verdict) {
    ratio = first / second
    verdict = most == 0 ? "" : ratio <= most ? "met" : "missed"
    aim = most == 0 ? "" : most < 1 ? "1/" 1 / most : most
    if (ratio < 0.1) printf "| %s | %d | %d | 1/%.0f | %s | %s |\n", name, first, second, second / first, aim, verdict
    else printf "| %s | %d | %d | %.2f | %s | %s |\n", name, first, second, ratio, aim, verdict
}
function grown(name, what) { row(name " in the long text, in the short one", time_of("server", long, what), time_of("server", short, what), 2) }
FNR == 1 { from = from == "" ? "server" : "plain" }
from == "server" && $2 == "checksum" && !((from, $1, $2) in took) { sizes[++count] = $1 }
!((from, $1, $2) in took) || $3 < took[from, $1, $2] { took[from, $1, $2] = $3 }
from == "plain" && $2 == "checksum" && time_of("server", $1, $2) != $3 { print "the texts differ" > "/dev/stderr"; exit 1 }
END {
    short = sizes[1]; long = sizes[3]
    printf "| ns | server %d | %d | %d | plain %d | %d | %d |\n|---|---|---|---|---|---|---|\n", short, sizes[2], long, short, sizes[2], long
    names = "letter-edit letter-paint letter quote-edit quote-paint quote region-edit region-paint region paste-edit paste-paint paste"
    names = names " delete-all-edit delete-all-paint delete-all script place spot partner partner-back range same scan tail"
    names = names " lex-scene lex-scene-by-table lex-region lex-region-by-table"
    n = split(names, name, " ")
    for (k = 1; k <= n; k++) median(name[k])
    print "\n| what, beside what | ns | ns | ratio | at most | |\n|---|---|---|---|---|---|"
    grown("EDIT of a letter", "letter-edit"); grown("PLACE", "place"); grown("SPOT", "spot"); grown("PARTNER", "partner")
    grown("PARTNER of a closing", "partner-back"); grown("SAME", "same")
    row("PARTNER across the long text, a scan", time_of("server", long, "partner"), time_of("plain", long, "scan"), 1 / 50)
    row("a letter: EDIT and PAINT, the line cache", time_of("server", long, "letter"), time_of("plain", long, "letter"), 2)
    row("a quote: EDIT and PAINT, the line cache", time_of("server", long, "quote"), time_of("plain", long, "quote"), 0)
    row("a paste: EDIT and PAINT, the line cache", time_of("server", long, "paste"), time_of("plain", long, "paste"), 0)
    row("a region: EDIT and PAINT, the line cache", time_of("server", long, "region"), time_of("plain", long, "region"), 0)
    row("a region: EDIT and PAINT, full lexing", time_of("server", long, "region"), time_of("plain", long, "lex-region"), 1.2)
    row("a region: EDIT and PAINT, full lexing by a table", time_of("server", long, "region"), time_of("plain", long, "lex-region-by-table"), 0)
    row("a region: EDIT alone, full lexing", time_of("server", long, "region-edit"), time_of("plain", long, "lex-region"), 1 / 20)
    row("a letter: PAINT, the move of the tail", time_of("server", long, "letter-paint"), time_of("plain", long, "tail"), 0)
}' "$made/server.txt" "$made/plain.txt"
