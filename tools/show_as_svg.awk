# What `scene --show` writes, as a picture: awk -v made_by=COMMAND -f tools/show_as_svg.awk. COMMAND is named in the picture.
BEGIN {
    # The terminal's colours on a dark ground: grey, white, cyan, yellow, green, red, magenta, blue.
    fill[90] = "#7d8590"; fill[37] = "#e6edf3"; fill[36] = "#76e3ea"; fill[33] = "#e3b341"
    fill[32] = "#7ee787"; fill[31] = "#ff7b72"; fill[35] = "#d2a8ff"; fill[34] = "#79c0ff"
    colour = 90
}

function escaped(text) {
    gsub(/&/, "\\&amp;", text)
    gsub(/</, "\\&lt;", text)
    gsub(/>/, "\\&gt;", text)
    return text
}

# Blanks need no colour.
function span(text) {
    return text ~ /^ *$/ ? text : "<tspan fill=\"" fill[colour] "\">" escaped(text) "</tspan>"
}

{
    pieces = split($0, piece, "\033\\[")
    spans = span(piece[1])
    columns = length(piece[1])
    for (i = 2; i <= pieces; i++) {
        colour = substr(piece[i], 1, 2)
        text = substr(piece[i], 4)
        spans = spans span(text)
        columns += length(text)
    }
    if (columns > widest) widest = columns
    line[NR] = spans
}

END {
    width = int(widest * 8.45) + 28
    height = NR * 20 + 24
    print "<svg xmlns=\"http://www.w3.org/2000/svg\" width=\"" width "\" height=\"" height "\" viewBox=\"0 0 " width " " height "\">"
    print "<!-- Made by the command in desc, which has two hyphens in a row and may not stand in a comment. -->"
    print "<desc>" escaped(made_by) "</desc>"
    print "<rect width=\"" width "\" height=\"" height "\" rx=\"6\" fill=\"#0d1117\"/>"
    print "<g font-family=\"ui-monospace, Menlo, Consolas, monospace\" font-size=\"14\">"
    for (i = 1; i <= NR; i++) print "<text x=\"14\" y=\"" i * 20 + 7 "\" xml:space=\"preserve\">" line[i] "</text>"
    print "</g>"
    print "</svg>"
}
