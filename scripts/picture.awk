# Draws the tables of scripts/bench.sh as bars: an SVG on standard output. A row is a bar; its length is the user and
# system time, relative to the longest time of its job.
# usage: awk -f scripts/picture.awk docs/PERFORMANCE.md > docs/bench.svg
BEGIN { FS = " *[|] *" }
/^### / { heading = substr($0, 5) }
/^\| tool \| user/ { on = 1; job[++jobs] = heading; next }
!/^\|/ { on = 0 }
on && $2 !~ /^-/ {
    n = ++count[jobs]
    tool[jobs, n] = $2
    time[jobs, n] = $3
    if ($3 + 0 > most[jobs]) most[jobs] = $3 + 0
}
function escape(text) { gsub(/&/, "\\&amp;", text); gsub(/</, "\\&lt;", text); return text }
END {
    height = 34
    for (j = 1; j <= jobs; j++) height += 26 + 20 * count[j]
    printf "<svg xmlns=\"http://www.w3.org/2000/svg\" width=\"640\" height=\"%d\" font-family=\"sans-serif\" font-size=\"13\">\n", height
    print "<rect width=\"100%\" height=\"100%\" fill=\"#fff\"/>"
    print "<text x=\"10\" y=\"20\" font-weight=\"bold\">Processor time, seconds (less is better)</text>"
    y = 34
    for (j = 1; j <= jobs; j++) {
        printf "<text x=\"10\" y=\"%d\" fill=\"#444\">%s</text>\n", y + 16, escape(job[j])
        y += 24
        for (i = 1; i <= count[j]; i++) {
            width = most[j] > 0 ? 400 * time[j, i] / most[j] : 0
            ours = tool[j, i] == "codesearch"
            printf "<text x=\"110\" y=\"%d\" text-anchor=\"end\">%s</text>", y + 13, escape(tool[j, i])
            printf "<rect x=\"118\" y=\"%d\" width=\"%.1f\" height=\"15\" fill=\"%s\"/>", y + 1, width, ours ? "#2166ac" : "#b0b0b0"
            printf "<text x=\"%.1f\" y=\"%d\">%s</text>\n", 124 + width, y + 13, time[j, i]
            y += 20
        }
        y += 2
    }
    print "</svg>"
}
