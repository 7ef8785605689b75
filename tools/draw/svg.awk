# Draws the rows of a picture, which rows.awk made, as SVG that can stand in a web page. Plain awk, used by ./draw.
# A position is a square, filled where it is free; a bit of a summary word is round. A bit that is wrong,
# or lost, has a thick red edge and its mark.
BEGIN { FS = "\t"; HIGH = 21; CELL = 14; LETTER = 7.3; wide = 700 }

function escaped(text) { gsub(/&/, "\\&amp;", text); gsub(/</, "\\&lt;", text); gsub(/>/, "\\&gt;", text); return text }

function put(line) { body[++parts] = line }

function words(x, y, text, extra) {
    if (x + LETTER * length(text) + 4 > wide) wide = int(x + LETTER * length(text) + 4)
    put("<text x=\"" x "\" y=\"" y + 4 "\"" extra ">" escaped(text) "</text>")
}

# the cell of mark m, the i-th of its row; a leaf's cell is a square
function cell(i, y, m, leaf,    x, colour, fill, edge) {
    x = cells + i * (CELL + 2) + int(i / 4) * 5
    colour = leaf ? "#1b7f4b" : "#24548f"
    fill = (m == "F" || m == "!") ? colour : m == "f" ? "#b7ddc6" : "#ffffff"
    edge = (m != "F" && m != ".") ? "stroke=\"#c40000\" stroke-width=\"2.5\"" : "stroke=\"" (m == "F" ? colour : "#8a8a8a") "\""
    put("<rect x=\"" x "\" y=\"" y - CELL / 2 "\" width=\"" CELL "\" height=\"" CELL "\" rx=\"" (leaf ? 1 : CELL / 2) "\" fill=\"" fill "\" " edge "/>")
    if (m != "F" && m != ".")
        words(x + CELL / 2, y, m, " text-anchor=\"middle\" font-weight=\"bold\" fill=\"" (m == "!" ? "#ffffff" : "#c40000") "\"")
}

# the line from the word above to this row
function branch(depth, y,    x) {
    if (depth == 0) return
    x = 8 + (depth - 1) * 16
    put("<path d=\"M" x " " at[depth - 1] + 8 "V" y "H" x + 9 "\" fill=\"none\" stroke=\"#8a8a8a\"/>")
}

$1 == "head" { head = $2; next }
{
    if (!rows) {
        levels = length($4) < 3 ? 1 : length($4) - 1
        cells = 20 + 16 * (levels - 1) + LETTER * (2 * length($4) + 2) + 70
        words(cells, 14, "lowest first", " fill=\"#555555\"")
        words(cells + 16 * (CELL + 2) + 24, 14, "above", " fill=\"#555555\"")
    }
    rows++
    y = 14 + rows * HIGH
    branch($2, y)
    at[$2] = y
    words(4 + $2 * 16 + ($2 ? 16 : 0), y, $3 ".." $4, "")
}
$1 == "word" {
    words(cells - 60, y, $5, "")
    for (i = 0; i < 16; i++) cell(i, y, substr($6, i + 1, 1), $2 == levels - 1)
    words(cells + 16 * (CELL + 2) + 24, y, $7, "")
    if ($8 != "") words(cells + 16 * (CELL + 2) + 72, y, $8, $8 ~ /wrong/ ? " fill=\"#c40000\"" : "")
}
$1 == "alike" { words(cells - 60, y, $5, "") }
END {
    high = 14 + (rows + 1) * HIGH
    print "<svg xmlns=\"http://www.w3.org/2000/svg\" viewBox=\"0 0 " wide " " high "\" width=\"" wide "\" role=\"img\" font-family=\"'DejaVu Sans Mono', Menlo, Consolas, monospace\" font-size=\"12\" fill=\"#111111\">"
    print "<title>" escaped(head) "</title>"
    for (i = 1; i <= parts; i++) print body[i]
    print "</svg>"
}
