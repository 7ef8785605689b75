# Prints the rows of a picture, which rows.awk made, as text; in colour where `colour` is 1. Plain awk, used by ./draw.
BEGIN { FS = "\t" }

function pad(text, width) { while (length(text) < width) text = text " "; return text }
function led(text, width) { while (length(text) < width) text = " " text; return text }

# the marks with a colour for each kind
function painted(marks,    i, c, kind, last, s) {
    if (!colour) return marks
    for (i = 1; i <= length(marks); i++) {
        c = substr(marks, i, 1)
        kind = c == "F" ? "1;32" : c == "." ? "2" : "1;31"
        if (kind != last) s = s "\033[0;" kind "m"
        s = s c
        last = kind
    }
    return s "\033[0m"
}

# a row's positions, set in by its depth
function place(depth, from, to,    s) {
    s = ""
    while (depth-- > 0) s = s "  "
    return pad(s led(from, digits) ".." to, column)
}

$1 == "head" { print $2; next }
!digits {
    digits = length($4)
    column = 2 * (digits < 3 ? 0 : digits - 2) + 2 * digits + 4
    if (column < 11) column = 11
    print pad("positions", column) "word    F free, . taken  above"
}
$1 == "word" {
    line = place($2, $3, $4) $5 "  " painted($6)
    if ($7 != "" || $8 != "") line = line "  " ($8 == "" ? $7 : pad($7, 5) "  " $8)
    print line
}
$1 == "alike" { print place($2, $3, $4) $5 }
