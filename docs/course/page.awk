# Makes HTML of one page of the course: headings, paragraphs, lists, tables, indented blocks, `code`, **bold** and links. Plain awk, used
# by docs/course/make-page. A drawing is made anew by ./draw as SVG, and `<!-- picture FILE -->` .. `<!-- end -->` becomes the file.

function escaped(s) { gsub(/&/, "\\&amp;", s); gsub(/</, "\\&lt;", s); gsub(/>/, "\\&gt;", s); return s }

# a link to another page of the course goes to its place on this one
function target(url) {
    if (url ~ /^[^\/]*[.]md$/) { sub(/[.]md$/, "", url); return "#" url }
    return url
}

# text with bold and links, and no code in it
function plain(s,    at, label, out) {
    s = escaped(s)
    while (match(s, /\[[^]]*\]\([^)]*\)/)) {
        label = substr(s, RSTART + 1, RLENGTH - 2)
        at = index(label, "](")
        out = out substr(s, 1, RSTART - 1) "<a href=\"" target(substr(label, at + 2)) "\">" substr(label, 1, at - 1) "</a>"
        s = substr(s, RSTART + RLENGTH)
    }
    s = out s
    while (match(s, /[*][*][^*]+[*][*]/))
        s = substr(s, 1, RSTART - 1) "<strong>" substr(s, RSTART + 2, RLENGTH - 4) "</strong>" substr(s, RSTART + RLENGTH)
    return s
}

function inline(s,    n, i, piece, out) {
    n = split(s, piece, "`")
    for (i = 1; i <= n; i++) out = out (i % 2 ? plain(piece[i]) : "<code>" escaped(piece[i]) "</code>")
    return out
}

# ends the block that is open
function close_block() {
    if (mode == "p") print "<p>" inline(text) "</p>"
    if (mode == "ol" || mode == "ul") print "<li>" inline(text) "</li>\n</" mode ">"
    if (mode == "pre") { sub(/\n+$/, "", text); print "<pre>" escaped(text) "</pre>" }
    if (mode == "table") print "</tbody></table>"
    mode = ""
    text = ""
}

function open_block(kind) { if (mode != kind) { close_block(); mode = kind; return 1 } return 0 }

function row(line, tag,    n, i, cell) {
    sub(/^[|] */, "", line)
    sub(/ *[|] *$/, "", line)
    n = split(line, cell, / *[|] */)
    printf "<tr>"
    for (i = 1; i <= n; i++) printf "<%s>%s</%s>", tag, inline(cell[i]), tag
    print "</tr>"
}

function svg(command, caption,    line) {
    print "<figure>"
    while ((command | getline line) > 0) print line
    if (close(command) != 0) { print "page: failed: " command > "/dev/stderr"; failed = 1; exit 1 }
    print (caption == "" ? "" : "<figcaption>" escaped(caption) "</figcaption>\n") "</figure>"
}

# what is left out of the page: a part of the pages' README that is for those who change them
/^## For the one who changes them/ { close_block(); left = 1 }
left { next }

/^<!-- draw / {
    close_block()
    arguments = substr($0, 11, length($0) - 14)
    pending = "../../draw --svg " arguments " </dev/null"
    inside = 1
    next
}
/^<!-- picture / { close_block(); svg("cat " $3, ""); inside = 2; next }
/^<!-- end -->/ { inside = 0; next }
# a drawing's first line in the page, which says what it is of, stands below it
inside == 1 && /^    / { svg(pending, substr($0, 5)); inside = 2; next }
inside { next }

/^    / { if (mode != "ol" && mode != "ul") { open_block("pre"); text = text substr($0, 5) "\n"; next } }
mode == "pre" && /^$/ { text = text "\n"; next }
/^$/ { if (mode != "") close_block(); next }
/^#+ / {
    close_block()
    depth = index($0, " ") - 1
    title = substr($0, depth + 2)
    print "<h" depth ">" inline(title) "</h" depth ">"
    next
}
/^[|]/ {
    if (/^[|][-|]+$/) next
    if (open_block("table")) { print "<table><thead>"; row($0, "th"); print "</thead><tbody>"; next }
    row($0, "td")
    next
}
/^[0-9]+[.] / || /^- / {
    kind = /^-/ ? "ul" : "ol"
    if (open_block(kind)) print "<" kind ">"
    else print "<li>" inline(text) "</li>"
    sub(/^[^ ]+ /, "")
    text = $0
    next
}
{
    sub(/^ +/, "")
    if (mode == "ol" || mode == "ul") { text = text " " $0; next }
    open_block("p")
    text = text == "" ? $0 : text " " $0
}
END { if (!failed) close_block() }
