# Makes the rows of a picture from a map's words. Plain awk, used by ./draw.
# Reads `words N` and then up to N words, 0x and four digits or a decimal number each; those that are not given are 0. `words 0x....` has
# the first words of a map of 256 positions on the same line, as docs/course/on-words reads them; commands behind it are passed over.
# Writes a row a line, its fields between tabs:
#   head   TEXT
#   word   DEPTH FROM TO WORD MARKS ABOVE NOTE        a word over the positions FROM to TO; ABOVE are the bits over it, the top's first
#   alike  DEPTH FROM TO NOTE                         parts that are like the one drawn before them
# A mark is F for free, f for free and hidden by a clear bit above, . for taken. In a summary word F says that some position below is
# free; ! is a bit that is set where nothing below it is, and ? one that is clear where something is.

function number(text,    i, n) {
    if (text ~ /^[0-9]+$/) return text + 0
    if (text !~ /^0x[0-9a-fA-F]+$/) return -1
    n = 0
    for (i = 3; i <= length(text); i++) n = n * 16 + index("0123456789abcdef", tolower(substr(text, i, 1))) - 1
    return n
}

function bit(w, i) { return int(w / power[i]) % 2 }

# the words of the part of that level which starts at word i, as one text
function text_of(i, level,    j, s) {
    s = ""
    for (j = i; j < i + size[level]; j++) s = s sprintf("%04x", word[j])
    return s
}

# whether the part is free, or taken, from one end to the other
function uniform(i, level,    j) {
    if (word[i] != 0 && word[i] != 65535) return 0
    for (j = i + 1; j < i + size[level]; j++) if (word[j] != word[i]) return 0
    return 1
}

# the 16 marks of word i
function marks_of(i, level, seen,    c, b, child, s) {
    s = ""
    for (c = 0; c < 16; c++) {
        b = bit(word[i], c)
        if (level > 0) {
            child = word[i + 1 + c * size[level - 1]]
            if (b && !child) { s = s "!"; continue }
            if (!b && child) { s = s "?"; continue }
        }
        s = s (b ? (seen ? "F" : "f") : ".")
    }
    return s
}

# counts the positions that are free, those that are lost, and the summary bits that are wrong
function count(i, level, seen,    c, at) {
    for (c = 0; c < 16; c++) {
        if (level == 0) {
            if (bit(word[i], c)) { if (seen) free++; else lost++ }
        } else {
            at = i + 1 + c * size[level - 1]
            if (bit(word[i], c) != (word[at] != 0)) wrong++
            count(at, level - 1, seen && bit(word[i], c))
        }
    }
}

function row(i, level, from, to, above, note) {
    printf "word\t%d\t%d\t%d\t0x%04x\t%s\t%s\t%s\n", levels - 1 - level, from, to, word[i], marks_of(i, level, above !~ /0/), above, note
}

# what is wrong with the bit over word i
function judged(i, b) {
    if (b && !word[i]) return "<- wrong: nothing free"
    if (!b && word[i]) return "<- wrong: lost"
    return ""
}

function joined(a, b) { return a b == "" ? "" : a == "" ? b : b == "" ? a : a "  " b }

# the 16 parts below word i, the first of which starts at position `from`
function below(i, level, from, above,    c, at, b, n, k, note, span) {
    span = cap[level - 1]
    for (c = 0; c < 16; c += n) {
        at = i + 1 + c * size[level - 1]
        b = bit(word[i], c)
        k = text_of(at, level - 1)
        for (n = 1; c + n < 16; n++)
            if (bit(word[i], c + n) != b || text_of(at + n * size[level - 1], level - 1) != k) break
        note = judged(at, b)
        if (level == 1) {
            if (n < 3) n = 1
            else note = joined(n " words alike", note)
            row(at, 0, from + c * 16, from + (c + n) * 16 - 1, above b, note)
        } else if (uniform(at, level - 1)) {
            note = joined((n > 1 ? n " alike, " : "") "all " (word[at] ? "free" : "taken") " below", note)
            row(at, level - 1, from + c * span, from + (c + n) * span - 1, above b, note)
        } else {
            if (n < 3) n = 1
            row(at, level - 1, from + c * span, from + (c + 1) * span - 1, above b, note)
            below(at, level - 1, from + c * span, above b)
            if (n > 1)
                printf "alike\t%d\t%d\t%d\t%d parts like the one above\n", levels - level, from + (c + 1) * span, from + (c + n) * span - 1, n - 1
        }
    }
}

function refuse(text) { print "draw: " text > "/dev/stderr"; failed = 1; exit 1 }

BEGIN {
    for (i = 0; i < 16; i++) power[i] = i ? 2 * power[i - 1] : 1
    # the words and the positions of a map, by the levels below its top word
    for (i = 0; i < 4; i++) { size[i] = (i ? 16 * size[i - 1] : 0) + 1; cap[i] = 16 * (i ? cap[i - 1] : 1) }
    total = -1
}
/^[a-z]/ && total >= 0 { exit }
{
    for (f = 1; f <= NF; f++) {
        if ($f ~ /^#/) break
        if ($f == "words" && total < 0) { total = $(f + 1) ~ /^0x/ ? 17 : number($(++f)); continue }
        value = number($f)
        if (total < 0) refuse("the first line has to be: words N")
        if (value < 0 || value > 65535) refuse("no word of 16 bits: " $f)
        if (given >= total) refuse("more than " total " words")
        word[given++] = value
    }
}
END {
    if (failed) exit 1
    for (levels = 1; levels <= 4; levels++) if (size[levels - 1] == total) break
    if (levels > 4) refuse("no map of 1 to 4 levels has " (total < 0 ? 0 : total) " words: 1, 17, 273 or 4369")
    for (i = given + 0; i < total; i++) word[i] = 0
    top = levels - 1
    count(0, top, 1)
    truth = "true"
    if (wrong) truth = "not true: " wrong " summary bit" (wrong > 1 ? "s are" : " is") " wrong"
    printf "head\t%d positions, %d free%s; %d word%s, %s\n", cap[top], free, (lost ? ", " lost " lost" : ""), total, (total > 1 ? "s" : ""), truth
    row(0, top, 0, cap[top] - 1, "", "")
    if (top > 0 && uniform(0, top)) printf "alike\t1\t0\t%d\tall %s\n", cap[top] - 1, word[0] ? "free" : "taken"
    else if (top > 0) below(0, top, 0, "")
}
