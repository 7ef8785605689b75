# Reads what bench/src/stores.c prints and then its trace by valgrind's lackey, in one pipe, and prints the table of bench/stores. In the
# trace ` S address,size` is a store, and ` M address,size` a load and a store in one instruction.
# The status is 0 if each call stored exactly the words that it changed, each once; 1 if not; 2 if the run broke off.

# The number of an address. Not every awk has strtonum.
function address(hex,    i, sum) {
    for (i = 1; i <= length(hex); i++)
        sum = 16 * sum + index("0123456789abcdef", substr(hex, i, 1)) - 1
    return sum
}

# Whether the word at this place is above the leaf words, in a map of that many words.
function summary(at, words) {
    while (words > 1) {
        if (at == 0)
            return 1
        words = (words - 1) / 16
        at = (at - 1) % words
    }
    return 0
}

# A call is over and the copy put right: adds it to its line, and notes what is not as it should be.
function judge(    at, idle, again, unseen) {
    for (at in stored) {
        all[call, "stored"] += stored[at]
        above[call, "stored"] += stored[at] * summary(at, count)
        if (!(at in changed))
            idle = 1
        if (stored[at] > 1)
            again = 1
    }
    for (at in changed) {
        all[call, "changed"]++
        above[call, "changed"] += summary(at, count)
        if (!(at in stored))
            unseen = 1
    }
    calls++
    idles += idle
    agains += again
    unseens += unseen
    split("", stored)
    split("", changed)
}

function cell(call, what) {
    return sprintf(" %.2f : %.2f |", all[call, what] / rounds, above[call, what] / rounds)
}

function row() {
    print "| " map[line] " | " n[line] " |" cell("take", "stored") cell("take", "changed") \
        cell("give-back", "stored") cell("give-back", "changed")
    split("", all)
    split("", above)
    count = counts[++line]
}

# instructions and loads, which most lines are
/^I/ || /^ L/ { next }

/^ [SM]/ {
    split($2, part, ",")
    if (part[1] in marks) {
        if (now == "over")
            judge()
        now = marks[part[1]]
        if (now == "take" || now == "give-back")
            call = now
        else if (now == "line-over")
            row()
    } else if (now == "take" || now == "give-back") {
        at = address(part[1]) - words
        if (at >= 0)
            for (i = int(at / 2); i < (at + part[2]) / 2 && i < count; i++)
                stored[i]++
    } else if (now == "over") {
        at = address(part[1]) - copy
        if (at >= 0 && at < 2 * count)
            changed[at / 2]
    }
    next
}

# what the driver prints before its first call
$1 == "mark" { marks[$2] = $3 }
$1 == "words" { words = address($2) }
$1 == "copy" { copy = address($2) }
$1 == "rounds" {
    rounds = $2
    print "The mean of " rounds " takes, and of " rounds " give-backs, each of a random taken position." \
        " All words : those above the leaf words."
    print ""
    print "| map | n | words that a take stores | that it changes | words that a give-back stores | that it changes |"
    print "|---|---|---|---|---|---|"
}
$1 == "line" {
    n[++lines] = $2
    counts[lines] = $3
    map[lines] = $4 " " $5
    line = 1
    count = counts[1]
}

END {
    if (lines == 0 || line != lines + 1 || calls != 2 * rounds * lines) {
        print "stores: the run broke off" >"/dev/stderr"
        exit 2
    }
    print ""
    if (idles + agains + unseens == 0) {
        print "Each of the " calls " calls stored exactly the words that it changed, each once."
        exit 0
    }
    print "Of the " calls " calls " idles + 0 " stored a word that did not change, " agains + 0 " stored a word more than once, and " \
        unseens + 0 " changed a word by no store in the trace."
    exit 1
}
