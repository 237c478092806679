# What each outcome of `explore` is, for rvmc-mpi: `kinds_of` there says what a line has.

function heard(rank, count, left) {
    left = count + 1
    while (left > 0 && (getline line) > 0) {
        left -= length(line) + 1
        if (line ~ ("^rank " rank ": MPI_Abort with code -?[0-9]+( at .*)?$")) said[rank] = line
    }
    outputs++
}
# whether a rank ended by MPI_Abort: its code is that of the call
function has_aborted(rank, code, word) {
    if (!(rank in said)) return 0
    split(said[rank], word, " ")
    return word[6] < 0 || word[6] == code
}
# the rank, its code, and where it called MPI_Abort
function abort_words(word) {
    split(said[aborter], word, " ")
    return aborter " " word[6] " " word[8]
}
function finish() {
    if (!number) return
    kind[number] = needs ? "needs" : traps ? "trap" : aborter != "" ? "abort" : dead ? "dead" : "end"
    rest[number] = (code && !outputs ? 2 : code + 0) " " (lost + 0) " "
    if (kind[number] == "abort") rest[number] = rest[number] abort_words()
    else if (needs && traps) rest[number] = rest[number] trapper
    if (kind[number] != "dead" && kind[number] != "needs") waits[number] = ""
    needs = traps = dead = code = lost = outputs = 0
    aborter = ""
    split("", said)
}
# of ranks that need buffers: whether one of them trapped, or waits for the same in the same line as at a deadlock
function stuck_anyway(number, n, i, k, line, word) {
    if (rest[number] ~ / [0-9]+$/ && split(rest[number], word, " ") == 3) return word[3] " 0"
    n = split(waits[number], line, "\n")
    for (i = 1; i < n; i++) {
        if (!(line[i] in dead_in)) continue
        split(line[i], word, " ")
        return word[2] " " dead_in[line[i]]
    }
    return ""
}
/^outcome [0-9]+/ {
    finish()
    number = $2 + 0
    next
}
/^rank [0-9]+ output [0-9]+$/ { heard($2, $4); next }
/ hart [0-9]+ ended / {
    code += !code && exit_code($6)
    if (aborter == "" && has_aborted($2, $6)) aborter = $2
}
/ hart [0-9]+ trapped / {
    traps = 1
    trapper = $2
}
/ hart [0-9]+ waits at / { waits[number] = waits[number] $0 "\n" }
/^deadlock: / { dead = 1 }
/^needs buffering: / { needs = 1 }
# it has no line for ranks that have ended: one of them may have called MPI_Abort
/^some runs go on for ever if sends wait: / {
    needs = hangs[number] = 1
    code = 2
}
/ unreceived: / { lost = 1 }
/^some runs go on for ever$/ { endless = 1 }
/^[0-9]+ outcomes? of [0-9]+ states?: / {
    last = $0
    sub(/^[^:]*: /, "", last)
    # so it is on a network too, where messages take their time
    on_way = sub(/, also with messages on their way$/, "", last)
}
END {
    finish()
    for (i = 1; i <= number; i++) {
        n = kind[i] == "dead" ? split(waits[i], line_of, "\n") : 0
        for (k = 1; k < n; k++) if (!(line_of[k] in dead_in)) dead_in[line_of[k]] = i
    }
    for (i = 1; i <= number; i++) {
        if (!(i in kind)) continue
        # one that waits for a rank that is stuck or trapped needs buffers, and then explore looks for no runs that hang
        stuck = kind[i] == "needs" && !(i in hangs) ? stuck_anyway(i) : ""
        if (stuck == "") print "outcome", i, kind[i], rest[i]
        else print "outcome", i, "stuck", substr(rest[i], 1, 3), stuck
    }
    if (endless) print "endless"
    if (on_way) print "way"
    print "last " last
}
