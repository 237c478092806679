# The three verdicts of `rvmc-mpi verify`: of the kinds of outcomes, of the calls that led to the first that needs buffers, and of
# the text of `explore`.

FILENAME == ARGV[1] && $1 == "outcome" {
    found++
    kind[$2] = $3
    rank[$2] = $6
    as_in[$2] = $7
    if ($3 == "abort" || $3 == "cut") aborter[$6] = 1
    ends += $3 !~ /needs|stuck|cut/
    next
}
FILENAME == ARGV[1] && $1 == "endless" { endless = 1; next }
FILENAME == ARGV[1] && $1 == "way" { way = ", also if messages take their time"; next }
FILENAME == ARGV[1] { sub(/^last /, ""); last = $0; next }
# which calls led to where a hart is
FILENAME == ARGV[2] && /^rank [0-9]+ hart [0-9]+ / { hart = $2 " " $4; next }
FILENAME == ARGV[2] && /^  called from / { calls[hart] = calls[hart] "\n" substr($0, 3); next }
FILENAME == ARGV[2] { next }
/^outcome [0-9]+/ { number = $2 + 0; next }
/^rank [0-9]+ output [0-9]+$/ { for (left = $4 + 1; left > 0 && (getline line) > 0; ) left -= length(line) + 1; next }
needed && number == needed && / hart [0-9]+ (waits|goes on) at / { needs[++n] = $0 }
# lines behind these are of other harts
/^(needs buffering|some runs go on for ever if sends wait): / { number = 0 }

# the calls that led to where a hart needs buffers: behind the one at its own place
function led_to(text, word, call, count, i, own, led) {
    split(text, word, " ")
    sub(/^.* (waits|goes on) at /, "", text)
    match(text, /^[^ ,]+( in [^ ,]+)?/)
    own = substr(text, 1, RLENGTH)
    count = split(calls[word[2] " " word[4]], call, "\n")
    for (i = 2; i <= count; i++) {
        if (index(call[i] " ", "called from " own " ") == 1) led = ""
        else led = led " " call[i]
    }
    return led
}
# the outcomes of these kinds, by their numbers; nothing where there are none
function which(kinds, but, i, number, n) {
    for (i = 1; i <= found; i++) if (index(kinds, kind[i]) && i != but) number[++n] = i
    if (n < 2) return n ? "outcome " number[1] : ""
    return "outcomes " list(number, n)
}
function list(number, n, i, shown, text) {
    shown = n > 7 ? 6 : n - 1
    for (i = 1; i <= shown; i++) text = text (i > 1 ? ", " : "") number[i]
    return text " and " (n > 7 ? n - 6 " more" : number[n])
}
function outcomes(before) {
    before = sends == "" ? "" : sends " "
    if (!whole) return "not all were found: " left_out
    if (!ends) return before "no schedule comes to an end"
    if (endless) return before "no schedule that ends leads to any other outcome" way
    before = before "every schedule that ends leads to "
    if (ends == found) return before (ends == 1 ? "this outcome" : "one of these " ends " outcomes") way
    return before (ends == 1 ? "" : "one of ") which("end trap abort dead") way
}
function deadlocks(text, who, i) {
    text = which("dead")
    if (text != "") text = text (whole ? "" : ", and not all schedules were searched")
    else text = whole ? "none" (sends == "" ? "" : " " sends) : "none found, but not all schedules were searched"
    if (which("trap") != "") text = text "; a rank traps in " which("trap")
    for (i in aborter) who = who == "" ? "rank " i : "a rank"
    if (who != "") text = text "; " who " calls MPI_Abort in " which("abort cut")
    return text (endless ? "; some schedules go on for ever" : "")
}
# what follows from the last line, and from the ranks that are listed
function buffering(more, i) {
    if (is_unbuffered) return "none (--unbuffered)"
    if (needed) {
        more = which("needs", needed)
        more = more == "" ? "" : "; see also " more
        return "needed: without buffers " stand(needs, n, needed) more
    }
    if (!whole) return "unknown: not all schedules were searched: " left_out
    for (i = 1; i <= found; i++) {
        if (kind[i] != "stuck") continue
        return "not the cause: rank " rank[i] (as_in[i] ? " waits in outcome " i " as in outcome " as_in[i] : " traps in outcome " i)
    }
    if (harts > 1) return "unknown: ranks have several harts; --unbuffered searches with sends that all wait"
    if (which("cut") != "") return "unknown: ranks may wait in a send when MPI_Abort is called, as in " which("cut")
    if (last == "no other outcome" && !endless) return "not needed"
    # explore looks there for no runs that hang
    if (last == "no other outcome") return "not needed so far: some schedules go on for ever anyway; fix that first"
    if (links) return "unknown: a rank waits for partitions, or looking for ranks that need buffers" enough
    print "" >(room "more")
    return "unknown: looking for ranks that need buffers" enough
}
END {
    whole = last !~ /^not all: /
    left_out = last
    sub(/^not all: /, "", left_out)
    if (left_out ~ / states? (is|are) left$/) print "" >(room "more")
    enough = " takes more than " states " states"
    is_unbuffered = sends == "without buffers"
    if (!is_unbuffered && last !~ / with buffered sends$/) sends = ""
    print "outcomes: " outcomes()
    print "deadlocks: " deadlocks()
    print "buffering: " buffering()
    for (i = 1; i <= n && !is_unbuffered; i++) tell(needs[i], led_to(needs[i]))
}
