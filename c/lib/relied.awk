# Whether a program relies on collectives that don't wait for all of their members, for rvmc-mpi verify: of the kinds of outcomes
# without and with such collectives, of the calls that led to the outcome `needed` in which ranks wait for ever, and of the text of
# `explore`.

FILENAME == ARGV[1] && /^last / { last_before = $0; next }
FILENAME == ARGV[1] { endless_before += $1 == "endless"; next }
FILENAME == ARGV[2] && /^last / { last = $0; next }
FILENAME == ARGV[2] && $1 == "endless" { endless = 1; next }
FILENAME == ARGV[2] { kind[$2] = $3; next }
FILENAME == ARGV[3] { frames[++count] = $0; next }
/^outcome [0-9]+/ { number = $2 + 0; next }
/^rank [0-9]+ output [0-9]+$/ { for (left = $4 + 1; left > 0 && (getline line) > 0; ) left -= length(line) + 1; next }
number == needed && / hart [0-9]+ (waits|goes on) at / { lines[++n] = $0 }

function verdict(would, left_out) {
    would = "relied on not waiting: if each waited for all its ranks, "
    if (needed) {
        would = would waiting(lines, n) " for ever" (kind[needed] == "needs" ? " without buffers" : "")
        sub(/ waits? for ever/, " would wait for ever", would)
        return would
    }
    if (last ~ /^last not all: /) {
        print "" >(room "more")
        left_out = last
        sub(/^last not all: /, "", left_out)
        return "unknown: not all schedules were searched in which each waits for all its ranks: " left_out
    }
    if (endless && !endless_before) return would "some schedules would go on for ever"
    if (last != last_before && last_before == "last no other outcome") {
        print "" >(room "more")
        return "unknown: with collectives that wait, looking for ranks that need buffers takes more than " states " states"
    }
    return "not relied on"
}
# the ranks that wait, by the calls that led there where these are known
function tell_waits(i, of_wait) {
    for (i = 1; i <= count; i++) {
        if (frames[i] !~ /^  called from /) of_wait = frames[i] ~ / waits at /
        if (of_wait) waits[++n_waits] = frames[i]
    }
    if (kind[needed] == "dead" && n_waits) tell_each(waits, n_waits)
    else tell_each(lines, n)
}
END {
    print "collectives: " verdict()
    if (needed) tell_waits()
}
