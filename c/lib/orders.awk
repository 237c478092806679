# Where the collectives of ranks differ that wait for ever, for rvmc-mpi: of the lines of `why`, and of the orders and the
# communicators in the memory of each rank, as `rvmc debug` prints their bytes (lib/orders.c, lib/communicators.h). Prints a sentence
# for each such communicator, in which {call A} is for the text at A and {at A} for the place of the call that returns to A.

BEGIN {
    ORDER = 235; TABLE = 8; OF_RANK = 8 * (ORDER + TABLE)   # in words of 4 bytes
    NUMBER = 4; DIGEST = 5; MADE = 8; STEPS = 10; LASTING = 168
    KNOWN = 64; FIRST_OF_LASTING = 16
    LATER = 29056                                           # the first tag of collectives that don't wait (lib/call.h)
    OPERATIONS = split("MAX MIN SUM PROD LAND BAND LOR BOR LXOR BXOR MINLOC MAXLOC", operation, " ")
    FACTOR_HIGH = 42443; FACTOR_LOW = 37443                 # the inverse of the digest's factor: 0xa5cb9243
}
function digit(text) { return index("0123456789abcdef", text) - 1 }
FILENAME == ARGV[1] && /^rank [0-9]+ hart [0-9]+ / { rank = $2 }
FILENAME == ARGV[1] && / hart 0 ended / { is_over[rank] = 1 }
FILENAME == ARGV[1] && / (at|from) (MPI_|rvmc_checked_)Finalize\+/ { is_over[rank] = 1 }
FILENAME == ARGV[1] && / waits at .* tag [0-7] comm 1$/ { is_in[rank, $(NF - 2)] = 1 }
FILENAME == ARGV[1] && / waits at .* tag [0-9]+ comm 1$/ && $(NF - 2) >= LATER { needs_others[rank, int(($(NF - 2) - LATER) / 448)] = 1 }
FILENAME == ARGV[1] { next }
/^at / { next }
{
    for (i = 1; i + 3 <= NF; i += 4) {
        number = 0
        for (k = 3; k >= 0; k--) number = number * 256 + 16 * digit(substr($(i + k), 1, 1)) + digit(substr($(i + k), 2, 1))
        word[words++] = number
    }
}

# what a rank keeps of a communicator
function word_of(rank, c, at) { return word[rank * OF_RANK + c * ORDER + at] }
function number_of(rank, c) { return word_of(rank, c, NUMBER) }
function what_of(rank, c, number) { return word_of(rank, c, STEPS + (number - 1) % KNOWN * 2) }
function place_at(rank, c, number) { return word_of(rank, c, STEPS + (number - 1) % KNOWN * 2 + 1) }
function members_of(rank, c) { return word[rank * OF_RANK + 8 * ORDER + c * TABLE] }
function place_of(rank, of, c) { return int(word[of * OF_RANK + 8 * ORDER + c * TABLE + 1] / 16 ^ rank) % 16 }
# MPI_COMM_WORLD is noted there when it's used first
function are_fellows(a, b, c) { return c == 0 || (place_of(b, a, c) != 15 && members_of(a, c) == members_of(b, c)) }

# the digest before a call, modulo 2^32
function digest_before(digest, step, difference) {
    difference = (digest - step + 4294967296) % 4294967296
    return (difference * FACTOR_LOW + difference * FACTOR_HIGH % 65536 * 65536) % 4294967296
}
# goes back from the end of a rank's order to a number: sets `digest`; returns whether so many calls are known
function back_to(rank, c, to, number) {
    digest = word_of(rank, c, DIGEST)
    if (number_of(rank, c) - to > KNOWN) return 0
    for (number = number_of(rank, c); number > to; number--) digest = digest_before(digest, what_of(rank, c, number))
    return 1
}
# the number up to which two ranks have called the same, or -1 where it isn't known
function agreed_to(a, b, c, both, of_a) {
    both = number_of(a, c) < number_of(b, c) ? number_of(a, c) : number_of(b, c)
    for (; both >= 0; both--) {
        if (!back_to(a, c, both)) return -1
        of_a = digest
        if (!back_to(b, c, both)) return -1
        if (digest == of_a) return both
    }
    return -1
}
function ending(number) {
    if (int(number / 10) % 10 == 1) return "th"
    return number % 10 == 1 ? "st" : number % 10 == 2 ? "nd" : number % 10 == 3 ? "rd" : "th"
}
function communicator_name(rank, c, text) {
    if (c == 0) return "MPI_COMM_WORLD"
    text = in_communicator(rank, c)
    sub(/^ in /, "", text)
    return text
}
function numbered(rank, c, number) { return " (the " number ending(number) " collective of " communicator_name(rank, c) ")" }
# a call, what of it differs from another one, and its place
function step_text(rank, c, number, other, mine, theirs, text) {
    mine = what_of(rank, c, number)
    theirs = other < 0 ? mine : what_of(other, c, number)
    text = "rank " rank (is_in[rank, c] && !is_over[rank] && number_of(rank, c) == number ? " is in " : " was in ") \
        "{call " int(mine / 4096) "}"
    if (int(mine / 4096) == int(theirs / 4096) && int(mine / 256) != int(theirs / 256)) text = text " with root " int(mine / 256) % 16 - 1
    else if (int(mine / 4096) == int(theirs / 4096) && mine != theirs) text = text " with " op_of(mine % 256)
    return text "{at " place_at(rank, c, number) "}"
}
function op_of(number) { return number <= OPERATIONS ? "MPI_" operation[number] : "an operation of its own" }
function ranks_text(list, n, word) {
    n = split(list, word, " ")
    if (n == 1) return "rank " word[1]
    sub(/ [0-9]+$/, " and " word[n], list)
    n > 2 && gsub(/ [0-9]+ /, ",&", list)
    sub(/^,/, "", list)
    return "ranks " list
}
# a persistent collective that one rank has started more often than another one, which has ended
function of_starts(a, b, c, i, at, first) {
    for (i = 0; i < word_of(a, c, MADE) && i < FIRST_OF_LASTING; i++) {
        at = LASTING + i * 4
        if (word_of(a, c, at + 2) <= word_of(b, c, at + 2) || !is_over[b]) continue
        first = "rank " a " started {call " int(word_of(a, c, at) / 4096) "}{at " word_of(a, c, at + 1) "}" times_text(word_of(a, c, at + 2))
        return first ", rank " b times_text(word_of(b, c, at + 2)) numbered(a, c, word_of(a, c, at + 3))
    }
    return ""
}
function times_text(count) { return " " count (count == 1 ? " time" : " times") }
# the first call in which ranks differ in a communicator: `mine` has called it, and `theirs` another one, or nothing yet if it is -1
function find_first(c, a, b, n) {
    first = 0
    for (a = 0; a < ranks; a++) for (b = 0; b < ranks; b++) {
        if (a == b || !are_fellows(a, b, c)) continue
        n = agreed_to(a, b, c) + 1
        if (n < 1 || n > number_of(a, c) || (first && n >= first)) continue
        if (n > number_of(b, c) && !is_over[a] && !is_over[b] && !needs_others[a, c]) continue
        first = n
        mine = a
        theirs = n <= number_of(b, c) ? b : -1
    }
    return first
}
# which ranks haven't called it: those that have come to their end, if there are some, have left it out
function without_it(c, b, left, behind) {
    for (b = 0; b < ranks; b++) {
        if (b == mine || !are_fellows(mine, b, c) || number_of(b, c) >= first) continue
        if (is_over[b]) left = left " " b
        else behind = behind " " b
    }
    if (left != "") return ranks_text(substr(left, 2)) " left out"
    behind = ranks_text(substr(behind, 2))
    return behind (behind ~ /^ranks/ ? " haven't" : " hasn't") " called"
}
function tell_first(c, a, b, text) {
    if (find_first(c) && theirs >= 0) {
        print step_text(mine, c, first, theirs) " where " step_text(theirs, c, first, mine) numbered(mine, c, first)
    } else if (first) {
        print step_text(mine, c, first, -1) ", which " without_it(c) numbered(mine, c, first)
    } else {
        for (a = 0; a < ranks && text == ""; a++)
            for (b = 0; b < ranks && text == ""; b++) if (a != b && are_fellows(a, b, c)) text = of_starts(a, b, c)
        if (text != "") print text
    }
}
END {
    if (words == ranks * OF_RANK) for (c = 0; c < 8; c++) tell_first(c)
}
