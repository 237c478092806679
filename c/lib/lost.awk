# Which messages nobody received, and where they were sent, for rvmc-mpi: of the lines of `why`, of `rvmc debug` and of a picture.

FILENAME == ARGV[1] && / unreceived: / { receiver = $2 }
FILENAME == ARGV[1] && /^  from rank / {
    sub(/:$/, "", $5)
    row[++rows] = $3 " " receiver " " $5
    count_of[rows] = $6
}
FILENAME == ARGV[1] { next }
FILENAME == ARGV[2] && /^at / { step = $2 }
FILENAME == ARGV[2] && /^called from / { led[step] = led[step] " " $0 }
FILENAME == ARGV[2] { next }
$1 == "own" { own[$2] = 1; next }
$1 == "lost" { lost[++n] = $2; key[n] = $3 " " $4 " " $5; next }
match($0, / at .*/) {
    text = substr($0, RSTART + 4)
    match(text, /: [A-Z_]+( |$)/)
    comm[$2] = match(text, / c=[0-9]/) ? substr(text, RSTART + 3, 1) : 0
    match(text, /: [A-Z_]+( |$)/)
    place(substr(text, 1, RSTART - 1), led[$2])
    place_of[$2] = at
}
# the messages of a row in a communicator: how many there are, and where they were sent
function put(i, c, k, many, where, seen, word) {
    for (k = 1; k <= n; k++) {
        if (key[k] != row[i] || (lost[k] in own ? 1 : comm[lost[k]]) != c) continue
        many++
        if (place_of[lost[k]] != "" && !seen[place_of[lost[k]]]++) where = where (where == "" ? "" : " and ") place_of[lost[k]]
    }
    if (many && c != 1) {
        split(row[i], word, " ")
        print never(word[2], many, word[1], word[3]) in_communicator(word[1], c) (where == "" ? "" : " (sent at " where ")")
    }
    return many
}
END {
    for (i = 1; i <= rows; i++) {
        known = 0
        for (c = 0; c < 8; c++) known += put(i, c)
        split(row[i], word, " ")
        # those that no picture has had
        if (known < count_of[i] && word[3] < 1024) print never(word[2], count_of[i] - known, word[1], word[3])
    }
}
