# Prints the word that a mistyped one is most like, if any is like it enough: awk -f nearest.awk -- WORD CANDIDATE...
# Two words are as far apart as the fewest slips between them: a letter more, one less, another one, or two swapped. A word
# that was cut short is like the one that begins with it.

function least(a, b) { return a < b ? a : b }

function slips(a, b,    far, i, j, n, m, other) {
    n = length(a)
    m = length(b)
    for (i = 0; i <= n; i++) far[i, 0] = i
    for (j = 0; j <= m; j++) far[0, j] = j
    for (i = 1; i <= n; i++)
        for (j = 1; j <= m; j++) {
            other = substr(a, i, 1) != substr(b, j, 1)
            far[i, j] = least(far[i - 1, j - 1] + other, least(far[i - 1, j], far[i, j - 1]) + 1)
            if (i > 1 && j > 1 && substr(a, i, 1) == substr(b, j - 1, 1) && substr(a, i - 1, 1) == substr(b, j, 1))
                far[i, j] = least(far[i, j], far[i - 2, j - 2] + other)
        }
    return far[n, m]
}

BEGIN {
    word = ARGV[1]
    # of a word of few letters every other one is near
    nearest = length(word) > 7 ? 3 : 2
    for (k = 2; k < ARGC; k++) {
        count = length(word) > 3 && index(ARGV[k], word) == 1 ? 0 : slips(word, ARGV[k])
        if (count < nearest) {
            nearest = count
            found = ARGV[k]
        }
    }
    if (found != "") print found
}
