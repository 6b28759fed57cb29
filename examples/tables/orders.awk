# orders.awk: all orders of the words of a line, one a line, with commas. The first word stays where it is, since a round
# has no beginning.

function try(i,  j, swap) {
    if (i == n) {
        text = word[1]
        for (j = 2; j <= n; j++) text = text "," word[j]
        print text
        return
    }
    for (j = i + 1; j <= n; j++) {
        swap = word[i + 1]; word[i + 1] = word[j]; word[j] = swap
        try(i + 1)
        swap = word[i + 1]; word[i + 1] = word[j]; word[j] = swap
    }
}
{ n = split($0, word, " "); if (n) try(1) }
