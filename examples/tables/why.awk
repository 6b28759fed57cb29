# why.awk: the first circuit that an answer names, as a table: its places with their ends, times and tokens, and the sum. It
# reads the net, as teg migrate prints it, and then the answer of teg cycle, size or timetable.

NR == FNR { take_net($0); next }
found { next }
{
    n = split($0, word, " ")
    if (word[1] != "circuit" || n < 2) next
    found = 1
    for (i = 2; i <= n; i++) {
        p = word[i]
        if (!(p in is_place)) refuse(FNR, "the net has no place '" p "'")
        row[++rows] = p "," from[p] "," to[p] "," hold[p] "," tokens[p]; time += hold[p]; there += tokens[p]
    }
}
END {
    if (!found) refuse(0, "the answer names no circuit")
    print "place,from,to,time,tokens"
    for (i = 1; i <= rows; i++) print row[i]
    printf "all,,,%.0f,%.0f\n", time, there
}
