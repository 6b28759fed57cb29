# seen.awk: what a log shows of the holding times, as a table: each place, its time, and the least and the mean time that
# its tokens took. It reads the net, as teg migrate prints it, and then the log.

NR == FNR { take_net($0); next }
!is_row($0) || FNR == 1 && cell[2] == "date" { next }
{ t = transition_of(1, "transition"); at[t, ++count[t]] = number(2, "date") }
END {
    print "place,time,least,mean"
    for (i = 1; i <= places; i++) {
        p = place[i]; n = sum = 0
        for (k = tokens[p] + 1; k <= count[to[p]]; k++) {
            if (k - tokens[p] > count[from[p]]) refuse(0, "the log does not keep to place " p ": ask teg replay")
            took = at[to[p], k] - at[from[p], k - tokens[p]]; sum += took
            if (!n++ || took < least) least = took
        }
        if (n) printf "%s,%.0f,%.0f,%.2f\n", p, hold[p], least, sum / n; else printf "%s,%.0f,,\n", p, hold[p]
    }
}
