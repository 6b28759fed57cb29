# spare.awk: the spare time of each place in a timetable of period A (-v A=..), below 0 where the timetable does not fit. It
# reads the net, as teg migrate prints it, and then the first departures. Rows of delays are passed over.

NR == FNR { take_net($0); next }
!is_row($0) || FNR == 1 && cell[2] == "first" || cells == 3 { next }
{
    t = transition_of(1, "transition")
    if (t in first) refuse(FNR, t " departs first in another row")
    first[t] = number(2, "first departure")
}
END {
    if (A !~ /^[0-9]+$/) refuse(0, "no period: -v A=NUMBER")
    for (i = 1; i <= transitions; i++) if (!(transition[i] in first)) refuse(0, "no departure of " transition[i])
    print "place,spare"
    for (i = 1; i <= places; i++) {
        p = place[i]
        printf "%s,%.0f\n", p, first[to[p]] + A * tokens[p] - first[from[p]] - hold[p]
    }
}
