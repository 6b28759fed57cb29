# late_rows.awk: where time was lost in a log that teg replay accepts, as a table: each row that came behind all that it
# waited for, its transition, number and date, by how much it was late, and the place that came last. It reads the net, as
# teg migrate prints it, and then the log.

# Takes what the firing waits for: it cannot come before this date.
function wait_for(date, what) {
    if (date > best) { best = date; behind = what }
}

# The date of firing k in the list of input t.
function release(t, k,  n, turns, date) {
    n = split(dates[t], date, /, */)
    if (k > n && every[t] == "") refuse(FNR, "the list of " t " has ended: ask teg replay")
    turns = k > n ? int((k - n + every[t] - 1) / every[t]) : 0
    return date[k - turns * every[t]] + turns * gap[t]
}

NR == FNR { take_net($0); next }
!is_row($0) || FNR == 1 && cell[2] == "date" { next }
{
    t = transition_of(1, "transition"); d = number(2, "date"); k = ++count[t]; at[t, k] = d; best = 0; behind = "the start"
    if (k > 1) wait_for(at[t, k - 1], "the firing before")
    if (t in dates) wait_for(release(t, k), "its list")
    for (i = 1; i <= places; i++) {
        p = place[i]; n = k - tokens[p]
        if (to[p] != t) continue
        if (n > 0 && !((from[p], n) in at)) refuse(FNR, "not by place " p ": ask teg replay")
        if (n > 0) wait_for(at[from[p], n] + hold[p], p)
        else if (ready[p] != "") { split(ready[p], when, /, */); wait_for(when[k] + 0, p) }
    }
    if (d < best) refuse(FNR, "not before " sprintf("%.0f", best) " by " behind ": ask teg replay")
    if (d > best) late[++rows] = FNR "," t "," k "," cell[2] "," sprintf("%.0f", d - best) "," behind
}
END { print "row,transition,number,date,late,behind"; for (i = 1; i <= rows; i++) print late[i] }
