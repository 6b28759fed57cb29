# project.awk: a project that is done once, to a net. Each row is an activity, its time, and what has to be done before
# it: ACTIVITY,TIME,BEFORE,BEFORE,.. The transition `done` is the end of all.

!is_row($0) { next }
name_of(1, "activity") in row || cell[1] == "done" { refuse(FNR, "'" cell[1] "' is named already") }
{
    name[++n] = cell[1]; row[cell[1]] = FNR; time[cell[1]] = number(2, "time of " cell[1]); add_transition(cell[1])
    for (i = 3; i <= cells; i++) if (cell[i] != "") { first[++waits] = name_of(i, "activity"); second[waits] = cell[1] }
}
END {
    if (!n) refuse(0, "there is no activity")
    for (i = 1; i <= waits; i++) {
        if (!(first[i] in row)) refuse(row[second[i]], "there is no activity '" first[i] "'")
        add_place("to", first[i], second[i], time[first[i]], 0)
        is_followed[first[i]] = 1
    }
    for (i = 1; i <= n; i++) if (!(name[i] in is_followed)) add_place("to", name[i], "done", time[name[i]], 0)
    print_net()
}
