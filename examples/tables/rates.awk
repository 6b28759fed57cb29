# rates.awk: actors and rates, to a net of one round, with the numbers of jobs worked out. Its rows:
#
#     ACTOR,TIME                       an actor and the time of its job, one at a time
#     FROM,TO,BROUGHT,TAKEN,THERE,WAY  each job of FROM brings so many, each of TO takes so many, and so many are there at
#                                      the beginning. They are there WAY after the end of the job of FROM, or 0 after it;
#                                      where WAY is `begin`, at its beginning, as room is given back.

function common(a, b,  rest) { while (b) { rest = a % b; a = b; b = rest } return a }
function job(actor, i) { return turns[actor] == 1 ? actor : actor "_" i }
function up(x, y) { return x > 0 ? int((x + y - 1) / y) : -int(-x / y) }

!is_row($0) { next }
cells == 2 {
    if (name_of(1, "actor") in time) refuse(FNR, "actor " cell[1] " stands in another row")
    actor[++n] = cell[1]; time[cell[1]] = number(2, "time of " cell[1])
    next
}
cells > 4 && cells < 7 {
    row[++m] = FNR; start[m] = name_of(1, "actor"); end[m] = name_of(2, "actor")
    brought[m] = number(3, "number brought"); taken[m] = number(4, "number taken"); there[m] = number(5, "number there")
    way[m] = cell[6] == "begin" && cells == 6 ? "begin" : number_or_0(6, "way")
    if (!brought[m] || !taken[m]) refuse(FNR, "0 are brought or taken")
    if (brought[m] > 1e9 || taken[m] > 1e9 || there[m] > 1e9) refuse(FNR, "a number is above 1000000000")
    next
}
{ refuse(FNR, "neither an actor, of two cells, nor a rate, of five or six") }

# How often each actor works in a round, where `s` is one of its part of the graph: the least whole numbers that agree.
function set_turns(s,  i, k, a, b, own, other, unit, all, new) {
    split("", turn); turn[s] = 1
    do {
        new = 0
        for (i = 1; i <= m; i++) {
            a = start[i]; b = end[i]
            if ((a in turn) && !(b in turn)) { own = turn[a] * brought[i]; unit = taken[i]; other = b }
            else if ((b in turn) && !(a in turn)) { own = turn[b] * taken[i]; unit = brought[i]; other = a }
            else continue
            new = unit / common(own, unit)
            for (k in turn) { turn[k] *= new; if (turn[k] > 400) refuse(row[i], "a round has more than 400 jobs of " k) }
            turn[other] = own * new / unit
        }
    } while (new)
    for (k in turn) all = common(turn[k], all)
    for (k in turn) { turns[k] = turn[k] / all; jobs += turns[k] }
}

# The places of a rate: a job waits for the one that brings the last of what it needs, in this round or an earlier one.
function add_rate(e,  j, k, rounds) {
    for (j = 1; j <= turns[end[e]]; j++) {
        k = up(taken[e] * j - there[e], brought[e])
        rounds = k > 0 ? 0 : int(-k / turns[start[e]]) + 1
        add_place("rate", job(start[e], k + rounds * turns[start[e]]), job(end[e], j), way[e] == "begin" ? 0 : time[start[e]] + way[e], rounds)
    }
}

END {
    for (e = 1; e <= m; e++) if (!(start[e] in time) || !(end[e] in time)) refuse(row[e], "an actor of this rate has no row")
    for (s = 1; s <= n; s++) if (!(actor[s] in turns)) set_turns(actor[s])
    for (e = 1; e <= m; e++) if (turns[start[e]] * brought[e] != turns[end[e]] * taken[e]) refuse(row[e], "what is brought in a round is not what is taken")
    if (!n) refuse(0, "there is no actor")
    if (jobs > 400) refuse(0, "a round has " jobs " jobs, and a net at most 400 transitions")
    for (s = 1; s <= n; s++) for (i = 1; i <= turns[actor[s]]; i++) {
        if (job(actor[s], i) in is_transition) refuse(0, "a job of " actor[s] " has the name of another: " job(actor[s], i))
        add_transition(job(actor[s], i))
    }
    for (s = 1; s <= n; s++) for (i = 1; i <= turns[actor[s]]; i++) add_place("turn", job(actor[s], i), job(actor[s], i % turns[actor[s]] + 1), time[actor[s]], i == turns[actor[s]])
    for (e = 1; e <= m; e++) add_rate(e)
    print_net()
}
