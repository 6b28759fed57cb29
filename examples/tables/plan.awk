# plan.awk: a table of a plan to a net. Its rows:
#
#     ring,JOB,TIME,JOB,TIME,..           what takes turns at one machine, the first one first, each with the time until
#                                         the next one may begin
#     wait,FROM,TO,TIME,TOKENS,READY,..   a way or a wait, with its tokens and their ready dates; what is left out is 0
#     cards,N,TIME,FROM,TO,FROM,TO,..     N cards of a round: the TOs in the order in which they take one, the FROMs in the
#                                         order in which they give one back, TIME later, first turn of the round first
#     input,NAME,DATE,..,every,E,GAP      an input, with dates or without, and what they repeat after
#     output,NAME                         an output
#
# A name that is said once, which may be another one misspelt, is told on the standard error; the net is printed all the same.

# Gives a transition its role, once.
function set_role(name, what) {
    if (name in role) refuse(FNR, name " is an " role[name] " already")
    add_transition(name)
    role[name] = what
}

function take_ring(  i, n, job, time, met) {
    for (i = 2; i <= cells; i += 2) {
        job[++n] = name_of(i, "job"); time[n] = number(i + 1, "time of " cell[i])
        if (job[n] in met) refuse(FNR, job[n] " stands twice in its ring: each turn has a name of its own")
        met[job[n]] = 1
    }
    if (!n) refuse(FNR, "there is no job")
    for (i = 1; i <= n; i++) add_place("ring", job[i], job[i % n + 1], time[i], i == n)
}

function take_wait(  i, text) {
    add_place("wait", name_of(2, "start"), name_of(3, "end"), number_or_0(4, "time"), number_or_0(5, "number of tokens"))
    for (i = 6; i <= cells; i++) text = text (i > 6 ? ", " : "") sprintf("%.0f", number(i, "ready date"))
    if (cells > 5 && cells - 5 != cell[5] + 0) refuse(FNR, cells - 5 " ready dates for " cell[5] + 0 " tokens")
    ready[place[places]] = text
}

function take_cards(  i, n, q, time, back, out) {
    q = 0; n = number(2, "number of cards"); time = number_or_0(3, "time")
    for (i = 4; i <= cells; i += 2) { back[q] = name_of(i, "start"); out[q++] = name_of(i + 1, "end of " cell[i]) }
    if (!q) refuse(FNR, "there is no start")
    for (i = 0; i < q; i++) add_place("cards", back[((i - n) % q + q) % q], out[i], time, int(n / q) + (i < n % q))
}

function take_input(  i, text, t) {
    t = name_of(2, "name"); set_role(t, "input")
    for (i = 3; i <= cells && cell[i] != "every"; i++) text = text (i > 3 ? ", " : "") sprintf("%.0f", number(i, "date"))
    if (i == 3 && cells > 2) refuse(FNR, "there is no date")
    if (i < cells - 2) refuse(FNR, "more than two numbers behind every")
    if (i > 3) list[t] = "dates = [" text "]\n"
    if (i <= cells) list[t] = list[t] sprintf("every = %.0f\ngap = %.0f\n", number(i + 1, "number behind every"), number(i + 2, "gap"))
}

# Tells each transition that one place joins and that has no role, or that has a role and no place.
function tell_lone(  i, t, times) {
    for (t in role) times[t]++
    for (i = 1; i <= places; i++) { times[from[place[i]]]++; times[to[place[i]]]++ }
    for (i = 1; i <= transitions; i++) if (times[transition[i]] == 1) print transition[i] " is named once: is it another name?" | "cat 1>&2"
}

!is_row($0) { next }
cell[1] == "ring" { take_ring(); next }
cell[1] == "wait" { take_wait(); next }
cell[1] == "cards" { take_cards(); next }
cell[1] == "input" { take_input(); next }
cell[1] == "output" && cells == 2 { set_role(name_of(2, "name"), "output"); next }
{ refuse(FNR, "'" cell[1] "' begins none of the rows ring, wait, cards, input and output NAME") }
END {
    if (!transitions) refuse(0, "there is no row")
    tell_lone()
    print_net()
}
