# common.awk: what the scripts of this folder share; `run` puts it before each of them.
#
# A table has commas. Empty rows and rows that begin with # are passed over, and so are blanks around a cell, empty cells
# at the end of a row, a carriage return and a byte order mark. A row that cannot be read ends the script with status 1 and prints nothing
# but, on the standard error, what is wrong and the number of the row, as a spreadsheet counts rows.

BEGIN { FS = "," }
END { if (refused) exit 1 }

# Ends the script: tells what is wrong with row `at`, or with the whole where `at` is 0.
function refuse(at, what) {
    print (at ? "row " at ": " : "") what | "cat 1>&2"
    close("cat 1>&2")
    refused = 1
    exit 1
}

# Whether the line is a row; if so it has `cells` cells, `cell[1]` and so on.
function is_row(line,  i) {
    sub(/^\357\273\277/, "", line); sub(/\r$/, "", line)
    cells = line ~ /^#/ ? 0 : split(line, cell, ",")
    for (i = 1; i <= cells; i++) gsub(/^[ \t]+|[ \t]+$/, "", cell[i])
    while (cells && cell[cells] == "") cells--
    return cells > 0
}

# The cell i of the row, which says `what`, as a whole number.
function number(i, what) {
    if (i > cells || cell[i] == "") refuse(FNR, "there is no " what)
    if (cell[i] !~ /^[0-9]+$/ || length(cell[i]) > 15) refuse(FNR, what " '" cell[i] "' is no whole number of at most 15 digits")
    return cell[i] + 0
}

# The same, and 0 where the cell is empty.
function number_or_0(i, what) { return i > cells || cell[i] == "" ? 0 : number(i, what) }

# The cell i as a name that a net may have.
function name_of(i, what) {
    if (i > cells || cell[i] == "") refuse(FNR, "there is no " what)
    if (cell[i] ~ /[ \t"\\]/ || length(cell[i]) > 64) refuse(FNR, what " '" cell[i] "' has a blank, a quote or a backslash, or is too long")
    return cell[i]
}

# The cell i as the name of a transition of the net that take_net took.
function transition_of(i, what) {
    if (!(name_of(i, what) in is_transition)) refuse(FNR, "the net has no transition '" cell[i] "'")
    return cell[i]
}

# A net that a script makes: transitions in the order in which they are named first, and places.
function add_transition(name) {
    if (!(name in is_transition)) { is_transition[name] = 1; transition[++transitions] = name }
}

# Adds a place, named by its kind and its two ends (by its row where that is too long), and _2, _3, .. behind further ones.
function add_place(kind, start, end, time, there,  name, own, copy) {
    add_transition(start); add_transition(end)
    name = own = length(start end) < 40 ? kind "_" start "_" end : kind "_" FNR
    for (copy = 2; own in is_place; copy++) own = name "_" copy
    is_place[own] = 1
    place[++places] = own; from[own] = start; to[own] = end; hold[own] = time; tokens[own] = there
}

# Prints the net; `role`, `ready` and `list` have what a script said of roles, of ready dates and of input lists.
function print_net(  i, p, t) {
    for (i = 1; i <= transitions; i++) {
        t = transition[i]
        printf "%s[[transition]]\nname = \"%s\"\n", (i > 1 ? "\n" : ""), t
        if (t in role) printf "role = \"%s\"\n", role[t]
    }
    for (i = 1; i <= places; i++) {
        p = place[i]
        printf "\n[[place]]\nname = \"%s\"\nfrom = \"%s\"\nto = \"%s\"\n", p, from[p], to[p]
        if (hold[p]) printf "hold = %.0f\n", hold[p]
        if (tokens[p]) printf "tokens = %.0f\n", tokens[p]
        if (ready[p] != "") printf "ready = [%s]\n", ready[p]
    }
    for (i = 1; i <= transitions; i++) if (transition[i] in list) printf "\n[[input]]\ntransition = \"%s\"\n%s", transition[i], list[transition[i]]
}

# Takes a line of what `teg migrate` prints: the same lists, and of an input `dates`, `every` and `gap`.
function take_net(line,  at, key, p, t) {
    if (line == "") return
    if (line ~ /^\[\[/) { entry = line; split("", said); return }
    at = index(line, " = ")
    if (!at) refuse(0, "no net, as teg migrate prints one: " line)
    key = substr(line, 1, at - 1)
    said[key] = substr(line, at + 3)
    if (said[key] ~ /^["[]/) said[key] = substr(said[key], 2, length(said[key]) - 2)
    if (entry == "[[transition]]" && key == "name") add_transition(said[key])
    if (entry == "[[input]]" && key == "transition") {
        t = said[key]; dates[t] = said["dates"]; every[t] = said["every"]; gap[t] = said["gap"]
    }
    if (entry == "[[place]]" && key == "tokens") {
        p = said["name"]; place[++places] = p; is_place[p] = 1
        from[p] = said["from"]; to[p] = said["to"]; hold[p] = said["hold"] + 0; tokens[p] = said[key] + 0; ready[p] = said["ready"]
    }
}
