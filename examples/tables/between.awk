# between.awk: of two events in the answer of teg list, the most things that have come from the one and wait for the other,
# when one is taken, that one included; and the longest time from the one to the other. It asks for
#
#     -v one=NAME -v other=NAME  the two events,
#     -v way=TIME                the time from the one until a thing is there, or 0, and
#     -v under_way=M             the tokens on the way, or 0: they are there at 0, and firing k takes what firing k - M sent.
#
# What never comes is not counted, and what is never taken stays.

# The column of a transition.
function column(name,  i) {
    for (i = 2; i <= NF; i++) if ($i == name) return i
    refuse(0, "the list has no transition '" name "'")
}

BEGIN { FS = " "; longest = 0 }
NR == 2 { start = column(one); end = column(other); things = under_way + 0 }
NR > 2 { sent[$1] = $start; taken[$1] = $end; rows = $1; if ($start != "never") things = $1 + under_way }
END {
    if (refused) exit 1
    if (!end) refuse(0, "no answer of teg list")
    for (k = 1; k <= rows && k <= things; k++) {
        while (there < things && (there < under_way || taken[k] == "never" || sent[there + 1 - under_way] + way <= taken[k] + 0)) there++
        if (there - k + 1 > most) most = there - k + 1
        if (k <= under_way || longest == "never") continue
        if (taken[k] == "never") longest = "never"
        else if (taken[k] - sent[k - under_way] > longest) longest = taken[k] - sent[k - under_way]
    }
    print "most there " most + 0
    print "longest " longest
}
