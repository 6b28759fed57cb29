# greatest.awk: puts greatest times into a net, for timetables of period A (-v A=..). It reads the net, as teg migrate
# prints it, and then a table with a row for each: FROM,TO,TOKENS,GREATEST, where TOKENS are on the way from FROM to TO. A
# greatest time is a place back, with one token and the time A (TOKENS + 1) - GREATEST, or where that is below 0 with j
# tokens and A (TOKENS + j) - GREATEST.

NR == FNR { take_net($0); text = text $0 "\n"; next }
!is_row($0) { next }
{
    start = transition_of(1, "start"); end = transition_of(2, "end"); there = number_or_0(3, "number of tokens"); most = number(4, "greatest time")
    if (A !~ /^[0-9]+$/ || A == 0) refuse(0, "no period: -v A=NUMBER")
    j = A * (there + 1) < most ? int((most + A - 1) / A) - there : 1
    rows = rows sprintf("\n[[place]]\nname = \"most_%d\"\nfrom = \"%s\"\nto = \"%s\"\nhold = %.0f\ntokens = %.0f\n", FNR, end, start, A * (there + j) - most, j)
}
END { printf "%s%s", text, rows }
