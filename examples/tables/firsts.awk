# firsts.awk: first departures of a timetable, from the answer of teg cycle on a net of one part. They fit every period that
# is no shorter than the cycle time. The earliest is at 0, or at N with -v plus=N, as where tokens are ready later.

BEGIN { FS = " " }
$1 == "cycle" { split($3, ratio, "/") }
$1 == "part" && $3 != "round" { parts++ }
$1 == "potential" {
    name[++n] = $2; value[n] = $3
    if (n == 1 || value[n] + 0 < least) least = value[n] + 0
}
END {
    if (parts != 1 || !n) refuse(0, "no potentials of one part: the answer tells " parts + 0 " parts")
    for (i = 1; i <= n; i++) printf "%s,%.0f\n", name[i], int((value[i] - least) / ratio[2]) + plus
}
