# rows.awk: the answer of teg list as rows, as a due file has them.

BEGIN { FS = " " }
NR == 2 { for (i = 2; i <= NF; i++) name[i] = $i }
NR > 2 { for (i = 2; i <= NF; i++) print name[i] "," $1 "," $i }
