# late.awk: the rows of a due file that a list of dates does not keep. It reads the rows of rows.awk, and then the due file.

NR == FNR { at[$1, $2] = $3; next }
$2 == "number" { next }
!(($1, $2) in at) { print $0 " is not in the list"; next }
at[$1, $2] == "never" || at[$1, $2] + 0 > $3 + 0 { print $0 " comes at " at[$1, $2] }
