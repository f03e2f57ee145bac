# A line: table, port, mode four, mode three, mode two, mode one. Writes one line for each judgement, `FAIL` with the table where the judgement
# is that the run fails; the tables on which one of modes three to one disagrees go to the file `differ`, with the port's answer
# and those modes. Mode one counts no openings, so they are left out of its comparison.
function bare(answer,   f) { split(answer, f, " "); return f[1] == "0" ? f[1] " " f[3] " " f[4] : answer }
NF != 6 { print "FAIL a line of " NF " answers: a program ended early"; next }
{ print "table" }
$2 !~ /^[07] / { print "FAIL the port refuses a good table: " $2 " on " $1 }
$2 ~ /^7 / { print "refused" }
$3 == $2 { print "four equal" }
$3 != $2 { print "FAIL mode four says " $3 " the port " $2 " on " $1 }
$6 == "panic" { print "panic" }
{
    three = $4 == $2; two = $5 == $2; one = bare($6) == bare($2)
    print "three " (three ? "equal" : "differs") "\ntwo " (two ? "equal" : "differs") "\none " (one ? "equal" : "differs")
    if (!(three && two && one)) print $1 "\t" $2 "\t" (three ? "" : "three ") (two ? "" : "two ") (one ? "" : "one") >differ
}
