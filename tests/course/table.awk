# table.awk CALLS ANSWERS DOCUMENT: is the table behind the document's line "Run: `CALLS`" that run? Its first column shows the calls
# and its third the answers, all of them in order, and each row has as many numbers as calls. `..` stands for digits left out, and
# "N times" before a line repeats it.

function fail(text) {
    if (!failed)
        print "row " rows ": " text
    failed = 1
}

# Holds what a cell shows to the stored lines behind place `at`; counts the lines and, of these, the numbers.
function compare(cell, stored, at,    part, times) {
    shown = numbers = 0
    while (match(cell, /([0-9]+ times )?`[^`]*`/)) {
        part = substr(cell, RSTART, RLENGTH)
        cell = substr(cell, 1, RSTART - 1) substr(cell, RSTART + RLENGTH)
        times = part ~ /^`/ ? 1 : part + 0
        gsub(/^[^`]*`|`$/, "", part)
        if (part !~ /^[0-9a-f]+(\.\.[0-9a-f]+)*$/ || (index(part, "..") && index(part, "..") <= 12))
            fail(part " does not say which line it is")
        if (part ~ /^[0-9][0-9]?$/)
            numbers += times
        gsub(/\.\./, "[0-9a-f]*", part)
        for (; times > 0; times--) {
            shown++
            if (stored[at + shown] !~ "^" part "$")
                fail("it shows " part ", and the run has " stored[at + shown])
        }
    }
    if (cell !~ /^[ ,]*$/)
        fail("beside its lines a cell says" cell)
}

FILENAME == ARGV[1] { calls[++call_count] = $0; next }
FILENAME == ARGV[2] { answers[++answer_count] = $0; next }
$0 == "Run: `" ARGV[1] "`" { behind = 1; next }
/^## / { behind = 0 }
!behind || !/^\|/ { next }
{ rows++ }
rows == 1 && $0 != "| call | what it says | prints | what that means |" { fail("it is not the head of a run's table") }
rows <= 2 { next }
{
    if (split($0, cells, "|") != 6)
        fail("it has not four columns")
    compare(cells[2], calls, call_at)
    call_at += shown
    asked = shown
    compare(cells[4], answers, answer_at)
    answer_at += shown
    if (numbers != asked)
        fail("it has " asked " calls and " numbers " numbers")
}

END {
    if (call_at != call_count || answer_at != answer_count || !call_count)
        fail("the table ends after call " (call_at + 0) " of " (call_count + 0) ", line " (answer_at + 0) " of " (answer_count + 0))
    exit failed
}
