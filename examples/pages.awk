# Copies the examples from a page: indented lines with a script of statements on the left and its answers on the right.
# Of each it writes the script, its answers (.stdout) and the words of the command line (.args), as the kit expects its cases.
# Usage: awk -v FOLDER=where -f pages.awk PAGE.md
function add(line, ending) {
    print line > (FOLDER "/" page count ending)
}
BEGIN {
    page = ARGV[1]
    sub(/.*\//, "", page)
}
{
    indent = match($0, /[^ ]/) - 1
    sub(/^ +/, "")
}
# A line far to the right is only an answer. Only runs on threads print what is defined at the end.
indent > 20 {
    if (/^FINAL/) {
        words = FOLDER "/" page count ".args"
        close(words)
        print "run" > words
    }
    add($0, ".stdout")
    next
}
# A line of a script, with or without an answer beside it. The first one begins an example.
indent >= 4 && /^[0-9]+ [A-Z]/ {
    if (!inside) {
        count += 1
        inside = 1
        add("replay", ".args")
    }
    parts = split($0, part, /   +/)
    add(part[1], "")
    if (parts > 1) {
        add(part[2], ".stdout")
    }
    next
}
{ inside = 0 }
