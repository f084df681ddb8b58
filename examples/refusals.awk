# Copies the refused lines from the table of docs/LANGUAGE.md, whose rows have the words of the command line, a line and its refusal between
# back quotes. Of each it writes the line and the words (.args), as the kit expects its cases, and prints the case's name and its refusal.
# Usage: awk -v FOLDER=where -f refusals.awk PAGE.md
!/^\|/ {
    inside = 0
}
inside && /`/ {
    split($0, part, "`")
    name = "refused" ++count
    words = part[2]
    gsub(/ /, "\n", words)
    print words > (FOLDER "/" name ".args")
    print part[4] > (FOLDER "/" name)
    print name " line 1: " part[6]
}
/^\| script \| line \| refused as \|/ {
    inside = 1
}
