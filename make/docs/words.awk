# Prints the words that pages put between back quotes, one line for each: the page with the line number, the crate that they are about, the cell of the
# table that they are in (from 1, or 0 outside tables), and the words themselves, separated by tabs. The crate is that of the page's folder or of the
# heading. In a table it is the one that is alone in the row's first cell or, if that cell has none, in a row above.
# Usage: awk -f words.awk PAGE..
function crate_in(text) {
    return match(text, /mdl_[a-z_]*|mdlsim/) ? substr(text, RSTART, RLENGTH) : ""
}
FNR == 1 {
    home = split(FILENAME, folder, "/") == 3 && folder[1] == "crates" ? folder[2] : ""
    heading = home
}
/^#/ {
    heading = home == "" ? crate_in($0) : home
}
!/^\|/ {
    crate = heading
}
{
    cells = /^\|/ ? split($0, cell, /\|/) : 0
    if (cells == 0) {
        cell[1] = $0
    } else if (cell[2] ~ /^ `mdl[a-z_]*` $/) {
        crate = substr(cell[2], 3, length(cell[2]) - 4)
    }
    for (i = cells ? 2 : 1; i == 1 || i < cells; i += 1) {
        parts = split(cell[i], part, "`")
        for (j = 2; j <= parts; j += 2) {
            print FILENAME ":" FNR "\t" crate "\t" i - 1 "\t" part[j]
        }
    }
}
