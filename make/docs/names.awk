# Prints the names of several words on pages that are in no crate. Names of MySQL are left out: they are in docs/MYSQL.md and in the pages of examples/, or
# begin with MDL_ or enum_.
# Usage: awk -F '\t' -f names.awk NAMES WORDS    each line of NAMES is a crate and a name
NR == FNR {
    split($0, pair, " ")
    has[pair[2]]
    next
}
$4 ~ /\// || $1 ~ /MYSQL|^examples/ || $4 ~ /^(MDL_|enum_|mdl_[a-z_]*$)/ {
    next
}
$4 ~ /^[A-Za-z_]+(::[A-Za-z_]+)*$/ && $4 ~ /[a-z]_[a-z]|::|[a-z][A-Z]/ {
    parts = split($4, part, /[^A-Za-z0-9_]+/)
    for (i = 1; i <= parts; i += 1) {
        if (part[i] != "" && !(part[i] in has)) {
            print $1 ": there is nothing named " part[i]
        }
    }
}
