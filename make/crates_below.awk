# Prints crates and all that they depend on in this repository, one on each line. With KIT=1 it prints the libraries of the kit that these name instead.
# Usage: awk -v CRATES="NAME.." [-v KIT=1] -f crates_below.awk crates.txt
function visit(name,   below, count, i) {
    if (seen[name]++) {
        return
    }
    if ((name in uses) == !KIT) {
        print name
    }
    count = split(uses[name], below, " ")
    for (i = 1; i <= count; i += 1) {
        visit(below[i])
    }
}
/^[a-z]/ {
    line = $0
    sub(/^[^:]*:/, "", line)
    name = $1
    sub(/:.*/, "", name)
    uses[name] = line
}
END {
    count = split(CRATES, wanted, " ")
    for (i = 1; i <= count; i += 1) {
        visit(wanted[i])
    }
}
