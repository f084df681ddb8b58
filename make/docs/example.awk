# Prints the section at the head of a library crate that shows its example: the lines of the example's file, without what makes them a test if they are one.
# Of several tests each is a block, and leaves out the imports that only other blocks name. The comment above a later one introduces it.
# Usage: awk -f example.awk crates/mdl_space_trials/src/examples/NAME.rt

# Prints a line of the section.
function put(line) {
    print line == "" ? "//!" : "//! " line
}

# Whether a block has this name.
function has(block, name) {
    return block ~ ("(^|[^A-Za-z0-9_])" name "([^A-Za-z0-9_]|$)")
}

# Prints an import for a block, without the names that only other blocks have.
function put_import(line, block,    parts, names, count, at, kept, left) {
    if (!match(line, /\{.*\}/)) {
        put(line)
        return
    }
    count = split(substr(line, RSTART + 1, RLENGTH - 2), names, ", ")
    for (at = 1; at <= count; at += 1) {
        if (has(block, names[at]) || !has(all, names[at])) {
            kept = kept (left++ ? ", " : "") names[at]
        }
    }
    if (left) {
        put(substr(line, 1, RSTART - 1) (left > 1 ? "{" kept "}" : kept) substr(line, RSTART + RLENGTH))
    }
}

BEGIN {
    put("# Example")
    put("")
    put("```")
}
/^\/\/!/ || $0 == "use std::test::Fail;" || $0 == "    Ok(())" {
    next
}
$0 == "#[test]" {
    getline
    blocks += 1
    introductions[blocks] = introduction
    body = 1
    next
}
body && $0 == "}" {
    body = 0
    introduction = ""
    next
}
body {
    sub(/^    /, "")
    lines[blocks] = lines[blocks] $0 "\n"
    all = all $0 "\n"
    next
}
blocks {
    introduction = /^\/\/ / ? introduction substr($0, 4) "\n" : ""
    next
}
/^use / {
    imports[++count] = $0
}
{
    head[++heads] = $0
}
END {
    for (at = 1; at <= heads; at += 1) {
        if (head[at] ~ /^use /) {
            put_import(head[at], lines[1])
        } else {
            put(head[at])
        }
    }
    for (block = 1; block <= blocks; block += 1) {
        if (block > 1) {
            sub(/\.\n$/, ":\n", introductions[block])
            put("")
            printf "%s", introductions[block] == "" ? "" : "//! " introductions[block] "//!\n"
            put("```")
            for (at = 1; at <= count; at += 1) {
                put_import(imports[at], lines[block])
            }
            put("")
        }
        length_of = split(lines[block], shown, "\n")
        for (at = 1; at < length_of; at += 1) {
            put(shown[at])
        }
        put("```")
    }
    if (!blocks) {
        put("```")
    }
}
