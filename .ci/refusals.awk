# What a log of 'rt check' refuses. Read by .ci/edits. A line each, with tabs:
#     WHERE DECLARATION HOW
# WHERE is a function, by the folder that its proof has or would have below proofs/, or a file of laws, proofs/FILE. HOW is
#     fact       what was to be shown is not so, or is not shown by the proof that is there
#     search     the goal has no proof of its own, and the search found none
#     unfit      the proof names what is not there
#     unread     it is no proof that was refused: WHERE is the file or '-', DECLARATION what was said
#     hidden     a function that calls one that is not proved, and was perhaps not looked at for that
# What is refused only because something that it cites was refused is left out.

function where_of(file) {
    if (file !~ /^proofs\/.+\/(Answers|Invariants|Proof)\.antt$/) return file
    sub(/^proofs\//, "", file); sub(/\/[A-Za-z]*\.antt$/, "", file)
    return file
}

{ sub(/^\.\//, "") }

match($0, /^[^ :]+:[0-9]+:[0-9]+: error/) {
    file = $0; sub(/:.*/, "", file)
    said = substr($0, RSTART + RLENGTH)
    if (file ~ /^proofs\// && match(said, /^: `[^`]*`: /)) {
        declaration = substr(said, 4, RLENGTH - 6)
        unfit = said ~ /that can be named from here|has no field|is not in scope|has no `/
        print where_of(file) "\t" declaration "\t" (unfit ? "unfit" : "fact")
    } else if (said !~ /which was (rejected|not admitted)/) print file "\t" substr(said, 1, 100) "\tunread"
    next
}

# the goals that are open, and then their function
/^note: [^ ]+:[0-9]+:[0-9]+: .*\(`[^`]+`\)/ {
    goal = $0; sub(/.*\(`/, "", goal); sub(/`\).*/, "", goal)
    open[++opened] = goal
    next
}

/^fn [^ ]+: / {
    name = $2; sub(/:$/, "", name); sub(/^[^:]*::/, "", name); gsub(/::/, "/", name)
    said = substr($0, length($1) + length($2) + 3)
    if (said !~ /^proved/) {
        for (i = 1; i <= opened; i++) print name "\t" open[i] "\tsearch"
        if (said ~ /it calls `/) print name "\t-\thidden"
        if (sub(/.*did not prove /, "", said)) while (match(said, /`[^`]+`/)) {
            goal = substr(said, RSTART + 1, RLENGTH - 2)
            for (i = 1; i <= opened && open[i] != goal; i++) { }
            if (i > opened) print name "\t" goal "\tsearch"
            said = substr(said, RSTART + RLENGTH)
        }
    }
    opened = 0
    next
}

/^error/ { print "-\t" substr($0, 1, 100) "\tunread" }
