# The must-fail mistakes of one crate, and what each of them moves. Read by .ci/edits, which hands over, twice (pass=1, pass=2), the
# crate's sources in the layout of 'rt fmt' and then its must-fail/*.edit.
#
# An .edit file holds mistakes, each of the lines
#     # NAME: what is wrong
#     # at: PLACE DECLARATION
#     file: FILE      and, for each change, old: TEXT and new: TEXT
# The first two are comments to rt.
#
# A function's proof uses its own body and the contracts of what it calls. So a mistake in a body moves that function's proof
# and nothing else. Any other change moves all that mentions what was changed, at one remove or several: definitions, laws, the
# functions whose contract, attributes or proof do, and those that call one whose contract does. Names are compared without their
# module, and names bound in a term count, too, so more counts as moved than is.
#
# A function's proof is proofs/F/Proof.antt, or Invariants.antt and Answers.antt there, or is found by search, without a file. F of
# a method of 'impl TRAIT<WITH> for TYPE' is TYPETRAITWITH/METHOD. Its contract is the trait's, and moves with it, and what a 'ghost'
# line of the 'impl' says.
#
# Printed, with tabs: 'mistake' LABEL NAME PLACE DECLARATION, 'moves' LABEL WHAT, and 'fault' LABEL WHY. WHAT is a function by the
# folder of its proof, FILE#DECLARATION, or * for all there is.

function relative(path) { sub(/^crates\/[^\/]*\//, "", path); return path }

function path_of(file) { # src/a/b.rt is the module a/b; lib.rt and main.rt are the crate itself
    sub(/^src\//, "", file); sub(/\.rt$/, "", file)
    return file == "lib" || file == "main" ? "" : file "/"
}

function capital(name) { return toupper(substr(name, 1, 1)) substr(name, 2) }

function fault(label, why) { print "fault\t" label "\t" why }

# the words of a line of antt, and of code
function words(line, list) {
    sub(/(^| )--( .*)?$/, "", line)
    gsub(/[^A-Za-z0-9_'\200-\377-]+/, " ", line)
    return split(line, list, " ")
}

# ---- the sources

function mention(user, line,   list, n, i, name) { # a law, a definition, or a function by its contract or proof
    n = words(line, list)
    for (i = 1; i <= n; i++) {
        name = list[i]
        if ((FILENAME, name) in alias) name = alias[FILENAME, name]
        if (!((user, name) in mentions)) { mentions[user, name] = 1; users[name] = users[name] " " user }
    }
}

# what a function's contract names
function promise(fn, line,   list, n, i) {
    mention(fn, line)
    n = words(line, list)
    for (i = 1; i <= n; i++) cited[fn, list[i]] = 1
}

# what the body of a function, or the value of a constant, names
function calls_of(user, line,   list, n, i) {
    gsub(/[^A-Za-z0-9_]+/, " ", line)
    n = split(line, list, " ")
    for (i = 1; i <= n; i++) if (!((user, list[i]) in calls)) {
        calls[user, list[i]] = 1
        if (user ~ /^const /) constants[list[i]] = constants[list[i]] substr(user, 6)
        else callers[list[i]] = callers[list[i]] " " user
    }
}

function open_item(name) {
    item = rel "#" name
    if (!(item in name_of)) { name_of[item] = name; file_of[item] = rel; items[++item_count] = item }
}

FNR == 1 {
    rel = relative(FILENAME)
    kind = rel ~ /^must-fail\// ? "edit" : rel ~ /\.rt$/ ? "code" : rel ~ /^proofs\/.*\/(Answers|Invariants|Proof)\.antt$/ ? "proof" : "antt"
    type = ""; trait = ""; gives = ""; fn = ""; part = ""; constant = ""; item = ""; base = 0; sections = 0; data = 0
    label = rel; sub(/^must-fail\//, "", label); sub(/\.edit$/, "", label)
    mistake = 0; file = ""; old = ""; attributes = ""
}

# where each type is declared: a method's proof stands by its type's file
pass == 1 && kind == "code" && match($0, /^(pub[^ ]* )?(struct|enum) [A-Za-z0-9_]+/) {
    split(substr($0, RSTART, RLENGTH), part_of, /(struct|enum) /)
    home[part_of[2]] = path_of(rel)
}
# names that a file imports under another name
pass == 1 && /^use .* as / {
    line = $0
    while (match(line, /[A-Za-z0-9_'\200-\377-]+ as [A-Za-z0-9_'\200-\377-]+/)) {
        split(substr(line, RSTART, RLENGTH), part_of, " as ")
        alias[FILENAME, part_of[2]] = part_of[1]
        line = substr(line, RSTART + RLENGTH)
    }
}
pass == 1 { next }

kind != "edit" { text[rel, FNR] = $0; last[rel] = FNR }

kind == "code" {
    line = $0; sub(/\/\/.*/, "", line); sub(/ +$/, "", line)
    if (line ~ /^}/) type = trait = gives = ""
    if (trait && !fn && line ~ /^ *ghost /) gives = gives " " line
    if (line ~ /^(pub )?trait /) { type = $0; sub(/^(pub )?trait /, "", type); sub(/[^A-Za-z0-9_].*/, "", type); home[type] = path_of(rel) }
    if (line ~ /^impl[ <]/) {
        trait = line ~ / for / ? $2 : ""
        type = trait ? $4 : $2
        sub(/<.*/, "", type)
        if (trait) {
            with = trait ~ /</ ? trait : ""
            sub(/^[^<]*</, "", with); sub(/>.*/, "", with)
            sub(/<.*/, "", trait); sub(/.*::/, "", trait)
            type = capital(type) trait capital(with); home[type] = path_of(rel)
        }
    }
    if (line ~ /^ *(pub(\([a-z]+\))? )?(extern "C" )?fn /) {
        match(line, /fn [A-Za-z0-9_]+/)
        bare = substr(line, RSTART + 3, RLENGTH - 3)
        fn = (type ? home[type] type "/" : path_of(rel)) bare
        bare_of[fn] = bare; file_of[fn] = rel; functions[++function_count] = fn
        if (trait) impls[home[trait] trait "/" bare] = impls[home[trait] trait "/" bare] " " fn
        mention(fn, attributes); attributes = ""
        promise(fn, gives)
        match(line, /^ */); indent = RLENGTH
        part = "contract"
    } else if (!fn && match(line, /^ *(pub(\([a-z]+\))? )?const [A-Z0-9_]+/)) {
        constant = substr(line, RSTART, RLENGTH); sub(/.* /, "", constant)
    } else if (!fn && $0 ~ /^(ghost )?use /) {
        owner[rel, FNR] = "use"; thing[rel, FNR] = rel
    } else if (!fn && line ~ /^ *#\[/) {
        attributes = line
    } else if (!fn && $0 ~ /^ *\/\//) {
        owner[rel, FNR] = "comment"; thing[rel, FNR] = rel
    }
    if (constant) {
        owner[rel, FNR] = "const"; thing[rel, FNR] = constant
        calls_of("const " constant, line)
        if (line ~ /;$/) constant = ""
    }
    if (fn) {
        owner[rel, FNR] = part; thing[rel, FNR] = fn
        if (part == "contract" && line ~ /^ *(requires|ensures) /) promise(fn, line)
        if (part == "body") calls_of(fn, line)
        line = $0; sub(/\/\/.*/, "", line); sub(/ +$/, "", line)
        match(line, /^ */)
        if (part == "contract" && (line ~ /;$/ || line ~ /\{}$/ && line !~ /^ *(requires|ensures) /)) fn = ""
        else if (part == "contract" && line ~ /\{$/ && line !~ /^ *(requires|ensures) /) part = "body"
        else if (part == "body" && RLENGTH == indent && line ~ /^ *}$/) { fn = ""; part = "" }
    }
}

kind == "proof" {
    fn = rel; sub(/^proofs\//, "", fn); sub(/\/[A-Za-z]*\.antt$/, "", fn)
    if ($0 !~ /^use /) mention(fn, $0)
}

kind == "antt" && !/^use / && !/^ *--/ && !/^ *$/ {
    match($0, /^ */); indent = RLENGTH
    while (sections > 0 && indent < section_base[sections]) { sections--; item = "" }
    base = sections > 0 ? section_base[sections] : 0
    if (indent == base && $0 ~ /^ *module _ /) {
        sections++
        section_base[sections] = base + 2
        section_line[sections] = (sections > 1 ? section_line[sections - 1] " " : "") $0
        item = ""
    } else {
        if (indent == base) {
            line = $0
            data = line ~ /^ *(pub )?data /
            while (sub(/^ *(pub|abbrev|unfoldable|record|data) /, "", line)) {}
            sub(/^ */, "", line)
            if (line !~ /^(unfolding |[})\]])/) {
                match(line, /^[^ :(){}]+/)
                open_item(substr(line, 1, RLENGTH))
                if ($0 ~ /^ *((abbrev|unfoldable) )*pub /) public[item] = 1
                if (sections > 0) mention(item, section_line[sections])
            }
        } else if (data && match($0, /^ +[^ :(){}]+ :/)) {
            # a constructor is another name of its type
            line = substr($0, 1, RLENGTH - 2); sub(/^ +/, "", line)
            also[item] = also[item] " " line
        }
        if (item) { mention(item, $0); owner[rel, FNR] = "item"; thing[rel, FNR] = item }
    }
}

# ---- the mistakes

kind == "edit" && /^ *$/ { next }
kind == "edit" && /^# at: / { if (mistake) { place[mistake] = $3; decl[mistake] = $4 } ; next }
kind == "edit" && /^file: / { file = substr($0, 7); next }
kind == "edit" && /^old: / { old = substr($0, 6); next }
kind == "edit" && /^new:/ {
    if (!mistake || file == "" || old == "") { fault(label, "line " FNR ": a 'new:' without its name, 'file:' and 'old:'"); next }
    change_count++
    change_of[change_count] = mistake; change_file[change_count] = file; change_old[change_count] = old
    changes[mistake]++
    old = ""
    next
}
kind == "edit" && /^# [a-z0-9_]+: ./ {
    mistake = ++mistake_count
    name[mistake] = $2; sub(/:$/, "", name[mistake])
    label_of[mistake] = label
    file = ""; old = ""
    next
}
kind == "edit" { fault(label, "line " FNR " means nothing") }

# ---- what a mistake moves

function move(what) { if (!(what in moved)) { moved[what] = 1; queue[++queued] = what } }

function move_all(list,   one, n, i) { n = split(list, one, " "); for (i = 1; i <= n; i++) move(one[i]) }

# what mentions a name of this item: in its own file alone where it is not 'pub'; and no definition mentions a law
function move_users(item, name,   one, n, i) {
    n = split(users[name], one, " ")
    for (i = 1; i <= n; i++) {
        if (!(item in public) && file_of[one[i]] != file_of[item]) continue
        if (file_of[item] ~ /^proofs\// && file_of[one[i]] ~ /^specs\//) continue
        move(one[i])
    }
}

# a function whose contract says something else: its proof, and those of its callers
function move_contract(f,   one, n, i) {
    if (f in contract_moved) return
    contract_moved[f] = 1
    move(f); move_all(callers[bare_of[f]])
    n = split(impls[f], one, " ")
    for (i = 1; i <= n; i++) move_contract(one[i])
}

# a constant: the functions whose bodies name it, and the constants made of it
function move_constant(name,   one, n, i) {
    if (name in constant_moved) return
    constant_moved[name] = 1
    move_all(callers[name])
    n = split(constants[name], one, " ")
    for (i = 1; i <= n; i++) move_constant(one[i])
}

# the line that a change changes
function line_of(c,   r, l) {
    r = change_file[c]
    for (l = 1; l <= last[r]; l++) if (index(text[r, l], change_old[c])) return l
    return 0
}

function begin_with(m, c,   r, l, o, t, f) {
    r = change_file[c]; l = line_of(c); o = owner[r, l]; t = thing[r, l]
    if (!l) { fault(label_of[m], name[m] ": an old text of it is not in " r); return }
    if (o == "body" || o == "contract") stands[m, t] = 1
    if (o == "body") { move(t); return }
    is_body[m] = 0
    if (o == "contract") move_contract(t)
    else if (o == "const") move_constant(t)
    else if (o == "item") move(t)
    else if (o == "use" || o == "comment") { # what a file's contracts mean; what stands beside its functions
        for (f = 1; f <= function_count; f++) if (file_of[functions[f]] == t) { if (o == "use") move_contract(functions[f]); else move(functions[f]) }
    } else whole[m] = 1
}

function close_over(m,   c, done, t, n, i, list, f) {
    split("", moved); split("", queue); split("", contract_moved); split("", constant_moved); queued = 0; whole[m] = 0; is_body[m] = 1
    for (c = 1; c <= change_count; c++) if (change_of[c] == m) begin_with(m, c)
    if (is_body[m]) return
    for (done = 1; done <= queued; done++) {
        t = queue[done]
        if (!(t in name_of)) continue
        n = split(name_of[t] also[t], list, " ")
        for (i = 1; i <= n; i++) {
            move_users(t, list[i])
            if (t ~ /^specs\//) for (f = 1; f <= function_count; f++) if ((functions[f], list[i]) in cited) move_contract(functions[f])
        }
    }
}

# the places that a mistake names: functions, or a law
function places_of(m, list,   n, f, i, p) {
    n = 0; p = place[m]
    for (f = 1; f <= function_count; f++)
        if (functions[f] == p || substr(functions[f], length(functions[f]) - length(p)) == "/" p) list[++n] = functions[f]
    for (i = 1; i <= item_count; i++)
        if (items[i] == "proofs/" p ".antt#" decl[m]) list[++n] = items[i]
    return n
}

END {
    for (m = 1; m <= mistake_count; m++) {
        if (!changes[m]) fault(label_of[m], name[m] ": it changes nothing")
        if (place[m] == "" || decl[m] == "") { fault(label_of[m], name[m] ": it has no line 'at: PLACE DECLARATION'"); continue }
        close_over(m)
        count = places_of(m, here)
        if (count != 1) fault(label_of[m], name[m] ": its place, " place[m] ", " decl[m] ", is " (count ? "more than one" : "nowhere"))
        if (is_body[m]) for (i = 1; i <= count; i++) if (!((m, here[i]) in stands)) fault(label_of[m], name[m] ": it stands in another function than its place, " place[m])
        for (k = 1; k <= mistake_count; k++) if (k != m && label_of[k] == label_of[m]) {
            if (name[k] == name[m]) fault(label_of[m], name[m] ": two mistakes have this name")
            for (f = 1; f <= function_count; f++) if (((m, functions[f]) in stands) && ((k, functions[f]) in stands)) fault(label_of[m], name[m] " and " name[k] " stand in one function, " functions[f])
            count = places_of(k, there)
            for (i = 1; i <= count; i++) {
                if (whole[m] || (there[i] in moved)) fault(label_of[m], name[m] " moves the place of " name[k] ", " there[i])
            }
        }
        print "mistake\t" label_of[m] "\t" name[m] "\t" place[m] "\t" decl[m]
        for (t in moved) print "moves\t" label_of[m] "\t" t
        if (whole[m]) print "moves\t" label_of[m] "\t*"
    }
}
