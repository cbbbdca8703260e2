# The public functions of sources in the layout of 'rt fmt', for .ci/claims, which says what is printed of each. Every file is
# read twice: for the types and traits that it declares, then for its functions. The methods of an 'impl TRAIT for TYPE' are public;
# what they promise is in the trait, or in the 'impl' as 'ghost .._gives = { λ .. r. r ≡ DEFINITION }'.

function capital(name) { return toupper(substr(name, 1, 1)) substr(name, 2) }

function fault(why) { faults = faults (faults ? "; " : "") why }

# What the 'ensures' equate, each 'NAME { LEFT ≡ DEFINITION }', of which only a single one may lack its name: into said[], by
# which of them the result is equated ("") or what lies behind a parameter at exit; into lends, whether it is what lies behind
# the result, a '&'; into clauses and definitions, how many there are and their text. A trait's may bound what another equates, as
# its users know no more of it.
function promise(says, n,   i, left, definition, at) {
    split("", said)
    definitions = ""
    lends = 0
    clauses = n
    for (i = 1; i <= n; i++) {
        definition = says[i + 1]
        sub(/ *\{ *}? *$/, "", definition)
        sub(/ *} *$/, "", definition)
        at = index(definition, " ≡ ")
        left = substr(definition, 1, at - 1)
        definition = "`" (at ? substr(definition, at + length(" ≡ ")) : definition) "`"
        if (left == "result") said[""] = i
        else if (left == "result.now" && says[1] ~ /-> &/ && says[1] !~ /-> &('[a-z]+ )?mut /) { said[""] = i; lends = 1 }
        else if (left ~ /^[a-z_0-9]+\.new$/) {
            sub(/\.new$/, "", left)
            said[left] = i
            definition = "behind `" left "`: " definition
        } else if (at || !trait) fault("an 'ensures' equates neither the result nor what lies behind a '&mut'")
        definitions = definitions (i > 1 ? "; " : "") definition
    }
    gsub(/\|/, "\\|", definitions)
}

# What p and q, two proofs of the promise, have of the result (""), or of what lies behind a parameter: the promise is
# (1st, (2nd, .. last)).
function parts(of,   i, at) {
    if (!(of in said)) fault("no 'ensures' says what " (of == "" ? "it answers" : "lies behind '" of "'"))
    for (i = 1; i < said[of]; i++) at = at ".1"
    if (i < clauses) at = at ".0"
    return "p" at " q" at
}

# That two outcomes are equal, from p and q, that each keeps the promise: (the result, a tuple over the parameters).
function proof(signature,   params, param, i, lent, lasts) {
    sub(/^[^(]*\( */, "", signature)
    # commas and parentheses within a type are none of the list's
    while (gsub(/\([^()]*\)|\[[^][]*\]|<[^<>]*>/, "", signature)) { }
    lasts = "refl"
    params = signature
    sub(/,? *\).*/, "", params)
    for (i = split(params, param, /, */); i >= 1; i--) {
        lent = param[i]
        if (lent ~ /&('[a-z]+ )?mut( |$)/) {
            sub(/:.*/, "", lent)
            sub(/.* /, "", lent)
            lasts = "lent " parts(lent) " " (lasts == "refl" ? lasts : "(" lasts ")")
        } else if (lasts != "refl") lasts = "past (" lasts ")"
    }
    return "(" (signature ~ /->/ ? "same " parts("") : "refl") ", " lasts ")"
}

# What a promise is stated over where a function has a type parameter 'T: BOUND', of a bound that is copied: the type, its laws and
# that it is copied; and for a bound of the crate and each trait above it the ghost members and the table of functions. So a claim
# holds for every type and every 'impl'. Of these the kinds of the parameters take the first three.
function generics(head,   bound) {
    if (!match(head, /fn [A-Za-z0-9_]+<[A-Z][A-Za-z]*: [A-Za-z]+>/)) {
        if (head ~ /fn [A-Za-z0-9_]+<[A-Z]/) fault("its type parameters are not one with one bound")
        return 0
    }
    bound = substr(head, RSTART, RLENGTH)
    gsub(/.*: |>/, "", bound)
    if (bound != "Copy" && !((crate, bound) in above)) fault("its bound, " bound ", is no trait of its crate")
    return 3 + 2 * (1 + above[crate, bound])
}

# TypeName of a method; module_name, and crate_name of a function that has its module's name; with the crate where that is taken.
function claim(path, name,   of, text, words, n, i) {
    of = path
    sub(/\.$/, "", of)
    sub(/.*\./, "", of)
    if (of ~ /^[A-Z]/) {
        text = of
        n = split(name, words, "_")
        for (i = 1; i <= n; i++) text = text toupper(substr(words[i], 1, 1)) substr(words[i], 2)
        if (text in taken) text = toupper(substr(crate, 1, 1)) substr(crate, 2) text
    } else {
        text = of == "" ? name : (of == name ? crate : of) "_" name
        if (text in taken) text = crate "_" text
    }
    taken[text] = 1
    return text
}

function report(head,   says, n, name, path, called, text) {
    gsub(/ +/, " ", head)
    match(head, /fn [A-Za-z0-9_]+/)
    name = substr(head, RSTART + 3, RLENGTH - 3)
    if (trait) head = head ((crate, trait, name) in promised ? promised[crate, trait, name] : gives)
    faults = head ~ / requires / ? "it has a 'requires', and a public function may not" : ""
    gsub(/«|»/, "", head)
    n = split(head, says, / ensures ([a-z0-9_]+ )?\{ /) - 1
    promise(says, n)
    path = type ? home[crate, type] type "." : module
    called = (type ? type "." : module) name
    gsub(/\./, "::", called)
    text = proof(says[1])
    taking = generics(head)
    print crate "\t" called "\tRattle." crate ".proofs." path name "\t" claim(path, name) \
        "\t" (head ~ / extern "C" fn / ? "C" : trait ? "trait" : "Rattle") "\t" text "\t" (faults ? faults : "-") "\t" definitions "\t" taking "\t" lends
}

FNR == 1 {
    crate = module = FILENAME
    sub(/^crates\//, "", crate)
    sub(/\/.*/, "", crate)
    # src/a/b.rt is the module a.b; lib.rt and main.rt are the crate itself
    sub(/^crates\/[^\/]*\/src\//, "", module)
    sub(/\.rt$/, "", module)
    gsub(/\//, ".", module)
    module = module == "lib" || module == "main" ? "" : module "."
    type = trait = declared = ""
}
{ sub(/ *\/\/.*/, "") }
/^}/ { type = trait = declared = gives = "" }
pass == 1 {
    if (match($0, /^(pub[^ ]* )?(struct|enum) [A-Za-z0-9_]+/)) {
        split(substr($0, RSTART, RLENGTH), words, /(struct|enum) /)
        home[crate, words[2]] = module
    }
    if (match($0, /^pub trait [A-Za-z0-9_]+/)) {
        declared = substr($0, RSTART + 10, RLENGTH - 10)
        traits = $0
        sub(/[^:]*/, "", traits)
        above[crate, declared] = traits ~ /^:/ ? 1 + gsub(/ \+ /, "", traits) : 0
    }
    if (declared && /^ *fn /) { method = $2; sub(/[(<].*/, "", method) }
    if (declared && /^ *(requires|ensures) /) { sub(/^ */, " "); sub(/;$/, " "); promised[crate, declared, method] = promised[crate, declared, method] $0 }
    next
}
/^impl[ <]/ {
    trait = / for / ? $2 : ""
    type = trait ? $4 : $2
    sub(/<.*/, "", type)
    if (trait) {
        with = trait ~ /</ ? trait : ""
        sub(/^[^<]*</, "", with)
        sub(/>.*/, "", with)
        sub(/<.*/, "", trait)
        sub(/.*::/, "", trait)
        type = capital(type) trait capital(with)
        home[crate, type] = module
    }
}
trait && match($0, / r\. r ≡ /) {
    gives = substr($0, RSTART + RLENGTH)
    sub(/ *};$/, "", gives)
    gives = " ensures { result ≡ " gives " } "
}
# from the line of the name to the one where the body begins
/^ *pub ([a-z]+ |"C" )*fn / || trait && /^ *fn / { head = " " }
head != "" { head = head " " $0 }
head != "" && /\{}?$/ && !/^ *(requires|ensures) / {
    report(head)
    head = ""
}
