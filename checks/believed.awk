# Which definitions each entry rests on. Read by checks/believed, which says what is printed. Files come in reading order: of each crate the
# code, then the specs, then the proofs; last crates/entries.txt. A definition is named CRATE.specs.FILE.NAME, or CRATE.proofs.., a type
# of the code CRATE::TYPE or CRATE::MODULE::TYPE, a function likewise.
#
# What a text rests on is read off its words: a word is the file's own definition, or an imported one, or a name of an imported module.
# Names that a definition gives to its parameters are no such words, and nor are fields, which come after a point, before ' = ' in a record
# that is made, and before ' : ' in one that is declared.

# 'Rattle.buffer.specs.Buffer' is buffer.specs.Buffer; types of the code are declared in it, with their variants beside them.
function module_of(path,    crate, rest, at) {
    sub(/^Rattle\./, "", path)
    at = index(path, ".")
    crate = substr(path, 1, at - 1); rest = substr(path, at + 1)
    if (rest !~ /^specs\.declared\./) return crate "." rest
    sub(/^specs\.declared\./, "", rest)
    sub(/\.TheVariants$/, "", rest)
    gsub(/\./, "::", rest)
    return crate "::" rest
}

# An imported name: NAME of the module, or the type itself where the module is one.
function member(module, name) { return index(module, "::") ? module : module "." name }

function import_line(line,    at, list, names, n, i, module, as) {
    sub(/;$/, "", line)
    if (here ~ /\.specs\./ && here !~ /\.specs\.Inner\./ && line ~ /\.specs\.Inner\./) fault(here " imports an inner module")
    if ((at = index(line, ".{")) > 0) {
        module = module_of(substr(line, 1, at - 1))
        list = substr(line, at + 2); sub(/}$/, "", list)
        n = split(list, names, / *, */)
        for (i = 1; i <= n; i++) {
            as = index(names[i], " as ")
            if (as) bring(substr(names[i], as + 4), member(module, substr(names[i], 1, as - 1)))
            else bring(names[i], member(module, names[i]))
        }
    } else if ((at = index(line, " as ")) > 0) alias[here, substr(line, at + 4)] = module_of(substr(line, 1, at - 1))
}

# A name of this file, with the parts of one that is written around its arguments, as ◌++◌.
function bring(name, target,    parts, n, i) {
    known[here, name] = target
    if (!index(name, "◌")) return
    n = split(name, parts, "◌")
    for (i = 1; i <= n; i++) if (parts[i] != "" && !((here, parts[i]) in known)) known[here, parts[i]] = target
}

function starts(name, keep_all) {
    now = name
    text[now] = ""; whole[now] = keep_all; place[now] = FILENAME; first_line[now] = FNR; last_line[now] = FNR
    order[++count] = now; home[now] = here
    comment[now] = pending; pending = 0
}

# Takes the parameters' names out of a type: '(t : Story)' is '( : Story)'.
function unbound(line) {
    gsub(/[({][^(){}:]* : /, "( : ", line)
    return line
}

FNR == 1 {
    now = ""; own = ""; pending = 0; in_contract = 0; in_type = 0
    here = FILENAME; sub(/\.(antt|rt)$/, "", here); sub(/^crates\//, "", here)
    language = FILENAME ~ /\.antt$/ ? "antt" : FILENAME ~ /\.rt$/ ? "rt" : "entries"
    split(here, part, "/"); crate = part[1]
    if (language == "antt") gsub(/\//, ".", here)
    if (language == "rt") { sub(/\/src/, "", here); sub(/\/(lib|main)$/, "", here); gsub(/\//, "::", here) }
}

# ---- definitions and theorems

language == "antt" && /^use / { import_line(substr($0, 5)); next }
language == "antt" && /^--/ { pending = ($0 ~ /^-- ----/) ? 0 : pending + 1; next }
language == "antt" && /^$/ { pending = 0; next }
language == "antt" && /^pub mod/ { next }
language == "antt" {
    line = $0
    sub(/(^|[ ])--( .*)?$/, "", line)
    if (line ~ /^[^ }]/) {
        head = line
        while (head ~ /^(abbrev|unfoldable|pub|record|data|ruleset) /) sub(/^[a-z]+ /, "", head)
        name = head; sub(/[ (].*/, "", name)
        if (name == own) { # a clause of the definition that stands above
            parameters = " "
            if (match(line, / =( |$)/)) {
                clause = substr(line, 1, RSTART - 1); sub(/^[^ ]+/, "", clause); gsub(/[(){}]/, " ", clause)
                m = split(clause, words, " ")
                for (i = 1; i <= m; i++) if (words[i] ~ /^[a-z]/) parameters = parameters words[i] " "
            }
            in_statement = 0
        } else if (line !~ /^unfolding /) { # the next one
            own = name; parameters = " "
            starts(here "." name, line ~ /^(pub )?(abbrev|unfoldable|record|data) / || line ~ /^pub (record|data) /)
            bring(name, now)
            in_statement = 1
        }
    }
    if (now == "") next
    last_line[now] = FNR
    if (line ~ /^unfolding /) { in_statement = 0; next } # what a proof may look into is no part of what it proves
    # Of a theorem only the statement counts, not the proof.
    if (in_statement || whole[now]) text[now] = text[now] "\n" parameters "\t" (in_statement ? unbound(line) : line)
    next
}

# ---- contracts and types of the code

language == "rt" && /^ghost use / { import_line(substr($0, 11)); next }
language == "rt" && /^use / {
    line = $0; sub(/^use /, "", line); sub(/;$/, "", line); sub(/^crate::/, crate "::", line)
    n = 1; names[1] = line; module = ""
    if ((at = index(line, "::{")) > 0) {
        module = substr(line, 1, at + 1)
        list = substr(line, at + 3); sub(/}$/, "", list)
        n = split(list, names, / *, */)
    }
    for (i = 1; i <= n; i++) {
        name = names[i]; sub(/.*::/, "", name)
        if (name ~ /^[A-Z]/) bring(name, module names[i])
    }
    next
}
language == "rt" && /^\/\// { pending++; next }
language == "rt" && /^$/ { pending = 0; next }
language == "rt" && /^(pub )?(struct|enum) / {
    name = $0; sub(/^(pub )?(struct|enum) /, "", name); sub(/[ ({;].*/, "", name)
    starts(here "::" name, 1); bring(name, now); in_type = 1
}
language == "rt" && /^#\[unsafe\(no_mangle\)\]/ { exported_next = 1; next }
language == "rt" && /^(pub )?(extern "C" )?fn / {
    name = $0; sub(/[<(].*/, "", name); sub(/.*fn /, "", name)
    starts(here "::" name, 1); in_contract = 1; is_function[now] = 1
    if (exported_next) { exports[now] = 1; exported_next = 0 }
}
language == "rt" && in_type { text[now] = text[now] "\n \t" $0; last_line[now] = FNR; if ($0 ~ /^}|;$/) in_type = 0; next }
language == "rt" && in_contract {
    if ($0 ~ /^{/ || ($0 ~ /^[^ ].*{$/)) { if ($0 !~ /^{/) text[now] = text[now] "\n \t" $0; in_contract = 0; next }
    text[now] = text[now] "\n \t" $0; last_line[now] = FNR
    next
}
language == "rt" { next }

# ---- entries

{ sub(/#.*/, ""); gsub(/[ \t]/, "") }
$0 != "" { entry[++entries] = $0; is_entry[$0] = 1 }

function fault(s) { print "believed: " s; faults++ }

# Whether a name is a definition, a theorem or a type of ours; the kit's own are not followed.
function ours(name) { return name in place }

# The definitions that NAME's text names, one to a line.
function uses(name,    lines, n, i, at, bound, line, words, m, j, word, head, rest, found, target, file) {
    if (name in used) return used[name]
    file = home[name]; found = ""
    n = split(text[name], lines, "\n")
    for (i = 2; i <= n; i++) {
        at = index(lines[i], "\t"); bound = substr(lines[i], 1, at - 1); line = substr(lines[i], at + 1)
        sub(/^ +(pub )?[a-z_0-9]+ : /, " ", line) # a field of a record
        gsub(/[(){},;<>&\[\]]|λ|⌜|⌝|«|»/, " ", line)
        m = split(line, words, " ")
        for (j = 1; j <= m; j++) {
            word = words[j]; target = ""
            head = word; sub(/\..*/, "", head)
            # A parameter, or a field of a record that is being made.
            if (head == "" || index(bound, " " head " ") || (words[j + 1] == "=" && word ~ /^[a-z]/)) continue
            if ((file, word) in known) target = known[file, word]
            else if (head != word && (file, head) in alias) {
                rest = substr(word, length(head) + 2); sub(/\..*/, "", rest)
                target = member(alias[file, head], rest)
            } else if ((file, head) in known) target = known[file, head]
            else { sub(/:$/, "", word); if ((file, word) in known) target = known[file, word] }
            if (target != "" && target != name && ours(target) && index(found, "\n" target "\n") == 0) found = found "\n" target "\n"
        }
    }
    return used[name] = found
}

# Marks in SEEN all that NAME rests on.
function follow(name, seen,    list, n, i, queue, last, next_one) {
    last = 0
    queue[++last] = name
    for (next_one = 1; next_one <= last; next_one++) {
        n = split(uses(queue[next_one]), list, "\n")
        for (i = 1; i <= n; i++) if (list[i] != "" && !(list[i] in seen)) { seen[list[i]] = 1; queue[++last] = list[i] }
    }
}

# The last part of a name, by which it is known in its file.
function short(name) { sub(/.*(::|\.)/, "", name); return name }

# Prints what NAME rests on, and marks it as reached.
function list_of(name,    seen, definitions, types, size, files, list, before, i, def) {
    split("", seen)
    follow(name, seen)
    for (i = 1; i <= count; i++) {
        def = order[i]
        if (!(def in seen) || def in is_function) continue
        reached[def] = 1
        if (index(def, "::")) types++; else definitions++
        size += last_line[def] - first_line[def] + 1 + comment[def]
        if (place[def] != before) { files++; list = list "\n    " place[def] ":"; before = place[def] }
        list = list " " short(def)
    }
    print name " rests on " definitions + 0 " definitions and " types + 0 " types, " size + 0 " lines in " files + 0 " files" list
}

END {
    asked_for = split(asked, words, " ")
    for (e = 1; e <= asked_for; e++) if (ours(words[e])) list_of(words[e]); else fault(words[e] " is not there")
    if (asked_for) exit faults > 0

    for (e = 1; e <= entries; e++) {
        name = entry[e]
        passed++
        if (!ours(name)) { fault("crates/entries.txt has " name ", which is not there"); continue }
        if (name in is_function ? text[name] !~ /ensures/ : name !~ /\.proofs\./) fault(name " has no contract")
        list_of(name)
    }
    for (i = 1; i <= count; i++) {
        def = order[i]
        if (def in exports && !(def in is_entry)) fault(def " is exported, and crates/entries.txt does not have it")
        if (def !~ /^[a-z]+\.specs\./) continue
        passed++
        inner = def ~ /^[a-z]+\.specs\.Inner\./
        if (inner && def in reached) fault(def " is inner, and something public rests on it")
        if (!inner && !(def in reached)) fault(def " is reached by nothing public; its place is specs/Inner")
        if (inner) inners++; else outers++
    }
    print outers " definitions are reached by something public, " inners " stand in specs/Inner"
    print passed - faults " passed, " faults + 0 " failed"
    exit faults > 0
}
