# The work of tests/believed: follows the headline theorems by name to every definition that their statements need, and holds what it reaches
# to the two lists of docs/READING.md. Needs `-v mode=` files, names or check, and the files tests/headlines and docs/READING.md, in this order.
#
# A definition is followed whole, a theorem by its statement alone. A name is found in its own file, or by a `use` line in another; the
# toolchain's libraries and the structs and enums of the code (`declared`) are not followed. docs/READING.md names a file, as `Talk` after
# `promises/specs`, or a single definition, as `Course.found` after `replay/specs`. The first list is believed and followed. The second is not:
# there only single definitions count, so that none is hidden behind its file.

FILENAME ~ /headlines$/ && /^# ---- / { group[++groups] = substr($0, 8) }
FILENAME ~ /headlines$/ && !/^#/ { for (i = 2; i <= NF; i++) { headlines++; at[headlines] = $1; theorem[headlines] = $i; of[headlines] = groups } }
FILENAME ~ /READING/ && /^## / { part = /What must be believed/ ? "believed" : "" }
FILENAME ~ /READING/ && part == "believed" && /^Named by a statement/ { part = "met" }
FILENAME ~ /READING/ && /^Not to be believed/ { part = "" }
FILENAME ~ /READING/ && /^$/ { folder = "" }
FILENAME ~ /READING/ && part != "" { ticks($0) }
END {
    for (h = 1; h <= headlines; h++) state_of(h)
    for (name in single) if (!(name in is_reached)) complain("docs/READING.md names what no statement needs: " name)
    if (mode == "files") say_files()
    if (mode == "names") for (n = 1; n <= reached; n++) print list_of[n] " " order[n]
    exit wrong
}

# ---- docs/READING.md

# what stands in ticks: a folder, a file in it, or a definition of a file
function ticks(line,    token) {
    while (match(line, /`[^`]*`/)) {
        token = substr(line, RSTART + 1, RLENGTH - 2)
        line = substr(line, RSTART + RLENGTH)
        if (token ~ /^crates\//) folder = ""
        else if (token ~ /^[a-z0-9_]+\/(specs|proofs)$/) folder = token
        else if (token ~ /^[a-z0-9_]+\/(specs|proofs)\/[A-Z]/) { folder = token; sub(/\/[^\/]*$/, "", folder); list(token) }
        else if (token ~ /^[A-Z][A-Za-z0-9]*(\.[^ ]+)?$/ && folder != "") list(folder "/" token)
    }
}

function list(name,    file) {
    file = name
    sub(/\..*/, "", file)
    if (part == "believed" || name != file) listed[name] = part
    if (name != file) single[name] = 1
    load(file)
    if (!there[file]) complain("docs/READING.md: no such file: " file)
    else if (name != file && !((file, substr(name, length(file) + 2)) in text)) complain("docs/READING.md: no such definition: " name)
}

# which list has a definition: its own name counts before its file; what is private to a statement's module is read with the statement
function list_for(file, name) {
    if ((file "." name) in listed) return listed[file "." name]
    return file in listed || private[file, name] ? "believed" : ""
}

# ---- from the statements on

function state_of(h,    file, name) {
    file = home(at[h], theorem[h])
    name = found_as
    now = of[h]
    if (file == "") complain("tests/headlines: no theorem " theorem[h] " in " at[h])
    else names_in(file, around[file, name] " " signature[file, name], scope[file, name])
}

# every definition that a text of a file names; the text stands in the modules `scoped`
function names_in(file, said, scoped,    word, n, i) {
    gsub(/[(){},;]/, " ", said)
    n = split(said, word, " ")
    for (i = 1; i <= n; i++) { sub(/\.$/, "", word[i]); if (word[i] != "" && word[i] !~ /^\./) reach(file, word[i], scoped) }
}

function reach(file, name, scoped,    place, own) {
    place = home(file, name)
    if (place == "") return
    own = found_as
    # a private name of a module is not seen outside it: what is called so there is a variable
    if (private[place, own] && index(scoped, scope[place, own]) != 1) return
    if ((place, own) in seen) return
    seen[place, own] = 1
    order[++reached] = place "." own
    is_reached[place "." own] = 1
    list_of[reached] = list_for(place, own)
    if (list_of[reached] == "") complain("docs/READING.md does not name " place "." own)
    if (list_of[reached] == "met") return
    size[place] += many[place, own]
    sum[now] += many[place, own]
    names_in(place, around[place, own] " " text[place, own], scope[place, own])
}

# the file that defines a name which `file` uses, and the name there in `found_as`; nothing for what is not followed
function home(file, name,    head) {
    load(file)
    if ((file, name) in text) { found_as = name; return file }
    if ((file, name) in owner) { found_as = owner[file, name]; return file }
    if ((file, name) in from) return home(from[file, name], called[file, name])
    head = name
    if (!sub(/\..*/, "", head)) return ""
    if ((file, head) in alias) return home(alias[file, head], substr(name, length(head) + 2))
    return home(file, head)
}

# ---- one file

function load(file,    line, source) {
    if (file in there) return
    source = "crates/" file ".antt"
    there[file] = 0
    depth = 0
    item = ""
    while ((getline line < source) > 0) { there[file] = 1; take(file, line) }
    close(source)
}

function take(file, line,    indent, bare) {
    if (line ~ /^ *(--.*)?$/) return
    bare = line
    sub(/ -- .*/, "", bare)
    match(bare, /^ */)
    indent = RLENGTH
    bare = substr(bare, indent + 1)
    if (bare ~ /^(pub )?use /) { brings(file, bare); return }
    if (opening != "") { more_of_module(bare); return }
    while (depth > 0 && indent <= inside[depth]) depth--
    if (bare ~ /^module /) { inside[++depth] = indent; params[depth] = ""; number[depth] = ++modules; item = ""; more_of_module(bare) }
    else if (indent == (depth > 0 ? inside[depth] + 2 : 0)) begins(file, bare)
    else if (item != "") continues(file, bare)
}

# the modules that a line stands in, from the outermost on
function scope_now(    i, path) {
    for (i = 1; i <= depth; i++) path = path number[i] "/"
    return path
}

# a module's parameters are part of every statement in it
function more_of_module(bare) {
    opening = bare ~ /where$/ ? "" : "open"
    params[depth] = params[depth] " " bare
}

# a line at the margin: a new name with its type, or more of the one before
function begins(file, bare,    name, i) {
    name = bare
    while (sub(/^(pub|abbrev|unfoldable|record|data) /, "", name)) continue
    if (bare !~ /^((pub|abbrev|unfoldable) )*(record|data) / && name !~ /^[^ ]+ : /) { in_type = 0; if (item != "") continues(file, bare); return }
    sub(/ .*/, "", name)
    if (bare ~ /^open /) return
    item = name
    in_type = 1
    scope[file, item] = scope_now()
    if (depth > 0 && bare !~ /^(abbrev |unfoldable )*pub /) private[file, item] = 1
    is_data = bare ~ /(^| )data /
    for (i = 1; i <= depth; i++) around[file, item] = around[file, item] " " params[i]
    if (bare ~ /(^| )(record|data) /) sub(/.*(record|data) [^ ]+/, "", bare)
    else sub(/^((pub|abbrev|unfoldable) )*[^ ]+ : /, "", bare)
    continues(file, bare)
}

function continues(file, bare,    constructor) {
    text[file, item] = text[file, item] " " bare
    if (in_type) signature[file, item] = signature[file, item] " " bare
    many[file, item]++
    if (is_data && bare ~ /^[^ ]+ : /) { constructor = bare; sub(/ .*/, "", constructor); owner[file, constructor] = item }
}

# use Rattle.CRATE.specs.FILE.{a, b as c}, or `as NAME` for the whole file
function brings(file, line,    target, names, n, i, pair) {
    sub(/^(pub )?use /, "", line)
    if (line !~ /^Rattle\./ || line ~ /\.declared\./) return
    target = line
    sub(/^Rattle\./, "", target)
    sub(/(\.\{| ).*/, "", target)
    gsub(/\./, "/", target)
    if (line ~ /\} *$/) {
        names = line
        sub(/.*\.\{/, "", names)
        sub(/\}.*/, "", names)
        n = split(names, pair, / *, */)
        for (i = 1; i <= n; i++) import(file, target, pair[i])
    } else { sub(/.* as /, "", line); alias[file, line] = target }
}

function import(file, target, name,    local) {
    local = name
    sub(/.* as /, "", local)
    sub(/ as .*/, "", name)
    from[file, local] = target
    called[file, local] = name
}

# ---- what is said

function complain(line) { wrong = 1; if (mode == "check" && !(line in said_so)) print line; said_so[line] = 1 }

function say_files(    n, file) {
    for (n = 1; n <= reached; n++) { file = order[n]; sub(/\..*/, "", file); if (size[file] && !told[file]++) printf "%5d %s\n", size[file], file }
    for (n = 1; n <= groups; n++) { printf "%5d %s\n", sum[n], group[n]; total += sum[n] }
    printf "%5d lines of definitions in all\n", total
}
