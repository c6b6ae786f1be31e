# The work of tests/public on cells: holds the columns "requires" and "contract" of the table of public functions in docs/PROMISES.md to the sources.
# Needs the functions, `NAME<tab>its text up to its body`, and then the document.
#
# A row may have several functions; a cell is then for all of them, or has a part for each, between semicolons. "requires" says `none` exactly where a function
# requires nothing. Each name in ticks of "contract" must stand in the contract of a function of the row, and each function's contract must have a name of
# its part, if there is any; a theorem with its file, `name` (CRATE/proofs/..), is no part of a contract.
FNR == NR { split($0, cell, "\t"); text[cell[1]] = cell[2]; next }
/^## Public functions/ { on = 1 }
/^### / { on = 0 }
on && /^\| `/ { row($0) }
END { exit wrong }

function row(line,    cell, n, i, name, rest) {
    split(line, cell, "|")
    n = 0
    rest = cell[2]
    while (match(rest, /`[^`]*`/)) { name[++n] = substr(rest, RSTART + 1, RLENGTH - 2); rest = substr(rest, RSTART + RLENGTH) }
    requires(cell[3], name, n)
    contract(cell[4], name, n)
}

function requires(cell, name, n,    part, m, i, said, before) {
    m = split(cell, part, ";")
    for (i = 1; i <= n; i++) {
        said = m == n ? part[i] : cell
        gsub(/^ +| +$/, "", said)
        if (said == "the same") said = before
        before = said
        if ((said == "none") == (text[name[i]] ~ /requires( [a-z0-9_]+)? \{/)) complain(name[i], said == "none" ? "requires something" : "requires nothing")
    }
}

function contract(cell, name, n,    part, m, i) {
    gsub(/`[^`]*` \([a-z0-9_]+\/proofs[^)]*\)/, "", cell)
    if (cell ~ /^ *(none|the same)/) return
    m = split(cell, part, ";")
    if (n > 1 && m == n) for (i = 1; i <= n; i++) promised(part[i], name, i, i)
    else promised(cell, name, 1, n)
}

# what a cell says of the functions from `first` to `last`
function promised(cell, name, first, last,    i, word, m, w, has, used) {
    m = words_of(cell, word)
    for (i = first; i <= last; i++) {
        has = m == 0
        for (w = 1; w <= m; w++) if (stands(word[w], text[name[i]])) { has = 1; used[w] = 1 }
        if (!has) complain(name[i], "none of the names in its cell stands in its contract:" cell)
    }
    for (w = 1; w <= m; w++) if (!used[w]) complain(name[first], "not in the contract: " word[w])
}

# the names in the ticks of a cell
function words_of(cell, word,    n, said, part, m, i) {
    n = 0
    while (match(cell, /`[^`]*`/)) {
        said = substr(cell, RSTART + 1, RLENGTH - 2)
        cell = substr(cell, RSTART + RLENGTH)
        gsub(/[()]/, " ", said)
        m = split(said, part, " ")
        for (i = 1; i <= m; i++) if (part[i] ~ /^[A-Za-z][A-Za-z0-9_]+$/) word[++n] = part[i]
    }
    return n
}

function stands(word, where) { return (" " where " ") ~ ("[^A-Za-z0-9_]" word "[^A-Za-z0-9_]") }

function complain(name, what) { wrong = 1; print "docs/PROMISES.md, the row of " name ": " what }
