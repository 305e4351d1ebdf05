# Compares what moved-read.awk has read of two commits, and prints the table of names.
END {
    endFile()
    for (i = 1; i <= promises; i++) keepPromise(i)
    for (pair in text) { split(pair, step, SUBSEP); readCited(step[1], step[2]) }
    for (key in isKey) compare(key)
    for (i = 1; i <= reaches; i++) reachUsers(reach[i])
    print "| | Moved | Came | Went | Stayed |"
    print "|---|---|---|---|---|"
    row("Definitions", "D")
    row("Promises", "P")
    n = find("P", "stands")
    print "| Promises: stands on moved definitions | | | | " (n ? n ": " told(n) : "none") " |"
    row("Laws", "L")
    n = find("L", "stands")
    print "| Laws: stands on moved definitions | | | | " (n ? n : "none") " |"
    row("Proofs", "F")
}

function readCited(side, key,    n, i, token, to) {
    n = key ~ /^F/ ? 0 : split(text[side, key], token, /[ (){},;]+/)
    for (i = 1; i <= n; i++) {
        to = meant(side, fileOf[side, key], token[i])
        if (to == "" || to == key || (side, key, to) in seen) continue
        seen[side, key, to]
        cited[side, key] = cited[side, key] " " to
        if (to in isKey) users[to] = users[to] " " key
    }
}

# the key that a word of a file stands for; of a name from elsewhere its module and name, of any other word nothing
function meant(side, file, token,    dot, from) {
    sub(/\.$/, "", token)
    dot = index(token, ".")
    if (dot && (side, file, substr(token, 1, dot - 1)) in alias) { # module.name
        from = alias[side, file, substr(token, 1, dot - 1)]; token = substr(token, dot + 1)
    } else if (dot) return meant(side, file, substr(token, 1, dot - 1)) # name.field
    else if ((side, file, token) in at) from = file
    else if ((side, file, token) in source) from = source[side, file, token]
    else return ""
    return (side, from, token) in at ? at[side, from, token] : from "|" token
}

function compare(key,    was, is) {
    was = ("old", key) in text; is = ("new", key) in text
    state[key] = !was ? "came" : !is ? "went" : text["old", key] != text["new", key] ? "moved" : "stayed"
    if (state[key] != "stayed" || cited["old", key] != cited["new", key]) reachKey(key)
}

function reachKey(key) { if (!(key in reached)) { reached[key]; reach[++reaches] = key } }

function reachUsers(key,    n, i, by) { n = split(users[key], by, " "); for (i = 1; i <= n; i++) reachKey(by[i]) }

# ── the table ──

function row(title, sort,    n, stayed) {
    n = find(sort, "stayed")
    stayed = n > 3 ? n ", " told(3) " among them" : n ? n ": " told(n) : "none"
    printf "| %s | %s |", title, told(find(sort, "moved"))
    printf " %s |", told(find(sort, "came"))
    printf " %s | %s |\n", told(find(sort, "went")), stayed
}

# the keys of a sort that moved, came, went, stayed, or stayed but stand on what did not, in their order
function find(sort, what,    key, n, i) {
    for (key in isKey) {
        if (substr(key, 1, 1) != sort || (what == "stands" ? state[key] != "stayed" || !(key in reached) : state[key] != what)) continue
        for (i = ++n; i > 1 && found[i - 1] > key; i--) found[i] = found[i - 1]
        found[i] = key
    }
    return n + 0
}

function told(n,    i, bar, place, before, words) {
    for (i = 1; i <= n; i++) {
        bar = index(substr(found[i], 3), "|") + 2
        place = substr(found[i], 3, bar - 3)
        if (found[i] ~ /^F/) { words = words (i > 1 ? ", " : "") place; continue }
        if (i > 1) words = words (found[i] ~ /^[DL]/ && place != before ? " (" before "); " : ", ")
        words = words "`" substr(found[i], bar + 1) "`"
        before = place
    }
    return n == 0 ? "none" : found[1] ~ /^[DL]/ ? words " (" place ")" : words
}
