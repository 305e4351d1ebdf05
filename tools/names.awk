# Reads the crates' files, then the docs; tools/names says what a citation is.
BEGIN { for (i = 1; i < ARGC; i++) isFile[ARGV[i]] }

FNR == 1 {
    endParagraph()
    split(FILENAME, step, "/")
    crate = step[2]; folder = step[3]
    isCrate[crate]
    file = FILENAME; sub(/.*\//, "", file); sub(/\.[a-z]*$/, "", file)
    isIn[folder, file]
}

# ── what is declared ──

function declared(name) { any[name]; at[FILENAME, name]; at[folder, file, name] }

# the words in front of the first colon, where nothing but names stands there; the name of a record or data type
FILENAME ~ /\.antt$|judge(_limits)?\.txt$/ {
    if (/^benches =/) inBenches = 1
    if (/^$/) inBenches = 0
    if (inBenches && /^    ∷ /) benches++   # the last has no bench, the first no ∷
    end = index($0 " ", " : ")
    if (!end || /^ *--/) next
    n = split(substr($0, 1, end - 1), word, " ")
    for (i = 1; i <= n && word[i] ~ /^(pub|abbrev|unfoldable)$/; i++) ;
    if (word[i] ~ /^(record|data)$/) { declared(word[i + 1]); next }
    for (j = i; j <= n; j++) if (word[j] ~ /[(){}=]/) next
    for (; i <= n; i++) declared(word[i])
    next
}

# functions and types of the code, and what a crate hands on
FILENAME ~ /\.rt$/ {
    if (match($0, /^ *(pub |pub\(crate\) )?(extern "C" )?(fn|struct|enum) [A-Za-z0-9_]+/)) {
        n = split(substr($0, RSTART, RLENGTH), word, " ")
        declared(word[n]); code[crate, word[n]]
    } else if (match($0, /^pub use .*::[a-z_]+;/)) {
        n = split(substr($0, RSTART, RLENGTH - 1), word, "::")
        code[crate, word[n]]
    }
    next
}
FILENAME ~ /\.edit$/ { next }

# ── what is cited ──

/^\|[-|]+$/ { next }
/^\|/ {
    endParagraph()
    n = split($0, cell, " *[|] *")
    if (!inTable) { for (i = 2; i < n; i++) head[i] = cell[i]; inTable = 1; next }
    from = FNR
    for (i = 2; i < n; i++) readCell(cell[i], head[i])
    next
}
/^#|^$/ { endParagraph(); inTable = 0; next }
{ if (paragraph == "") from = FNR; paragraph = paragraph $0 " "; doc = FILENAME }
END { endParagraph(); exit red }

function endParagraph() { if (paragraph != "") cited(paragraph, "", ""); paragraph = "" }

function readCell(text, column) {
    doc = FILENAME
    if (column == "Definition") cited(text, "specs", "")
    else if (column == "Theorem") cited(text, "proofs", "")
    else if (column == "Must-fail edit") cited(text, "must-fail", "paper")
    else if (column == "Name") cited(text, "specs proofs", "")
    else if (column ~ /^Name \(/) cited(text, "specs proofs", substr(column, 7, length(column) - 7))
    else { cited(text, "", ""); if (column == "Test") readBenches(text) }
}

# every second part stands between backticks; names with no more than this between them have one place
function cited(text, folders, place,    n, part, i, j, names, name, here) {
    n = split(text, part, "`")
    for (i = 2; i < n; i += 2) {
        name[++names] = part[i]
        if (i + 2 < n && part[i + 1] ~ /^(,|:| and| to|,? or) $/) continue
        here = place
        if (match(part[i + 1], /^ \([^()]*\)/)) {
            inside = substr(part[i + 1], 3, RLENGTH - 3)
            if (inside ~ (folders == "must-fail" ? "^[a-z]+$" : "^[A-Z][A-Za-z0-9]*(, [A-Z][A-Za-z0-9]*)*$|/")) here = inside
        }
        for (j = 1; j <= names; j++) look(name[j], folders, here)
        names = 0
    }
}

function look(name, folders, place,    n, m, i, j, files, folder, found) {
    if (folders == "must-fail") {
        if (!(("crates/" place "/must-fail/" name ".edit") in isFile)) missing(name " is no must-fail edit of " place)
    } else if (place != "") {
        n = split(place, files, ", ")
        m = split(folders == "" ? "specs proofs" : folders, folder, " ")
        for (i = 1; i <= n; i++) {
            if ((files[i], name) in at) found = 1
            for (j = 1; j <= m; j++) if ((folder[j], files[i], name) in at) found = 1
        }
        if (!found) missing(name " is not declared in " (folders ~ /^[a-z]+$/ ? folders "/" : "") place)
    } else if (folders != "") missing(name " has no file behind it")
    else if (name ~ /::/) {
        n = split(name, files, "::")
        if (!(n == 2 ? (files[1], files[2]) in code : ("crates/" files[1] "/src/" files[2] ".rt", files[3]) in at)) missing(name " is no function")
    } else if (name ~ /\//) {
        if (system("test -e \"" name "\"")) missing(name " is no file")
    } else {
        split(name, files, " ")
        if (!(files[1] in any) && !(files[1] in isCrate)) missing(name " is not declared")
    }
}

function readBenches(text,    n, i, number) {
    if (!match(text, /bench [0-9]+(-[0-9]+)?(, [0-9]+(-[0-9]+)?)*/)) return
    n = split(substr(text, RSTART + 6, RLENGTH - 6), number, /[^0-9]+/)
    for (i = 1; i <= n; i++) if (number[i] + 0 < 1 || number[i] + 0 > benches) missing("there is no bench " number[i])
}

function missing(words) { print doc ":" from ": " words; red = 1 }
