# Reads the crates of two commits, in old/ and new/; docs/orders/moved says what is compared, and moved.awk compares it.
# A key is S|file|name (P|crate|name). S says of what sort: D a definition, P a promise, L a law, F a proof, and A an abbreviation,
# record or data type of a proofs/ file that is not pub: no law, but what a law may mean.
FNR == 1 {
    endFile()
    split(FILENAME, step, "/")
    side = step[1]; crate = step[3]; folder = step[4]
    file = FILENAME; sub(/^[a-z]*\/crates\//, "", file); sub(/\.[a-z]*$/, "", file)
    module = file; sub(/^[^\/]*\/[^\/]*\//, "", module); gsub(/\//, "::", module)
    inside = file; sub(/\/[^\/]*$/, "", inside); isFile[side, file]
    # what answers for a function, and no law; a file of the name in a folder that is a module's is one like any other
    answers = file ~ /\/proofs\/(.*\/)?(Proof|Answers|Invariants)$/ && !((side, inside) in isFile)
}
folder !~ /^(specs|proofs|src)$/ { next }

function plain(words) {
    gsub(/[ \t\n]+/, " ", words); gsub(/\( /, "(", words); gsub(/,? \)/, ")", words); gsub(/^ | $/, "", words)
    return words
}

# ── specs/ and proofs/: a chunk is a signature or a clause with the lines below it that stand further in ──

FILENAME ~ /\.antt$/ {
    sub(/(^|[ \t])--.*$/, ""); sub(/[ \t]+$/, "")
    if ($0 == "") next
    match($0, /^ */); indent = RLENGTH
    line = substr($0, indent + 1)
    if (inHead) { headChunk = headChunk " " line; endHead(); next }
    if (base[depth] < 0) base[depth] = indent
    while (indent < base[depth]) { endChunk(); depth-- }
    if (indent > base[depth]) { chunk = chunk "\n" line; next }
    endChunk()
    if (line ~ /^module /) { inHead = 1; headChunk = line; endHead() } else chunk = line
}

# a module's names stand as far in as the first of them
function endHead() {
    if (headChunk !~ /(^| )where$/) return
    headChunk = plain(headChunk) " "
    proof = proof headChunk
    head[depth + 1] = head[depth] headChunk
    base[++depth] = -1
    inHead = 0
}

function endFile() {
    endChunk()
    if (waiting != "") addClause("", "")
    if (folder == "proofs" && proof != "") { text[side, "F|" file "|"] = proof; isKey["F|" file "|"] }
    depth = base[0] = inHead = owners = 0
    head[0] = proof = waiting = impl = signature = type = ""
}

function endChunk(    words) {
    words = plain(chunk)
    if (words ~ /^use /) readUse(words)
    else if (words != "" && words !~ /^(pub )?mod /) {
        proof = proof words " "
        if (!answers) readChunk(words)
    }
    chunk = ""
}

function readChunk(words,    n) {
    n = readNames(words)
    if (words ~ /^(unfolding|infix[lr]?) /) waiting = waiting words " " # of the signature or clause that follows
    else if (n) declare(words, n)
    else addClause(words, word[1])
}

# The names that a chunk declares, if it is a signature: nothing but names in front of the first colon.
function readNames(words,    n, i, k) {
    n = split(words, word, " ")
    modifiers = ""
    for (i = 1; word[i] ~ /^(pub|abbrev|unfoldable)$/; i++) modifiers = modifiers word[i] " "
    isType = word[i] ~ /^(record|data)$/; isData = word[i] == "data"
    if (isType) { name[1] = word[i + 1]; return 1 }
    for (; i <= n && word[i] != ":"; i++) {
        if (word[i] == "=" || word[i] ~ /[(){}]/) return 0
        name[++k] = word[i]
    }
    return i > n ? 0 : k
}

function declare(words, n,    i, m, sort, means, key, lines) {
    # what a text may stand on; any other name of a proofs/ file is seen through by no one
    means = folder == "specs" || isType || modifiers ~ /abbrev|unfoldable/
    sort = folder == "specs" ? "D" : modifiers ~ /pub/ ? "L" : means ? "A" : ""
    owners = n
    for (i = 1; i <= n; i++) {
        key = owner[i] = owned[side, file, name[i]] = sort == "" ? "" : sort "|" file "|" name[i]
        if (key == "") continue
        add(key, head[depth] waiting (isType ? words : modifiers name[i] substr(words, index(words, " : "))))
        if (means) { hasClauses[side, key]; callable(name[i], key) }
    }
    waiting = ""
    if (!isData || key == "") return
    m = split(chunk, lines, "\n")
    for (i = 2; i <= m; i++) for (n = readNames(lines[i]); n; n--) callable(name[n], key)
}

function add(key, words) { text[side, key] = text[side, key] words " "; isKey[key]; fileOf[side, key] = file }

# a clause belongs to the name that it begins with, or else (infix) to the signature before it
function addClause(words, first,    i) {
    if ((side, file, first) in owned) { owners = 1; owner[1] = owned[side, file, first] }
    for (i = 1; i <= owners; i++) if ((side, owner[i]) in hasClauses) add(owner[i], waiting words)
    waiting = ""
}

# a name, and the words of one with places for arguments in it, stand for a key
function callable(called, key,    n, i, part) {
    at[side, file, called] = key
    n = split(called, part, "◌")
    for (i = 1; i <= n; i++) if (n > 1 && part[i] != "") at[side, file, part[i]] = key
}

function readUse(words,    open, from, n, m, i, j, names, part) {
    sub(/^(ghost )?use /, "", words); sub(/;.*/, "", words)
    open = index(words, ".{")
    if (!open) { if (split(words, names, " ") == 3) alias[side, file, names[3]] = fileAt(names[1]); return }
    from = fileAt(substr(words, 1, open - 1))
    n = split(substr(words, open + 2), names, /[ ,{}]+/)
    for (i = 1; i <= n; i++) if (names[i] != "") {
        source[side, file, names[i]] = from
        m = split(names[i], part, "◌")
        for (j = 1; j <= m; j++) if (m > 1 && part[j] != "") source[side, file, part[j]] = from
    }
}

# Rattle.paper.specs.rules.Kind is paper/specs/rules/Kind
function fileAt(path) {
    if (!sub(/^Rattle\./, "", path)) return path
    gsub(/\./, "/", path)
    return path
}

# ── src/ ──

FILENAME ~ /\.rt$/ {
    sub(/(^|[ \t])\/\/.*$/, "")
    if (/^ghost use /) readUse(plain($0))
    if (module == "lib" && /^pub use /) handOn(plain($0))
    if (module == "lib" && /^pub mod /) { sub(/;.*/, ""); isOpen[side, crate, $3] }
    if (type == "" && match($0, /^(pub(\([a-z]+\))? )?(enum|struct) [A-Za-z0-9_]+/)) { type = substr($0, 1, RLENGTH); sub(/.* /, "", type) }
    if (type != "") readType()
    if (/^impl/) { impl = $0; sub(/ *\{.*/, "", impl); sub(/.* /, "", impl); sub(/<.*/, "", impl) }
    if (/^}/) impl = ""
    if (signature == "" && !/^ *pub ([a-z]+ |"C" )*fn /) next
    signature = signature $0 "\n"
    if (beforeBody(signature) == "") next
    promise[++promises] = plain(beforeBody(signature)); signature = ""
    promised[promises] = side SUBSEP crate SUBSEP module SUBSEP impl SUBSEP file
}

# a struct or an enum, which specs/ files name by declared.Type, or declared.module.Type, and its cases by TheVariants below that
function readType(    key, by) {
    by = crate "/specs/declared/" (module == "lib" ? "" : module "/") type
    gsub(/::/, "/", by)
    key = "D|" crate "/src/" module "|" type
    add(key, plain($0))
    at[side, by, type] = at[side, file, type] = key
    if (match($0, /^    [A-Z][A-Za-z0-9_]*/)) at[side, by "/TheVariants", substr($0, 5, RLENGTH - 4)] = key
    if (/^}/ || /[;}]$/) type = ""
}

# pub use m::f; pub use m::{f, g};
function handOn(words,    n, names, path) {
    sub(/^pub use (crate::|self::)?/, "", words)
    path = words; sub(/::[^:]*$/, "", path)
    n = split(substr(words, length(path) + 3), names, /[ ,;{}]+/)
    for (; n; n--) handed[side, crate, path, names[n]]
}

# a function up to the brace of its body, which is the first that opens no part of its contract
function beforeBody(words,    done, depth, here, brace) {
    while (match(words, /[{}]/)) {
        here = substr(words, 1, RSTART - 1); brace = substr(words, RSTART, 1)
        if (!depth && (done here) !~ /(requires|ensures)\*?([ \n]+[a-z_0-9]+)?[ \n]*$/) return done here
        done = done here brace; words = substr(words, RSTART + 1)
        depth += brace == "{" ? 1 : -1
    }
    return ""
}

# the name by which another crate calls the function, if it can
function keepPromise(i,    step, called, outer) {
    split(promised[i], step, SUBSEP)
    match(promise[i], /fn [A-Za-z0-9_]+/)
    called = substr(promise[i], RSTART + 3, RLENGTH - 3)
    outer = step[4] == "" ? called : step[4]
    if (outer != called) called = outer "::" called
    if (step[3] == "lib" || (step[1], step[2], step[3], outer) in handed) called = step[2] "::" called
    else if ((step[1], step[2], step[3]) in isOpen) called = step[2] "::" step[3] "::" called
    else return
    side = step[1]; file = step[5]
    add("P|" step[2] "|" called, promise[i])
}

