# How many wrong programs each public function of one crate has: must-fail edits of its own code, or of what is private to its file and that it uses.
# awk -f edits.awk [-v list=1] FILE.rt .. FILE.edit ..
# Prints each public function with fewer than two; with list=1 every one, with its edits. Functions exported to C are left out: each is one call of a function that is counted.
# So is one that gives no answer and has no `&mut` parameter, as one that only writes to standard output: a caller holds nothing afterwards that a promise could be about.

FNR == 1 { source = ""; in_attribute = 0; in_clause = 0; depth = 0; is_edit = (FILENAME ~ /\.edit$/); edit = FILENAME; sub(/.*\//, "", edit); sub(/\.edit$/, "", edit) }

!is_edit {
    line = $0
    if (match(line, /^ *(pub )?(extern "C" )?(fn|const) [A-Za-z0-9_]+/)) {
        head = substr(line, RSTART, RLENGTH)
        name = head
        sub(/.* /, "", name)
        count++
        item[count] = name
        file[count] = FILENAME
        public[count] = (head ~ /pub fn/)
        exported[count] = (head ~ /extern/)
        from[count] = length(text[FILENAME]) + 1
        current[FILENAME] = count
    }
    text[FILENAME] = text[FILENAME] line "\n"
    sub(/\/\/.*/, "", line)
    # what an attribute or a clause names is a lemma or a definition, and no function that is called
    if (line ~ /^ *#!?\[/) in_attribute = 1
    if (line ~ /^ *(requires|ensures)\*?( [A-Za-z0-9_]+)? \{/) in_clause = 1
    if (in_attribute) {
        if (line ~ /\] *$/) in_attribute = 0
        next
    }
    if (in_clause) {
        depth += gsub(/\{/, "{", line) - gsub(/\}/, "}", line)
        if (depth <= 0) { depth = 0; in_clause = 0 }
        next
    }
    if (current[FILENAME]) body[current[FILENAME]] = body[current[FILENAME]] " " line
    next
}

/^file: / { source = substr($0, 7); kind[edit] = kind[edit] (source ~ /^src\//  ? "" : "specs"); next }
/^old: / {
    if (source !~ /^src\//) next
    for (f in text) {
        if (substr(f, length(f) - length(source) + 1) != source) continue
        at = index(text[f], substr($0, 6))
        for (i = 1; i <= count; i++)
            if (file[i] == f && from[i] <= at && (!(i + 1 in from) || file[i + 1] != f || at < from[i + 1])) touched[edit, i] = 1
    }
    edits[edit] = 1
}

# whether function i gives no answer and changes nothing that its caller lent
function only_writes(i,    head) {
    head = body[i]
    sub(/\{.*/, "", head)
    return head !~ /->/ && head !~ /&mut|&'[a-z]+ mut/
}

# whether item i names item j
function names(i, j) { return body[i] ~ ("(^|[^A-Za-z0-9_])" item[j] "([^A-Za-z0-9_]|$)") }

END {
    for (i = 1; i <= count; i++) {
        if (!public[i] || exported[i] || only_writes(i)) continue
        split("", reached)
        reached[i] = 1
        do {
            more = 0
            for (a = 1; a <= count; a++) {
                if (!(a in reached)) continue
                for (b = 1; b <= count; b++)
                    if (!(b in reached) && !public[b] && names(a, b)) { reached[b] = 1; more = 1 }
            }
        } while (more)
        n = 0
        told = ""
        for (e in edits) {
            if (kind[e] != "") continue
            for (b in reached)
                if ((e, b) in touched) { n++; told = told " " e (b == i ? "" : "(" item[b] ")"); break }
        }
        if (list) print n, item[i] ":" told
        else if (n < 2) print file[i] ": " item[i] " has " n " wrong programs of its code, and needs two"
    }
}
