# All small edits of the code lines of the given sources, in the order in which tests/mutants draws them.
#
#   awk -v seed=1 -f tests/mutants.awk layer=flow crates/search/src/lib.rt .. layer=verdict crates/verdict/src/lib.rt ..
#
# An edit a line, its fields with tabs between: layer, kind, crate, file, function, first line, last line, the lines before, the lines after;
# several lines of code are joined by BREAK. Lines are counted from 1; an edit with nothing after takes its lines away.
# Only bodies of functions and values of constants are edited: never comments, `use`, contracts, signatures, declared types.

BEGIN {
    BREAK = "\001"
    KINDS = split("comparison one-off dropped exchanged constant", kinds, " ")
    other["<"] = "<= >= !="; other["<="] = "< > =="; other[">"] = ">= <= !="; other[">="] = "> < =="
    other["=="] = "!= <= >="; other["!="] = "== < >"
    swap["&"] = "| ^"; swap["|"] = "& ^"; swap["^"] = "| &"; swap["+"] = "-"; swap["-"] = "+"; swap["*"] = "+"
    swap["/"] = "%"; swap["%"] = "/"; swap["<<"] = ">>"; swap[">>"] = "<<"
    swap["+="] = "-="; swap["-="] = "+="; swap["*="] = "/="; swap["/="] = "*="
    split("- / % << >>", a, " ")
    for (i in a) ordered[a[i]] = 1
    split("if while match return in as let mut else loop for break continue", a, " ")
    for (i in a) keyword[a[i]] = 1
    signs = split("<<= >>= ..= => -> :: == != <= >= && || << >> += -= *= /= %= &= |= ^= ..", sign, " ")
}

FNR == 1 {
    file_ends()
    file = FILENAME
    home = layer
    split(file, part, "/")
    crate = part[2]
}
{ text[++count] = $0 }
END { file_ends(); draw() }

# ---- a file: which lines are code

# Edits every line of a body and the value of every constant.
function file_ends(    i, line, body, edge, owner) {
    body = 0
    name = owner = ""
    for (i = 1; i <= count; i++) {
        line = text[i]
        if (body) {
            if (line ~ /^ *[}]$/ && indent(line) == edge) { body = 0; name = ""; continue }
            edit(i)
        } else if (line ~ /^ *(pub )?(extern "C" )?fn [a-z]/) {
            edge = indent(line)
            name = line
            sub(/^.*fn /, "", name)
            sub(/[^a-z0-9_].*$/, "", name)
            name = owner name
            if (line ~ /[{]$/) body = 1
        } else if (name != "" && line ~ /^ *[{]$/ && indent(line) == edge) {
            body = 1
        } else if (line ~ /^impl[ <].*[{]$/) {
            owner = line
            sub(/^impl(<[^>]*>)? /, "", owner)
            sub(/^.* for /, "", owner)
            sub(/[^A-Za-z0-9].*$/, "", owner)
            owner = owner "::"
        } else if (line == "}") {
            owner = ""
        } else if (line ~ /^ *(pub )?const [A-Z0-9_]+: [a-z0-9]+ = [0-9]+;$/) {
            name = line
            sub(/^ *(pub )?const /, "", name)
            sub(/:.*/, "", name)
            name = owner name
            scan(line)
            number(i, tokens - 1, "constant")
            name = ""
        }
    }
    count = 0
}

# How many blanks stand before a line.
function indent(line) { match(line, /^ */); return RLENGTH }

# One edit, unless it changes nothing or was there before.
function note(kind, first, last, after,    before, k, id) {
    before = text[first]
    for (k = first + 1; k <= last; k++) before = before BREAK text[k]
    id = file SUBSEP first SUBSEP last SUBSEP after
    if (before == after || id in known) return
    known[id] = 1
    if (!(home in at_layer)) { layer_of[++layers] = home; at_layer[home] = layers }
    k = ++edits[home, kind]
    record[home, kind, k] = home "\t" kind "\t" crate "\t" file "\t" name "\t" first "\t" last "\t" before "\t" after
}

# ---- a line: its tokens

# Splits a line into tokens: what, where it starts, where it ends.
function scan(line,    rest, at, k, long) {
    tokens = 0
    at = 1
    while (at <= length(line)) {
        rest = substr(line, at)
        if (rest ~ /^ /) { at++; continue }
        if (rest ~ /^\/\//) break
        if (match(rest, /^'?[A-Za-z_][A-Za-z0-9_]*/) || match(rest, /^[0-9][0-9A-Za-z_]*/)) long = RLENGTH
        else {
            long = 1
            for (k = 1; k <= signs; k++) if (index(rest, sign[k]) == 1) { long = length(sign[k]); break }
        }
        tok[++tokens] = substr(rest, 1, long)
        from[tokens] = at
        to[tokens] = at + long - 1
        at += long
    }
    tok[0] = tok[tokens + 1] = tok[tokens + 2] = ""
}

# The line with the tokens a to b replaced.
function put(i, a, b, new) { return substr(text[i], 1, from[a] - 1) new substr(text[i], to[b] + 1) }

# What the token k is.
function opens(k) { return length(tok[k]) == 1 && index("([{", tok[k]) }
function closes(k) { return length(tok[k]) == 1 && index(")]}", tok[k]) }
function is_value(k) { return tok[k] ~ /^[A-Za-z0-9_]/ && !(tok[k] in keyword) || tok[k] == ")" || tok[k] == "]" }
function is_number(k) { return tok[k] ~ /^[0-9]/ && tok[k - 1] != "." }
# A number, true, false: what no 0 takes the place of.
function is_plain(k) { return is_number(k) || tok[k] == "true" || tok[k] == "false" || tok[k] == ";" }
function is_binary(k) { return is_value(k - 1) && (is_value(k + 1) || index("(!&*", tok[k + 1]) && length(tok[k + 1]) == 1) }

# The bracket that closes the one at k, or opens it; 0 where it is on another line.
function partner(k, way,    depth) {
    depth = 0
    for (; k >= 1 && k <= tokens; k += way) {
        if (opens(k)) depth += way
        if (closes(k)) depth -= way
        if (depth == 0) return k
    }
    return 0
}

# Where the operand that ends at k starts, and where the one that starts at k ends: a name or a number with its path, fields, index or arguments.
function operand_start(k) {
    if (k >= 3 && tok[k - 1] == "as") k -= 2
    for (;;) {
        if (closes(k)) k = partner(k, -1)
        if (k < 1) return 0
        if (opens(k)) { if (is_value(k - 1)) { k--; continue } return k }
        if (tok[k - 1] == "." || tok[k - 1] == "::") { k -= 2; continue }
        return k
    }
}
function operand_end(k) {
    if (tok[k] == "(") k = partner(k, 1)
    while (k && tok[k + 1] != "{" && (opens(k + 1) || tok[k + 1] == "." || tok[k + 1] == "::")) k = opens(k + 1) ? partner(k + 1, 1) : k + 2
    if (k && tok[k + 1] == "as") k += 2
    return k
}

# A number in decimal digits one higher, one lower; it may have 64 bits.
function higher(s,    k, d) {
    for (k = length(s); k >= 1; k--) {
        d = substr(s, k, 1)
        if (d != "9") return substr(s, 1, k - 1) (d + 1) substr(s, k + 1)
        s = substr(s, 1, k - 1) "0" substr(s, k + 1)
    }
    return "1" s
}
function lower(s,    k, d) {
    for (k = length(s); k >= 1; k--) {
        d = substr(s, k, 1)
        if (d != "0") break
        s = substr(s, 1, k - 1) "9" substr(s, k + 1)
    }
    s = substr(s, 1, k - 1) (d - 1) substr(s, k + 1)
    sub(/^0+/, "", s)
    return s == "" ? "0" : s
}

# The number at token k one off, and 0 in its place.
function number(i, k, kind,    digits, tail) {
    digits = tok[k]
    sub(/[^0-9].*/, "", digits)
    tail = substr(tok[k], length(digits) + 1)
    note(kind, i, i, put(i, k, k, higher(digits) tail))
    if (digits == "0") return
    note(kind, i, i, put(i, k, k, lower(digits) tail))
    if (digits != "1") note("constant", i, i, put(i, k, k, "0" tail))
}

# ---- the edits of a line of code

# Every edit of one line, and of the lines that it opens.
function edit(i,    k, m, a, b, e, new, line, kind) {
    line = text[i]
    if (line ~ /^ *\/\// || line ~ /^ *$/ || line ~ /"/) return
    scan(line)
    for (k = 1; k <= tokens; k++) {
        if (tok[k] in other && is_binary(k)) {
            m = split(other[tok[k]], new, " ")
            for (a = 1; a <= m; a++) note("comparison", i, i, put(i, k, k, new[a]))
        }
        if (tok[k] == "!") note("comparison", i, i, put(i, k, k, ""))
        if (tok[k] == "if" && tok[k + 1] != "!" && line !~ /[<>=]/) note("comparison", i, i, put(i, k + 1, k + 1, "!" tok[k + 1]))
        if (is_number(k)) {
            kind = beside_arithmetic(k) ? "one-off" : "constant"
            number(i, k, kind)
            if (tok[k - 1] ~ /^[+-]$/ && is_value(k - 2)) note("one-off", i, i, substr(line, 1, to[k - 2]) substr(line, to[k] + 1))
        }
        if (tok[k] == "[" && is_value(k - 1) && (e = partner(k, 1))) note("one-off", i, i, put(i, e, e, " + 1]"))
        if (tok[k] in swap && (is_binary(k) || tok[k] ~ /=$/)) {
            m = split(swap[tok[k]], new, " ")
            for (a = 1; a <= m; a++) note("exchanged", i, i, put(i, k, k, new[a]))
            a = operand_start(k - 1)
            b = operand_end(k + 1)
            if (a && b && tok[k] in ordered)
                note("exchanged", i, i, substr(line, 1, from[a] - 1) cut(line, from[k + 1], to[b]) cut(line, to[k - 1] + 1, from[k + 1] - 1) cut(line, from[a], to[k - 1]) substr(line, to[b] + 1))
        }
        if (tok[k] == "(" && tok[k - 1] ~ /^[A-Za-z_]/ && !(tok[k - 1] in keyword)) arguments(i, k)
        if (tok[k] == "true") note("constant", i, i, put(i, k, k, "false"))
        if (tok[k] == "false") note("constant", i, i, put(i, k, k, "true"))
        if (tok[k] ~ /^[A-Z][A-Z0-9_]+$/ && tok[k + 1] != "::") note("constant", i, i, put(i, operand_start(k), k, "0"))
    }
    # what is returned, and the fields of what is made
    if (line ~ /^ *return [^{]*;$/ && !is_plain(2)) note("constant", i, i, put(i, 2, tokens - 1, "0"))
    if (tokens == 1 && tok[1] ~ /^[a-z]/ && !is_plain(1) && text[i + 1] ~ /^ *[}]$/) note("constant", i, i, put(i, 1, 1, "0"))
    if (tok[2] == ":" && tok[tokens] == "," && !is_plain(3)) note("constant", i, i, put(i, 3, tokens - 1, "0"))
    neighbours(i)
    statement(i)
}

# The part of a line from place a to place b.
function cut(line, a, b) { return substr(line, a, b - a + 1) }

# Whether the number at k is compared, reckoned with or an index.
function beside_arithmetic(k) {
    return tok[k - 1] in other || tok[k + 1] in other || tok[k - 1] in swap || tok[k + 1] in swap || tok[k - 1] == "[" && tok[k + 1] == "]"
}

# Neighbouring arguments of the call at the bracket k exchanged.
function arguments(i, k,    e, j, m, start, end, depth) {
    e = partner(k, 1)
    if (!e || e == k + 1) return
    m = 1
    start[1] = from[k + 1]
    depth = 0
    for (j = k + 1; j < e; j++) {
        if (opens(j)) depth++
        if (closes(j)) depth--
        if (tok[j] == "," && !depth) { end[m++] = to[j - 1]; start[m] = from[j + 1] }
    }
    end[m] = to[e - 1]
    for (j = 1; j < m; j++)
        note("exchanged", i, i, substr(text[i], 1, start[j] - 1) cut(text[i], start[j + 1], end[j + 1]) cut(text[i], end[j] + 1, start[j + 1] - 1) cut(text[i], start[j], end[j]) substr(text[i], end[j + 1] + 1))
}

# Two arguments, or the values of two fields, on lines of their own, exchanged.
function neighbours(i,    a, b, left, right) {
    a = text[i]
    b = text[i + 1]
    if (a !~ /,$/ || b !~ /,$/ || indent(a) != indent(b) || a ~ /=>/ || b ~ /=>/ || a ~ /^ *[)}]/) return
    left = right = ""
    if (match(a, /^ *[a-z_]+: /)) { left = substr(a, 1, RLENGTH); a = substr(a, RLENGTH + 1) }
    if (match(b, /^ *[a-z_]+: /)) { right = substr(b, 1, RLENGTH); b = substr(b, RLENGTH + 1) }
    if ((left == "") == (right == "")) note("exchanged", i, i + 1, left b BREAK right a)
}

# A statement dropped: an assignment, a call, a return, a break; one that goes over several lines too.
function statement(i,    line, last) {
    line = text[i]
    if (line ~ /^ *(let|use|const) /) return
    last = i
    if (line ~ /^ *[a-z_:]+\($/ || line ~ /^ *return .*[({]$/) {
        for (last = i + 1; last <= count && indent(text[last]) > indent(line); last++);
        if (text[last] !~ /^ *[)}]+;$/) return
    } else if (line !~ /;$/ || (line !~ "^ *[a-z_]+(\\[.*\\])? [-+*/%&|^]?= " && line !~ /^ *[a-z_:]+\(.*\);$/ && line !~ /^ *(return|break)/)) {
        return
    }
    note("dropped", i, last, "")
}

# ---- the draw

# Numbers that are the same on every machine: x to 16807 x, modulo 2^31 - 1.
function dice(n) { state = state * 16807 % 2147483647; return state % n + 1 }

# For each layer the kinds in turn, the edits of a kind in drawn order.
function draw(    l, k, n, i, j, swapped, left, key) {
    for (l = 1; l <= layers; l++) {
        left = 0
        for (k = 1; k <= KINDS; k++) {
            n = edits[layer_of[l], kinds[k]]
            left += n
            state = (seed * 7919 + l * 104729 + k * 1299709) % 2147483646 + 1
            for (i = 1; i <= 8; i++) dice(1)
            key = layer_of[l] SUBSEP kinds[k] SUBSEP
            for (i = n; i > 1; i--) {
                j = dice(i)
                swapped = record[key i]
                record[key i] = record[key j]
                record[key j] = swapped
            }
        }
        for (i = 1; left > 0; i++)
            for (k = 1; k <= KINDS; k++)
                if (i <= edits[layer_of[l], kinds[k]]) { print record[layer_of[l], kinds[k], i]; left-- }
    }
}
