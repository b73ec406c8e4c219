# Writes one text of about BYTES bytes and of the shape SHAPE: awk -v shape=SHAPE -v bytes=BYTES -f texts.awk
#   comments  a small machine behind lines of comments
#   wide      64 invariants by 60 transitions, a short sum for each of the 3,904 obligations
#   sums      two invariants by 60 transitions, long sums
#   chain     one invariant whose terms are left chains of sums
#   maps      asserts of what is under a key of a map changed eight times, each by a `read` a change
#   splits    asserts by 40 cases of an invariant, each a split in the one before
function put(text) { printf "%s\n", text; written += length(text) + 1 }

function head() {
    put("version 1;")
    put("machine Bench {")
    put("  field a: variable;")
    put("  field b: variable;")
    put("  init begin() { init a = 0; init b = 0; }")
}

function transitions(count,    i) {
    for (i = 0; i < count; i++)
        put("  transition t" i "() { require a <= " i "; update a = a + 1; update b = b + 1; }")
}

function comments() {
    while (written < bytes - 400) put("// so many words that say nothing to the checker of this text, and more of them")
    head()
    put("  invariant i0(): a <= b;")
    put("}")
    put("proofs {")
    put("  begin keeps i0 by { same; }")
    put("}")
}

function wide(    i, j) {
    head()
    transitions(60)
    for (j = 0; j < 64; j++) put("  invariant i" j "(): a <= b + " j ";")
    put("}")
    put("proofs {")
    for (j = 0; j < 64; j++) put("  begin keeps i" j " by { same; }")
    for (i = 0; i < 60; i++)
        for (j = 0; j < 64; j++) put("  t" i " keeps i" j " by { sum 1 denied, 1 i" j "; }")
    put("}")
}

function sums(    i, k, most, line) {
    head()
    transitions(60)
    put("  invariant i0(): a <= b;")
    put("  invariant i1(): b <= a;")
    put("}")
    put("proofs {")
    put("  begin keeps i0 by { same; }")
    put("  begin keeps i1 by { same; }")
    most = (bytes - written) / 120 / 14
    for (i = 0; i < 60; i++) {
        line = ""
        for (k = 1; k < most; k++) line = line ", 1 i0, 1 i1"
        put("  t" i " keeps i0 by { sum 1 denied, 1 i0" line "; }")
        put("  t" i " keeps i1 by { sum 1 denied, 1 i1" line "; }")
    }
    put("}")
}

# one level takes at most 64 operators, so the chain goes on in brackets of its left side
function chain(    line, k, most) {
    head()
    put("  transition up() { update a = a + 1; update b = b + 1; }")
    for (k = 0; written < bytes - 200; k++) {
        if (k == 64) break
        line = "0"
        most = (bytes / 64 - 80) / 8.2
        if (most > 63 * 63) most = 63 * 63
        line = chained("a", most) " <= " chained("b", most)
        put("  invariant i" k "(): " line ";")
    }
    put("}")
    put("proofs {")
    for (j = 0; j < k; j++) put("  begin keeps i" j " by { same; }")
    for (j = 0; j < k; j++) put("  up keeps i" j " by { sum 1 denied, 1 i" j "; }")
    put("}")
}

function chained(name, count,    line, i) {
    line = name
    for (i = 1; i < count; i++) {
        if (i % 63 == 0) line = "(" line ")"
        line = line " + " name
    }
    return line
}

# the map changed `count` times
function changed(count,    i, map) {
    map = "m"
    for (i = 1; i <= count; i++) map = "put(" map ", " i ", " i ")"
    return map
}

# what is under key 1 of the map changed `count` times, as the map before says it
function looked_up(count,    script) {
    script = "read " changed(count) ", 1 as r" count "; split r" count " as w" count " "
    if (count == 1)
        return script "{ parts w1 as k, e; parts e as g1, h; sum 1 denied" gets(8) "; } { parts w1 as k, e; same; }"
    return script "{ parts w" count " as k, e; same; } { parts w" count " as k, e; parts e as g" count ", h; " looked_up(count - 1) " }"
}

function gets(count,    i, list) {
    for (i = 1; i <= count; i++) list = list ", -1 g" i
    return list
}

# transitions of 64 asserts each
function asserts(form, script,    i, j, count, each) {
    each = length(form) + length(script) + 24
    count = int((bytes * 0.98 - written) / each)
    if (count > 60 * 64) count = 60 * 64
    for (i = 0; i * 64 < count; i++) {
        put("  property p" i "() {")
        for (j = 0; j < 64 && i * 64 + j < count; j++) put("    assert " form ";")
        put("  }")
    }
    return count
}

function assert_proofs(count, script,    i) {
    for (i = 0; i < count; i++) put("  p" int(i / 64) " at " i % 64 + 1 " by { " script " }")
}

function maps(    form, script, count) {
    put("version 1;")
    put("machine Bench {")
    put("  field m: map;")
    put("  init begin() { init m = nil; }")
    form = "get(" changed(8) ", 1) = 1"
    script = looked_up(8)
    count = asserts(form, script)
    put("}")
    put("proofs {")
    assert_proofs(count, script)
    put("}")
}

function splits(    i, cases, script, parts, count) {
    put("version 1;")
    put("machine Bench {")
    put("  field x: variable;")
    put("  init begin() { init x = 0; }")
    cases = "x = 0"
    for (i = 1; i <= 40; i++) cases = cases " || x = " i
    script = "sum 1 denied, 1 a;"
    for (i = 1; i <= 40; i++) {
        parts = parts "parts " (i == 1 ? "denied" : "a") " as a, b; "
        script = "split " (i == 40 ? "one" : "a") " as a { " script " } { sum 1 denied, 1 a; }"
    }
    count = asserts("x <= 40", script)
    put("  invariant one(): " cases ";")
    put("}")
    put("proofs {")
    put("  begin keeps one by { " parts "same; }")
    assert_proofs(count, script)
    put("}")
}

BEGIN {
    if (shape == "comments") comments()
    else if (shape == "wide") wide()
    else if (shape == "sums") sums()
    else if (shape == "chain") chain()
    else if (shape == "maps") maps()
    else if (shape == "splits") splits()
    else { print "no such shape: " shape > "/dev/stderr"; exit 2 }
}
