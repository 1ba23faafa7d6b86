# stack.awk MODULE SIZES RELOCATIONS: each public function of a library, and the bytes of stack that a call needs at most:
# the compiler's own sizes of the functions' frames (-fstack-usage), added up along the calls in the object, which has each
# function in a section of its own (readelf -rW). What functions outside the library take is not in it. Refused are
# recursion and a call of a function that is not named: they are looked for in the module, where every call is seen.

function refuse(why) {
    print "stack: " why >"/dev/stderr"
    failed = 1
    exit 1
}

# The function that a line of the module defines or calls.
function named(line) {
    if (!match(line, /(define|call) [^@%]*@("[^"]*"|[^"( ]*)\(/)) refuse("a call of a function that is not named: " line)
    line = substr(line, RSTART, RLENGTH - 1)
    sub(/[^@]*@/, "", line)
    gsub(/"/, "", line)
    return line
}

# The most that a chain of calls from this function needs, in the graph of the module, which has no sizes, or of the object.
function deepest(graph, name, callee, count, below, most) {
    if (busy[graph, name]) refuse(name " calls itself")
    if ((graph, name) in answer) return answer[graph, name]
    busy[graph, name] = 1
    for (count = split(calls[graph, name], callee, " "); count > 0; count--) {
        below = deepest(graph, callee[count])
        if (below > most) most = below
    }
    busy[graph, name] = 0
    return answer[graph, name] = size[graph, name] + most
}

FNR == 1 { part++ }

part == 1 && /^define/ {
    caller = named($0)
    if (!/^define internal/) public[++publics] = caller
}
part == 1 && /^ .*(call|callbr|invoke) / { calls["module", caller] = calls["module", caller] " " named($0) }

part == 2 {
    if ($NF != "static") refuse("a frame whose size is not fixed: " $0)
    sub(/^[^:]*:/, "")
    size["object", $1] = $2
}

part == 3 && /^Relocation section/ {
    caller = $3
    code = sub(/^'\.rela?\.text\./, "", caller)
    sub(/'$/, "", caller)
}
# A place in the function itself, as in a table of jumps, is no call.
part == 3 && code {
    sub(/^\.text\./, "", $5)
    if (("object", $5) in size && $5 != caller) calls["object", caller] = calls["object", caller] " " $5
}

END {
    if (failed) exit 1
    for (i = 1; i <= publics; i++) {
        deepest("module", public[i])
        print public[i], deepest("object", public[i])
    }
}
