# Reads Tina's textual nets (.net): names without braces, weights as in p*2. Labels and time intervals are passed over. Test and
# inhibitor arcs (p?1, p?-1), stopwatches, priorities and what else it doesn't know end it.

# The place of an arc's word, and its weight in `weight`.
function place_of(word) {
    if (word !~ /^[A-Za-z_'][A-Za-z0-9_']*(\*[0-9]+)?$/)
        refuse("line " NR ": " word)
    weight = index(word, "*") ? substr(word, index(word, "*") + 1) : 1
    sub(/\*.*/, "", word)
    add_node("place", word)
    return word
}

# The arcs of a node from this word on: those before the arrow come in, the others go out.
function read_arcs(node, is_place, at) {
    is_out = 0
    for (; at <= NF; at++) {
        if ($at == "->") {
            is_out = 1
            continue
        }
        if (is_place)
            refuse("line " NR ": arcs of a place")
        place = place_of($at)
        if (is_out)
            add_arc(node, place, weight)
        else
            add_arc(place, node, weight)
    }
}

# The number of the first word after the name, a label and an interval.
function after_head(at) {
    if ($at == ":")
        at += 2
    if ($at ~ /^[][][0-9w,.]+[][]$/)
        at++
    return at
}

/^[ \t\r]*(#|$)/ || $1 == "net" || $1 == "nt" { next }
$1 == "tr" {
    add_node("transition", $2)
    read_arcs($2, 0, after_head(3))
    next
}
$1 == "pl" {
    add_node("place", $2)
    at = after_head(3)
    if ($at ~ /^\([0-9]+\)$/) {
        add_tokens($2, substr($at, 2, length($at) - 2))
        at++
    }
    read_arcs($2, 1, at)
    next
}
{ refuse("line " NR ": " $1) }
