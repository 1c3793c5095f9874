# Writes a place/transition net in the profile. A filter for another format is read beside this file: it calls add_node, add_tokens
# and add_arc, and refuse for what it doesn't know.

function escaped(id) {
    gsub(/&/, "\\&amp;", id)
    gsub(/</, "\\&lt;", id)
    gsub(/"/, "\\&quot;", id)
    return id
}

function refuse(what) {
    print what " may change the net" > "/dev/stderr"
    refused = 1
    exit 1
}

# A place or a transition, each once.
function add_node(kind, id) {
    if (!((kind, id) in known)) {
        known[kind, id] = 1
        kinds[++nodes] = kind
        ids[nodes] = id
    }
}

function add_tokens(place, count) {
    add_node("place", place)
    tokens[place] = count
}

function add_arc(source, target, weight) {
    sources[++arcs] = source
    targets[arcs] = target
    weights[arcs] = weight
}

END {
    if (refused)
        exit 1
    print "<pnml xmlns=\"http://www.pnml.org/version-2009/grammar/pnml\">"
    print "<net id=\"net:\" type=\"http://www.pnml.org/version-2009/grammar/ptnet\">"
    for (i = 1; i <= nodes; i++) {
        mark = ids[i] in tokens && kinds[i] == "place" ? "<initialMarking><text>" tokens[ids[i]] "</text></initialMarking>" : ""
        print "<" kinds[i] " id=\"" escaped(ids[i]) "\">" mark "</" kinds[i] ">"
    }
    for (i = 1; i <= arcs; i++) {
        print "<arc id=\"arc:" i "\" source=\"" escaped(sources[i]) "\" target=\"" escaped(targets[i]) "\"><inscription><text>" \
            weights[i] "</text></inscription></arc>"
    }
    print "</net></pnml>"
}
