# Reads LoLA's place/transition nets: PLACE, MARKING, TRANSITION, CONSUME, PRODUCE. Fairness and what else it doesn't know end it.

# The pairs `place: number, place, ..` of a list; a number that is missing is 1.
function read_pairs(text, section, transition) {
    count = split(text, pairs, ",")
    for (k = 1; k <= count; k++) {
        fields = split(pairs[k], pair, ":")
        number = fields == 2 ? pair[2] : 1
        if (pair[1] == "" && count == 1)
            return
        if (section == "MARKING")
            add_tokens(pair[1], number)
        else if (section == "CONSUME")
            add_arc(pair[1], transition, number)
        else
            add_arc(transition, pair[1], number)
    }
}

# A statement that ends with a semicolon, its first word a keyword. A transition has no semicolon of its own.
function read_statement(text) {
    sub(/^ +/, "", text)
    if (text ~ /^TRANSITION /) {
        sub(/^TRANSITION +/, "", text)
        transition = text
        sub(/ .*/, "", transition)
        add_node("transition", transition)
        sub(/^[^ ]* */, "", text)
    }
    section = text
    sub(/ .*/, "", section)
    sub(/^[^ ]* */, "", text)
    gsub(/ /, "", text)
    if (section == "PLACE") {
        count = split(text, places, ",")
        for (k = 1; k <= count; k++)
            add_node("place", places[k])
    } else if (section == "MARKING" || section == "CONSUME" || section == "PRODUCE")
        read_pairs(text, section, transition)
    else if (section != "")
        refuse("'" section " " text "'")
}

{
    sub(/\/\/.*/, "")
    whole = whole " " $0
}

END {
    gsub(/\{[^}]*\}/, " ", whole)
    gsub(/[ \t\r]+/, " ", whole)
    statements = split(whole, parts, ";")
    for (s = 1; s <= statements; s++)
        read_statement(parts[s])
}
