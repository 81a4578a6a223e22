# Says what a refusal of the lister means: its number in words, the line of the feed and, where it can be told, the cause.
# Reads the bytes of the feed as numbers (od -An -v -tu1), and has the six numbers of the refusal in `told`.
# A place counts in the unfolded text; a line is told as an editor counts it, in the feed itself.

# The refusals: number, name, meaning, and what else is told of each, by the functions `tell_` below.
function table() {
    refusal(1, "TooLong", "the feed has more than 16384 bytes", "")
    refusal(2, "NoTextRoom", "the unfolded text has " number[3] " bytes, more than there is room for", "")
    refusal(3, "BadBegin", "behind BEGIN: stands nothing, or a byte that no name has", "line name")
    refusal(4, "TooDeep", "components nest at most 64 deep", "line open")
    refusal(5, "BadEnd", "nothing is open, or the open component has another name", "line open name")
    refusal(6, "Outside", "the line stands in no component", "line mark")
    refusal(7, "EmptyKey", "the line has no key: it begins with a byte that no key has", "line property")
    refusal(8, "Unclosed", "the feed ends in an open component", "open")
    refusal(9, "NoComponent", "the feed is empty, or has empty lines alone", "")
    refusal(10, "NoRoom", "there is room for 128 components, 512 properties and 512 parameters, and the feed has " number[4] ", " number[5] " and " number[6], "")
    refusal(17, "ReservedKey", "BEGIN and END are no keys, and begin or end a component only with a colon behind them", "line")
    refusal(18, "StrayByte", "behind the key and its parameters a colon, a semicolon or the end of the line is due, and another byte stands there", "line property")
}

function refusal(n, name, words, also) { meaning[n] = name ": " words; more[n] = also }

function say(words) { print "lister: " words }

BEGIN { feed_size = text_size = depth = 0 }

{ for (i = 1; i <= NF; i++) feed[feed_size++] = $i + 0 }

END {
    split(told, number, " ")
    table()
    say("refused with " number[1] ", " (number[1] in meaning ? meaning[number[1]] : "a number that this script does not know"))
    also = more[number[1]]
    alphabet()
    unfold()
    find_line(number[2] + 0)
    bad = also ~ /name/ ? name_end() : number[2] - from
    if (also ~ /line/) tell_line()
    if (also ~ /open/) tell_open()
    if (also ~ /name/) tell_name()
    if (also ~ /mark/) tell_mark()
    if (also ~ /property/) tell_property()
}

# How a byte looks to the rules below, and how it is shown: what a person cannot see is escaped, and no terminal gets it raw.
function alphabet(    c) {
    for (c = 0; c < 256; c++) {
        plain[c] = c >= 32 && c < 127 ? sprintf("%c", c) : "?"
        shown[c] = c >= 32 && c < 127 ? plain[c] : sprintf("\\x%02x", c)
    }
    plain[9] = "\t"; shown[9] = "\\t"
    plain[13] = "\r"; shown[13] = "\\r"
    shown[92] = "\\\\"
}

# ---- the unfolded text and its lines

function blank(at) { return feed[at] == 32 || feed[at] == 9 }

# How many bytes a fold has that begins at this byte of the feed: LF and a blank, and a CR before them. 0 where none begins.
function fold(at) {
    if (feed[at] == 10 && blank(at + 1)) return 2
    if (feed[at] == 13 && feed[at + 1] == 10 && blank(at + 2)) return 3
    return 0
}

# Unfolds the feed into `text`, and keeps for each byte there the line of the feed in which it stands, its `row`, and which byte of that it is.
function unfold(    at, r, skip, start) {
    r = 1
    start = 0
    for (at = 0; at < feed_size; at += skip ? skip : 1) {
        skip = fold(at)
        if (!skip) { text[text_size] = feed[at]; column[text_size] = at - start + 1; row[text_size++] = r }
        if (skip || feed[at] == 10) { r++; start = at + (skip ? skip - 1 : 1) }
    }
}

# Finds the line of the text that holds the place: its bytes from `from` up to `to`, without the break, the same as the string `line`,
# and the line of the feed where it begins. Keeps the components that are open there, and whether the line before is a property.
function find_line(place,    end) {
    for (from = 0; from < text_size; from = end + 1) {
        for (end = from; end < text_size && text[end] != 10; end++) { }
        to = end < text_size && end > from && text[end - 1] == 13 ? end - 1 : end
        line = string(from, to)
        begins = from > 0 ? row[from - 1] + 1 : 1
        if (place < end) return
        after_property = 0
        if (toupper(line) ~ /^BEGIN:/) { name_from[++depth] = from + 6; name_to[depth] = to; opened[depth] = begins }
        else if (toupper(line) ~ /^END:/) depth--
        else after_property = line != ""
    }
}

function string(a, b,    s) {
    s = ""
    while (a < b) s = s plain[text[a++]]
    return s
}

# The bytes of the text from `a` up to `b` as a person can see them, at most 80, around `at`. A space at either end is escaped too.
function visible(a, b, at,    i, last, inner, s) {
    for (inner = b; inner > a && text[inner - 1] == 32; inner--) { }
    i = at - 40 > a ? at - 40 : a
    last = i + 80 < b ? i + 80 : b
    s = i > a ? "..." : ""
    for (; i < last; i++) s = s (text[i] == 32 && (i == a || i >= inner) ? "\\x20" : shown[text[i]])
    return s (last < b ? "..." : "")
}

# How many bytes a line of the feed has, without its break.
function width(wanted,    at, r, n) {
    r = 1
    n = 0
    for (at = 0; at < feed_size && r <= wanted; at++) {
        if (feed[at] == 10) r++
        else if (r == wanted && !(feed[at] == 13 && feed[at + 1] == 10)) n++
    }
    return n
}

# The end of the name in a BEGIN or END line.
function name_end(    colon) {
    colon = index(line, ":")
    match(substr(line, colon + 1), /^[A-Za-z0-9.,\/_-]*/)
    return colon + RLENGTH
}

# ---- what is told

function tell_line(    last) {
    last = row[to - 1]
    say("line " begins " of the feed" (last > begins ? ", folded up to line " last : "") ": " visible(from, to, from + bad))
}

function tell_open() {
    if (depth == 0) say("no component is open")
    else say("the open component is " visible(name_from[depth], name_to[depth], 0) ", begun in line " opened[depth] " of the feed")
}

# The byte that is wrong; where a fold stands before it, its place in the feed too.
function tell_byte(what,    at) {
    at = from + bad
    say(what " is byte " bad + 1 " of the line" (row[at] > begins ? ", which is byte " column[at] " of line " row[at] " of the feed" : "") ": " visible(at, at + 1, at))
}

# What is wrong with a CR in front of the rest of a line: it belongs to no break. Empty where none stands there.
function lone_cr(rest) {
    if (rest !~ /^\r/) return ""
    return (rest == "\r" && to == text_size ? "the feed ends with " : "") "CR without LF; such a CR does not end the line, and is taken for a byte of it"
}

# Whether the name in an END line is the open one.
function closes() { return depth > 0 && substr(line, 5, bad - 4) == string(name_from[depth], name_to[depth]) }

# Of a BEGIN or END line: what stands behind its name, where the line would be right without it.
function tell_name(    rest) {
    rest = substr(line, bad + 1)
    if (rest == "" || (also ~ /open/ && !closes())) return
    tell_byte("the first byte that no name has")
    if (rest ~ /^[ \t]+\r*$/) say("cause: a blank stands behind the name")
    sub(/^[ \t]+/, "", rest)
    if (lone_cr(rest)) say("cause: " lone_cr(rest))
}

# Of a line in no component: a byte order mark in front of it.
function tell_mark() {
    if (text[from] == 239 && text[from + 1] == 187 && text[from + 2] == 191)
        say("cause: a byte order mark, \\xef\\xbb\\xbf, stands in front of the line; save the feed without it")
    if ((text[from] == 255 && text[from + 1] == 254) || (text[from] == 254 && text[from + 1] == 255))
        say("cause: the feed is UTF-16, as the byte order mark in front of the line shows; save it as UTF-8")
}

# Of a line without a key or with a stray byte. Behind a full line it may be the rest of that one, even if it looks like a key and `=`.
function tell_property(    rest, cause, before, full) {
    tell_byte(bad ? "the stray byte" : "the byte that no key has")
    rest = substr(line, bad + 1)
    cause = bad && rest ~ /^=/ ? "= stands where the colon is due" : lone_cr(rest)
    if (cause) say("cause: " cause)
    before = begins - 1
    full = width(before) >= 70
    if (after_property && (full || !cause))
        say((full ? "cause, it seems: " : "perhaps: ") "a fold that lost its blank; line " before " has " width(before) " bytes, " \
            "and its rest in line " begins " would have to begin with a space or tab")
}
