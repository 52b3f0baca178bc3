# Explains a refusal of mcrun by the tables and forms of docs/FORMATS.md:
#   awk -v answer='refused 5 form' -v earlier='2 3' [-v of=relay|calls] -f scripts/explain.awk docs/FORMATS.md INPUT
# The answer is the program's line: `refused LINE REASON` of a scenario, or of a text for actors where `of` names its form, `wrong LINE REASON` of a report, or
# `wrong PLACE REASON` of a frame or an image. `earlier` has the lines of a scenario that were refused before this one: what follows from them alone is not
# explained again.

BEGIN {
    split(answer, refusal, " ")
    at_line = refusal[2]
    reason = refusal[3]
    count = split(earlier, some, " ")
    for (i = 1; i <= count; i++) was_refused[some[i]] = 1
    for (i = 0; i < 256; i++) code[sprintf("%c", i)] = i
}

# Of the document, the rows of the tables of reasons, faults and calls, the forms of lines, and the ranges of numbers.
FNR == 1 { file++ }
file == 1 && /^## / { section = substr($0, 4); scenarios = (section == "Scenario files") }
file == 1 && /^```/ { in_block = !in_block }
file == 1 && in_block && scenarios && /^[a-zD]/ {
    shape[$1] = $0
    sub(/   +.*/, "", shape[$1])
    read_ranges($1, $0)
    sub(/   +/, ", with ")
    line_form[$1] = $0
    line_kind[++line_kinds] = $1
}
file == 1 && !/^[|]/ { table = "" }
file == 1 && /^[|]/ {
    split($0, column, " *[|] *")
    if (table == "") table = column[2]
    key = unquoted(column[2])
    if (table == "reason" && section == "Text of a relay") actors_meaning["relay", key] = unquoted(column[3])
    else if (table == "reason" && section == "Text of numbered calls") actors_meaning["calls", key] = unquoted(column[3])
    else if (table == "reason" && section != "Scenario files") ;
    else if (table == "reason" || table == "fault") meaning[key] = unquoted(column[3])
    if (table == "pass") verdict[unquoted(column[3])] = unquoted(column[4])
    if (table == "call, arguments" && column[2] ~ /^`/) {
        split(key, word, " ")
        form[word[1]] = (column[3] == "yes" ? "LABEL = " : "") key
        takes_label[word[1]] = column[3] == "yes"
        call_name[++calls] = word[1]
    }
}
file == 1 && /^PORT and the P of a name are/ {
    range["PORT"] = range["P of a name"] = range_in($0, "are ")
    range["D"] = range["D of a name"] = range_in($0, " D ")
    range["N of a name"] = range_in($0, "N of a name ")
    range["PRIO"] = range_in($0, "PRIO ")
    range["MAX"] = range_in($0, "MAX ")
}
file == 1 && /LIMIT is [0-9]+ to [0-9]+/ { range["LIMIT"] = range_in($0, "LIMIT is ") }

file == 2 { text[FNR] = $0; lines = FNR }

END {
    there_is_line = at_line <= lines
    line = text[at_line]
    sub(/\r$/, "", line)
    if (refusal[1] == "wrong" && reason in verdict) report()
    else if (refusal[1] == "wrong") wrong()
    else if (refusal[1] == "refused" && of != "") actors()
    else if (refusal[1] == "refused") scenario()
}

function unquoted(words) { gsub(/`/, "", words); return words }

function say(words) { print "mcrun: " words }

# `LOW to HIGH` behind these words, as `LOW HIGH`.
function range_in(words, before) {
    words = substr(words, index(words, before) + length(before))
    match(words, /[0-9]+ to [0-9]+/)
    words = substr(words, RSTART, RLENGTH)
    sub(/ to /, " ", words)
    return words
}

# The ranges `X LOW..HIGH` of the form of a line.
function read_ranges(kind, words,    name) {
    gsub(/A and B /, "A ", words)
    while (match(words, /[A-Z] [0-9]+[.][.][0-9]+/)) {
        name = substr(words, RSTART, 1)
        range[kind " " name] = substr(words, RSTART + 2, RLENGTH - 2)
        sub(/[.][.]/, " ", range[kind " " name])
        words = substr(words, RSTART + RLENGTH)
    }
    if (kind == "link") range["link B"] = range["link A"]
}

# A report. Without a line of that number, it ends too early.
function report() {
    if (there_is_line) say("line " at_line ": " substr(line, 1, 160))
    else say("line " at_line ": the text ends before it")
    say(reason ": " verdict[reason])
}

# A relay, or numbered calls.
function actors() {
    if (there_is_line) say("line " at_line ": " substr(line, 1, 160))
    else say("line " at_line ": the text ends before it")
    say(reason ": " actors_meaning[of, reason])
}

# A frame or an image.
function wrong() {
    if (reason == "hex")
        say("the input spells no bytes: the byte at " at_line " is no hexadecimal digit, or the digits there end as an odd number")
    else
        say(reason " at " at_line ": " meaning[reason])
}

function scenario(    why, how) {
    split_line()
    why = reason == "byte" ? wrong_byte() : reason == "form" ? wrong_form() : reason == "number" ? wrong_number() : \
        reason == "bytes" ? wrong_bytes() : reason == "label" ? wrong_label() : reason == "domain" ? wrong_domain() : \
        reason == "link" ? wrong_link() : ""
    if (why == "skip") return
    if (there_is_line && reason != "byte" && reason != "long") say("line " at_line ": " substr(line, 1, 160))
    else say("line " at_line ":" (there_is_line ? "" : " the text ends before it"))
    how = meaning[reason]
    if (reason == "form") sub(/:.*/, "", how)
    say(reason ": " (why != "" ? why : how))
    if (reason == "form" || reason == "number") show_form()
}

# The words of the line, and of a call line the place of its call.
function split_line(    blank) {
    blank = line
    gsub(/\t/, " ", blank)
    sub(/^ +/, "", blank)
    words_count = split(blank, words, " ")
    is_call = words[1] ~ /[.]/
    call_at = words[3] == "=" ? 4 : 2
    has_try = words[call_at] == "try"
    if (has_try) call_at += 2
    call = words[call_at]
    pattern = ""
    if (is_call && call in form) pattern = form[call]
    if (!is_call && words[1] in shape) pattern = shape[words[1]]
    sub(/^LABEL = /, "", pattern)
    pattern_count = split(pattern, pattern_word, " ")
    from = is_call ? call_at : 1
}

# What is wrong with the form of the line.
function wrong_form(    i, word, due, why) {
    if (is_call && split(words[1], some, ".") != 2) return "`" words[1] "` is not a caller, which is D.N: a domain and its node"
    if (is_call && call_at == 4 && (why = label_slip(words[2])) != "") return why
    if (pattern == "") return is_call && call_at > words_count ? "the line ends where a call is expected" : \
        "`" (is_call ? call : words[1]) "` is not " (is_call ? "a call" : "the first word of any line")
    if (is_call && takes_label[call] && words[3] != "=") return "`" call "` needs a label: its request or packet has no name yet"
    if (has_try && call ~ /^wait/) return "a wait takes no try: it makes turns of its own, up to its limit"
    for (i = 1; i <= pattern_count; i++) {
        word = words[from + i - 1]
        due = pattern_word[i]
        if (from + i - 1 > words_count) return "the line ends where " (due ~ /^[A-Z]/ ? due : "`" due "`") " is expected"
        if (due ~ /^[a-z]/ && word != due) return "`" due "` is expected in place of `" word "`"
        if (due == "KIND" && word != "packet" && word != "scalar") return "`" word "` is not a KIND, which is the word packet or scalar"
        if (due == "D:N:P" && split(word, some, ":") != 3) return "`" word "` is not a name, which is D:N:P with two colons"
        if (due == "LABEL" && (why = label_slip(word)) != "") return why
        if (due == "LABEL,LABEL" && (why = labels_slip(word)) != "") return why
    }
    if (words_count > from + pattern_count - 1)
        return "`" words[from + pattern_count] "` comes after the last word of this form; " \
            "a comment is a line of its own, with # before it"
    return ""
}

function label_slip(word) {
    if (word ~ /^[a-z][a-z0-9_]*$/ && length(word) <= 16) return ""
    return "`" word "` is not a label: " \
        (word ~ /[A-Z]/ ? "it has a capital letter" : word !~ /^[a-z]/ ? "it does not begin with a letter" : \
        length(word) > 16 ? "it has more than 16 characters" : "it has another character than a to z, digits and _")
}

function labels_slip(word,    count, i, why) {
    count = split(word, some, ",")
    if (count > 8) return "the line names " count " labels, and a wait takes eight at most"
    for (i = 1; i <= count; i++) if ((why = label_slip(some[i])) != "") return why
    return ""
}

# Which number of the line is none, or out of its range.
function wrong_number(    i, due, word, parts, why, bits) {
    if (is_call) {
        split(words[1], parts, ".")
        if ((why = number_slip(parts[1], "D", range["D.N D"])) != "") return why
        if ((why = number_slip(parts[2], "N", range["D.N N"])) != "") return why
        if (has_try && (why = number_slip(words[call_at - 1], "K of `try K`", range["D.N K"])) != "") return why
    }
    for (i = 1; i <= pattern_count; i++) {
        due = pattern_word[i]
        word = words[from + i - 1]
        why = ""
        if (due == "D:N:P") {
            split(word, parts, ":")
            why = number_slip(parts[1], "D of a name", range["D of a name"])
            if (why == "") why = number_slip(parts[2], "N of a name", range["N of a name"])
            if (why == "") why = number_slip(parts[3], "P of a name", range["P of a name"])
        } else if (due == "BITS") {
            bits = word
            if (word !~ /^(8|16|32|64)$/) return "`" word "` is not one of the BITS 8, 16, 32 and 64"
        } else if (due == "VALUE") why = number_slip(word, "VALUE of " bits " bits", "0 " greatest(bits))
        else if (due ~ /^[A-Z]+$/ && (words[1] " " due) in range && !is_call) why = number_slip(word, due, range[words[1] " " due])
        else if (is_call && due in range) why = number_slip(word, due, range[due])
        else if (due == "Q") why = number_slip(word, due, "0 18446744073709551615")
        if (why != "") return why
    }
    return ""
}

function greatest(bits) {
    return bits == 8 ? "255" : bits == 16 ? "65535" : bits == 32 ? "4294967295" : "18446744073709551615"
}

function number_slip(word, name, low_high,    ends) {
    split(low_high, ends, " ")
    if (word !~ /^[0-9]+$/) return "`" word "` is not a number; " name " is " ends[1] " to " ends[2]
    if (word ~ /^0[0-9]/) return "`" word "` has a leading zero"
    if (below(word, ends[1]) || below(ends[2], word)) return "`" word "` is out of range: " name " is " ends[1] " to " ends[2]
    return ""
}

# Whether one decimal number is below another. Numbers of 64 bits are compared as text.
function below(one, other) {
    if (length(one) != length(other)) return length(one) < length(other)
    return ("x" one) < ("x" other)
}

# The first byte that may not be in a line.
function wrong_byte(    i, letter) {
    for (i = 1; i <= length(line); i++) {
        letter = substr(line, i, 1)
        if (letter != "\t" && (code[letter] < 32 || code[letter] > 126))
            return sprintf("byte %d of the line is 0x%02x, and is neither from 0x20 to 0x7e nor a tab", i, code[letter])
    }
    return ""
}

function wrong_bytes(    i, word, bad) {
    for (i = 1; i <= pattern_count; i++) {
        if (pattern_word[i] != "BYTES") continue
        word = words[from + i - 1]
        if (word == "-") return "`raw` puts 1 to 512 bytes, and - is none"
        bad = word
        gsub(/[0-9a-fA-F]/, "", bad)
        word = length(word) > 40 ? substr(word, 1, 40) ".." : word
        if (bad != "") return "`" word "`: `" substr(bad, 1, 1) "` is not a hexadecimal digit"
        bad = length(words[from + i - 1])
        if (bad % 2) return "`" word "` has " bad " digits, and two make a byte"
        return "`" word "` has " bad / 2 " bytes, and " (call == "raw" ? "`raw` puts 1 to 512" : "9,000 are the most")
    }
    return ""
}

# Which label of the line is introduced wrongly, or used without being introduced.
function wrong_label(    domain, count, i, why) {
    split(words[1], some, ".")
    domain = some[1]
    read_labels(domain)
    if (words[3] == "=" && !takes_label[call]) return "`" call "` makes no request and lends no packet, so it takes no label"
    if (words[3] == "=" && (words[2] in introduced)) {
        if (introduced[words[2]] in was_refused) return "skip"
        return "`" words[2] "` was introduced by line " introduced[words[2]] " already; a label is introduced once"
    }
    count = split(words[call_at + 1], label, ",")
    for (i = 1; i <= count; i++) if ((why = label_use(label[i], domain)) != "") return why
    return ""
}

# Whether this label may be used by the line's call.
function label_use(name, domain,    maker, near, wanted) {
    wanted = call == "release" ? "pkt_recv or pkt_recv_i" : "lookup, msg_recv_i, connect or pkt_recv_i"
    if (name in introduced) {
        if (introduced[name] in was_refused) return "skip"
        maker = maker_of[name]
        if (call == "release" ? maker ~ /^pkt_recv/ : maker ~ /^(lookup|msg_recv_i|connect|pkt_recv_i)$/) return ""
        return "`" name "` is of the `" maker "` in line " introduced[name] "; `" call "` takes the label of a " wanted
    }
    if (name in elsewhere)
        return "`" name "` belongs to domain " owner[name] " (line " elsewhere[name] "); a label is used in its own domain alone"
    if (name in later) return "`" name "` is introduced below, in line " later[name] "; a label is used in lines below that one"
    near = nearest(name, introduced)
    if (near != "") return "no line introduces `" name "`; did you mean `" near "` of line " introduced[near] "?"
    return "no line of domain " domain " above introduces `" name "`, by a " wanted
}

# The labels that lines above and below introduce in this domain, and those of other domains.
function read_labels(domain,    i, of, word) {
    for (i = 1; i <= lines; i++) {
        if (i == at_line || text[i] !~ /=/) continue
        of = text[i]
        gsub(/[\t\r]/, " ", of)
        sub(/^ +/, "", of)
        split(of, word, " ")
        if (word[3] != "=" || word[1] !~ /^[0-7][.]/) continue
        of = substr(word[1], 1, 1)
        if (of != domain) { if (!(word[2] in elsewhere)) { elsewhere[word[2]] = i; owner[word[2]] = of } }
        else if (i > at_line) { if (!(word[2] in later)) later[word[2]] = i }
        else if (!(word[2] in introduced)) { introduced[word[2]] = i; maker_of[word[2]] = word[4] == "try" ? word[6] : word[4] }
    }
}

# Which domain the line names that is not declared, or declares again.
function wrong_domain(    i, first, count, named, word) {
    if (!there_is_line) return "the file declares no domain; its first line may be: domain 0 nodes 1 pool 2"
    for (i = 1; i < at_line; i++) {
        split(text[i], word, " ")
        if (word[1] == "domain") declared[word[2]] = i
    }
    if (words[1] == "domain") return "domain " words[2] " is declared by line " declared[words[2]] " already"
    count = words[1] == "link" ? 2 : 1
    named[1] = words[1] == "link" ? words[2] : substr(words[1], 1, index(words[1], ".") - 1)
    named[2] = words[3]
    for (i = 1; i <= count; i++) {
        if (!(named[i] in declared))
            return "no line above declares domain " named[i] ": domain " named[i] " nodes N pool P"
    }
    return ""
}

function wrong_link(    i, word) {
    if (words[2] == words[3]) return "domain " words[2] " is linked to itself; it has a lane to itself without a link"
    for (i = 1; i < at_line; i++) {
        split(text[i], word, " ")
        if (word[1] != "link" || i in was_refused) continue
        if ((word[2] == words[2] && word[3] == words[3]) || (word[2] == words[3] && word[3] == words[2]))
            return "domains " words[2] " and " words[3] " are linked by line " i " already; one link has a lane each way"
    }
    return "size " words[5] " is not a power of two from 2 to 256"
}

# The form that the line has, or the nearest one.
function show_form(    near, kind, at) {
    if (!is_call) {
        near = nearest(words[1], line_form)
        if (near != "") say("the form of a " near " line: " line_form[near])
        else for (kind = 1; kind <= line_kinds; kind++) say("a line may be: " line_form[line_kind[kind]])
        return
    }
    for (at = 2; at <= words_count; at++)
        if (words[at] in form) { say("the form of this call: " form[words[at]]); return }
    near = nearest(call, form)
    if (near != "") { say("there is no call `" call "`; did you mean: " form[near]); return }
    say((call_at > words_count ? "the line names no call" : "there is no call `" call "`") "; the calls are:")
    for (at = 1; at <= calls; at++) say("  " form[call_name[at]])
}

# The name that the fewest edits make of the word, where these are fewer than half its letters.
function nearest(word, names,    name, edits, least, best) {
    least = length(word) / 2
    best = ""
    for (name in names) {
        edits = distance(word, name)
        if (edits < least) { least = edits; best = name }
    }
    return best
}

# How many letters have to be added, left out or replaced to make one word of the other.
function distance(one, other,    i, j, before, row, cost, here) {
    for (j = 0; j <= length(other); j++) row[j] = j
    for (i = 1; i <= length(one); i++) {
        before = row[0]
        row[0] = i
        for (j = 1; j <= length(other); j++) {
            cost = before + (substr(one, i, 1) != substr(other, j, 1))
            here = row[j]
            if (here + 1 < cost) cost = here + 1
            if (row[j - 1] + 1 < cost) cost = row[j - 1] + 1
            before = here
            row[j] = cost
        }
    }
    return row[length(other)]
}
