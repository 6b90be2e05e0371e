# Says for people what is wrong with a line of a script. It reads the line's bytes, two digits each, and is told:
# `what`, the word that the program said; `number`, the number of the line; `front`, how many bytes of a line come at
# most; and `opened`, whether there is a line `thread` before it.

BEGIN {
    calls = split("put K V,get K,putnew K V,compute K R,upsert K V R,remove K,hold A K,look A,scan L H,back L H", call, ",")
    for (i = 1; i <= calls; i++) {
        split(call[i], verb, " ")
        written[verb[1]] = call[i]
        form[verb[1]] = substr(call[i], length(verb[1]) + 1)
        gsub(/ /, "", form[verb[1]])
        gsub(/[LH]/, "B", form[verb[1]])
    }

    means["head"] = "line 1 is \"oak 1\", and nothing else stands in it"
    means["after end"] = "no line stands behind the line \"end\""
    means["word"] = "a line is words of one of the forms, with one space between two of them"
    means["shape"] = "a shape line has seven decimal numbers without a sign and a leading zero, each within its limits"
    means["name"] = "a name is 1 to 16 letters a to z and digits 0 to 9"
    means["hex"] = "two digits 0 to 9 or a to f for each byte"
    means["key"] = "a key or bound has at most 64 bytes, which are 128 digits"
    means["value"] = "a value has at most 1024 bytes, which are 2048 digits"
    means["recipe"] = "a recipe is \"add N\" with N from 0 to 18446744073709551615, \"xor B\" with B two digits, or \"rev\""
    means["threads"] = "a script has at most 16 lines \"thread\""
    means["calls"] = "a script has at most 262144 call lines"
    means["scans"] = "a script has at most 32 lines that are scan or back"
    means["no end"] = "the last line is \"end\""

    sizes = split("CHUNKS ENTRIES HEADERS B16 B64 B256 B1024", size_name, " ")
    split("1 4 1 0 0 0 0", least, " ")
    split("1024 256 65536 65536 65536 16384 4096", greatest, " ")
    for (i = 0; i < 256; i++) text_of[sprintf("%02x", i)] = printable(i)
}

# A byte as text: a terminal does nothing but show it.
function printable(byte) {
    if (byte == 92) return "\\\\"
    if (byte >= 32 && byte < 127) return sprintf("%c", byte)
    if (byte == 9) return "\\t"
    if (byte == 13) return "\\r"
    return sprintf("\\x%02x", byte)
}

{
    for (i = 1; i <= NF; i++) {
        if ($i == "0a") continue
        line = line text_of[$i]
        bytes++
    }
}

function cut(text, most) {
    return length(text) <= most ? "\"" text "\"" : "\"" substr(text, 1, most) "\"..."
}

function say(text) {
    print "oakmap: " text
}

# What is odd about the bytes of a text, or nothing.
function oddity(text) {
    gsub(/\\\\/, "_", text)
    if (text ~ /^\\xef\\xbb\\xbf/) return "begins with a byte order mark"
    if (text ~ /^(\\xff\\xfe|\\xfe\\xff)/) return "begins with a byte order mark of UTF-16, which no script is written in"
    if (text ~ /\\r$/) return "ends in a carriage return, as lines do that were written on Windows"
    if (text ~ /\\r/) return "has a carriage return"
    if (text ~ /\\t/) return "has a tab"
    if (text ~ /\\x/) return "has a byte that no script has"
    return ""
}

# What is odd about the spaces of a line, or nothing.
function spaces() {
    if (line ~ /^ *$/) return "has blanks alone"
    if (line ~ / $/) return "has a blank at its end"
    if (line ~ /^ /) return "has a blank before its first word"
    if (line ~ /  /) return "has two blanks in a row"
    return ""
}

# What is wrong with a line whose words are not what may stand there.
function wrong_line(    first, lower) {
    first = word[1]
    lower = tolower(first)
    if (bytes == 0) return "this line is empty"
    if (line ~ /^[ ]*#/) return "this line begins with #, and there are no comments"
    if (oddity(line) != "") return "this line " oddity(line)
    if (spaces() != "") return "this line " spaces()
    if (what != "word") return "got " cut(line, 40)
    if (first != lower && (lower in form || lower ~ /^(oak|shape|thread|end)$/))
        return "got " cut(first, 40) " in uppercase letters, and the word is \"" lower "\""
    if (first == "oak") return "\"oak 1\" is line 1 alone"
    if (first == "thread") return "\"thread\" has no word behind it"
    if (first == "shape" && number != 2) return "a shape line is line 2 alone"
    if (first == "shape") return "\"shape\" has seven numbers behind it; got " words - 1
    if (!(first in form) && first != "end")
        return "got " cut(first, 40) ", and no line begins with it"
    if (!opened) return "a call, and \"end\", stand behind the first line \"thread\""
    if (first == "end") return "\"end\" has no word behind it"
    return "the form is \"" written[first] "\"; got " words " words"
}

function is_hex(text) {
    return text ~ /^[0-9a-f]*$/ && length(text) % 2 == 0
}

function is_size(text, i) {
    return text ~ /^(0|[1-9][0-9]*)$/ && length(text) < 9 && text + 0 >= least[i] + 0 && text + 0 <= greatest[i] + 0
}

# How many words of the line are before its first one that has this fault: `slot` is what stands in its place.
function is_at_fault(slot, text) {
    if (what == "name") return slot == "A" && (text !~ /^[a-z0-9]+$/ || length(text) > 16)
    if (what == "key") return (slot == "K" || slot == "B") && length(text) > 128
    if (what == "value") return slot == "V" && length(text) > 2048
    if (what == "hex") return slot ~ /[KVB]/ && !(text == "-" && slot != "K") && !is_hex(text)
    return slot == "R"
}

# What is wrong with a word.
function wrong_word(slot, text,    length_text) {
    length_text = (bytes >= front ? "more than " : "") length(text)
    if (what == "key" || what == "value") return "got " length_text " digits"
    if (oddity(text) != "") return "got " cut(text, 40) ", which " oddity(text)
    if (what == "hex" && text == "-") return "got \"-\", and only a value or a bound may be that"
    if (what == "hex" && text ~ /^0[xX]/) return "got " cut(text, 40) ", which begins with " substr(text, 1, 2)
    if (what == "hex" && text ~ /^[0-9a-fA-F]*[A-F]/) return "got " cut(text, 40) ", which has an uppercase digit"
    if (what == "hex" && text ~ /[^0-9a-f]/) {
        match(text, /[^0-9a-f]/)
        return "got " cut(text, 40) ", which has \"" substr(text, RSTART, 1) "\""
    }
    if (what == "hex") return "got " cut(text, 40) ", which has " length_text " digits, an odd number"
    if (what == "name" && text ~ /[A-Z]/) return "got " cut(text, 40) ", which has an uppercase letter"
    if (what == "name" && length(text) > 16) return "got " cut(text, 40) ", which has " length_text " letters"
    return "got " cut(text, 40)
}

# What is wrong with a recipe, whose words begin with the one of this number.
function wrong_recipe(i,    first, argument) {
    first = word[i]
    argument = i < words ? word[i + 1] : ""
    if (oddity(line) != "") return "this line " oddity(line)
    if (first == "rev") return "got " cut(argument, 40) " behind \"rev\", which has no argument"
    if (first != "add" && first != "xor") return "got " cut(first, 40)
    if (argument == "") return "got \"" first "\" without its argument"
    if (first == "xor" && argument ~ /^[0-9A-Fa-f][0-9A-Fa-f]$/) return "got " cut(argument, 40) ", which has an uppercase digit"
    if (first == "add" && argument ~ /^0[0-9]/) return "got " cut(argument, 40) ", which has a leading zero"
    if (first == "add" && argument ~ /^[-+]/) return "got " cut(argument, 40) ", which has a sign"
    if (first == "add" && argument ~ /^[0-9]+$/) return "got " cut(argument, 40) ", which is too great"
    return "got " cut(argument, 40) " behind \"" first "\""
}

function wrong_call(    i, slot, slots) {
    slots = form[word[1]]
    for (i = 1; i <= length(slots); i++) {
        slot = substr(slots, i, 1)
        if (is_at_fault(slot, word[i + 1])) return what == "recipe" ? wrong_recipe(i + 1) : wrong_word(slot, word[i + 1])
    }
    return "got this line"
}

function wrong_shape(    i) {
    for (i = 1; i <= sizes; i++) {
        if (is_size(word[i + 1], i)) continue
        if (oddity(word[i + 1]) != "") return "this line " oddity(line)
        return size_name[i] " is from " least[i] " to " greatest[i] "; got " cut(word[i + 1], 40)
    }
    return "got this line"
}

function wrong() {
    if (what == "no end") return "the input ended before it"
    if (what ~ /^(threads|calls|scans)$/) return "this line is one more"
    if (what == "shape") return wrong_shape()
    if (what ~ /^(head|after end|word)$/) return wrong_line()
    return wrong_call()
}

END {
    words = split(line, word, /[ ]/)
    if (what == "head" && NR == 0) {
        say("there is no line 1: the input is empty")
        say(what ": " means[what])
        exit
    }
    if (what == "no end") say("there is no line " number ", and the one before it is " cut(line, 90))
    else say("line " number " is " cut(line, 90))
    say(what ": " means[what] "; " wrong())
}
