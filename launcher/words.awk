# The program's words. `awk -f words.awk -- fault WORD..` prints what is wrong with words that the program refuses, and
# `awk -f words.awk -- file WORD..` which of them is FILE, from 1 on, or 0. What words mean is what
# crates/ep_words/specs/Words.antt says; this only names the word at fault.

# Each command: its options, those that must be there, how its file is called, if not FILE, and what may stand behind it;
# or, without a file, its numbers.
# Each option and number: its values, or the least number, if not 0, and the greatest.
function table() {
    options["check"] = "--unroll --orders --model --domain"
    options["run"] = "--order --steps --model"
    needs["run"] = "--order --steps"
    more["run"] = "INPUT"
    options["layout"] = "--model"
    options["prove"] = "--unroll --orders --model"
    options["verify"] = ""
    named["verify"] = "CERT"
    options["sample"] = ""
    numbers["sample"] = "START FIELDS"
    values["--order"] = "little big swapped-words"
    values["--orders"] = "little,big little,swapped-words big,little big,swapped-words swapped-words,little swapped-words,big"
    values["--model"] = "ilp32 lp64"
    values["--domain"] = "bits"
    most["--unroll"] = "4096"
    most["--steps"] = "1000000"
    most["INPUT"] = "18446744073709551615"
    most["START"] = "2147483647"
    least["FIELDS"] = "1"
    most["FIELDS"] = "5000"
}

function has(list, word) {
    return word ~ /^[^ ]+$/ && index(" " list " ", " " word " ")
}

# Numbers have 1 to 20 digits, too many for arithmetic here.
function is_value(name, word) {
    if (name in values) return has(values[name], word)
    if (word !~ /^[0-9]+$/ || length(word) > 20) return 0
    sub(/^0+/, "", word)
    if (word == "") return !(name in least)
    if (length(word) != length(most[name])) return length(word) < length(most[name])
    return word "" <= most[name] ""
}

function stop(why) {
    print why
    exit
}

function stop_on_unknown(kind, word) {
    if (has("--proved --gcc --prove", word)) stop(word " stands before the command")
    stop((kind == "word" ? "word too many: " : "unknown " kind " ") word)
}

function stop_on_value(name, word,   may) {
    may = name in values ? values[name] : (name in least ? least[name] : "0") " to " most[name]
    if (!is_value(name, word)) stop("value out of range: " name " " word " (" may ")")
}

function stop_on_options(command, end,   at, name, count, names) {
    for (at = 3; at < end; at += 2) {
        name = ARGV[at]
        if (!has(options[command], name)) stop_on_unknown("option", name)
        if (name in given) stop("repeated option " name)
        if (at + 1 == ARGC) stop("missing value of " name)
        stop_on_value(name, ARGV[at + 1])
        given[name]
    }
    count = split(needs[command], names, " ")
    for (at = 1; at <= count; at++) if (!(names[at] in given)) stop("missing option " names[at])
}

function stop_on_rest(command, file,   at, name) {
    name = command in named ? named[command] : "FILE"
    if (file >= ARGC) stop("missing " name)
    if (ARGV[file] == "") stop(name " is empty")
    for (at = file + 1; at < ARGC; at++) {
        if (has(options[command], ARGV[at])) stop("option behind " name ": " ARGV[at])
        if (!(command in more)) stop_on_unknown("word", ARGV[at])
        stop_on_value(more[command], ARGV[at])
    }
    if (ARGC - file - 1 > 65536) stop("more than 65536 words behind " name)
}

function stop_on_numbers(command,   at, count, names) {
    count = split(numbers[command], names, " ")
    for (at = 1; at <= count; at++) {
        if (at + 2 >= ARGC) stop("missing " names[at])
        stop_on_value(names[at], ARGV[at + 2])
    }
    if (ARGC > count + 3) stop_on_unknown("word", ARGV[count + 3])
}

BEGIN {
    table()
    for (file = 3; file < ARGC && ARGV[file] ~ /^-/;) file += 2
    if (ARGV[1] == "file") stop(file < ARGC && ARGV[2] in options && !(ARGV[2] in numbers) ? file - 1 : 0)
    if (ARGC < 3 || ARGV[2] == "") stop("missing command")
    if (!(ARGV[2] in options)) stop_on_unknown(ARGV[2] ~ /^-/ ? "option" : "command", ARGV[2])
    stop_on_options(ARGV[2], file)
    if (ARGV[2] in numbers) stop_on_numbers(ARGV[2])
    else stop_on_rest(ARGV[2], file)
    stop("a word is no text in UTF-8")
}
