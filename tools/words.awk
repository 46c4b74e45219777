# Reads tools/commands.txt for ./avida and for tools/completions:
#
#   awk -f words.awk usage TABLE            prints the usage of ./avida
#   awk -f words.awk reads TABLE COMMAND    prints what a command reads
#   awk -f words.awk check TABLE CONFIGURATION WORD..
#
# The last one looks at the words of a command line before the program does. Where the program would reject them it says
# why on standard error, with status 1. Of --help it prints what is asked for, with status 3. Where the program reads a
# configuration, which may stand in the file of this name, and a line of it looks faulty, the status is 4. And else 0.

function read_table(path,    line, part, count, kind, it) {
    while ((getline line < path) > 0) {
        if (line == "" || line ~ /^#/) continue
        count = split(line, part, / *[|] */)
        kind = part[1]
        sub(/ +$/, "", kind)
        # The tools stand last.
        if (kind == "tool" && mode == "check") break
        if (kind == "command" || kind == "tool") {
            it = kind " " part[2]
            thing[++things] = it
            name_of[it] = part[2]
            does[it] = part[count]
            if (kind == "command") { reads[it] = part[3]; writes[it] = part[4] }
        } else if (kind == "word") {
            word[it, ++words[it]] = part[2]; word_kind[it, words[it]] = part[3]; word_says[it, words[it]] = part[4]
        } else if (kind == "option" || kind == "flag") {
            option[it, ++options[it]] = part[2]
            if (kind == "option") { value[it, options[it]] = part[3]; value_kind[it, options[it]] = part[4] }
            option_says[it, options[it]] = part[count]
        } else if (kind == "example") {
            example[it] = part[2]
        } else if (kind == "key") {
            key_kind[part[2]] = part[3]
        }
    }
    close(path)
}

# ---- Texts

# `1..64` in words
function bounds(kind,    part) {
    if (kind ~ / of /) { split(kind, part, / of /); return part[1] " numbers with commas between, each " bounds(part[2]) }
    if (kind ~ /[.][.]/) { split(kind, part, /[.][.]/); return "from " part[1] " to " part[2] }
    return kind
}

# the words of a command after its name, as a usage has them
function form(it,    at, text) {
    for (at = 1; at <= words[it]; at++) text = text " " word[it, at]
    for (at = 1; at <= options[it]; at++) text = text " [" option[it, at] (((it, at) in value) ? " " value[it, at] : "") "]"
    return text
}

function usage(    at, it, call, list, seen, place) {
    print "Avida: a world of programs that copy themselves, make errors and evolve.\n"
    print "usage: ./avida COMMAND < INPUT > OUTPUT\n"
    for (at = 1; at <= things; at++) {
        it = thing[at]
        if (it !~ /^command/) continue
        call = "  " name_of[it] form(it)
        if (length(call) < 30) printf "%-30s%s\n", call, does[it]
        else printf "%s\n%30s%s\n", call, "", does[it]
        print "      ./avida " example[it]
        for (place = 1; place <= words[it]; place++) list = with_range(list, it, word[it, place], word_kind[it, place])
        for (place = 1; place <= options[it]; place++)
            if ((it, place) in value) list = with_range(list, it, value[it, place], value_kind[it, place])
    }
    print "\n./avida COMMAND --help tells more of a command. ./avida --unproved COMMAND .. runs a program that was compiled"
    print "without any proof, in two minutes the first time: a first look. ./avida --version prints the version.\n"
    print list ".\n"
    print "The first call builds the program, and so does the first one after a source has changed."
    print "Status: 0 done; 2 the command line is invalid; 3 the input is rejected; 4 a read failed; 5 a write failed;"
    print "6 out of memory; 70 the build failed; 127 the build needs the command rt. README.md leads on from here."
}

# the list of ranges with that of one more value, on lines of 110 characters
function with_range(list, it, called, kind,    more, last) {
    if ((called, kind) in seen_range) return list
    seen_range[called, kind] = 1
    more = called ((called in seen_name) ? " of " name_of[it] : "") " is " bounds(kind)
    seen_name[called] = 1
    if (list == "") return more
    last = list
    sub(/.*\n/, "", last)
    return list "," (length(last) + length(more) > 108 ? "\n" : " ") more
}

function help(it,    at) {
    printf "usage: ./avida %s%s%s\n\n", name_of[it], form(it), (reads[it] == "nothing" ? "" : " < INPUT") " > OUTPUT"
    print "It " does[it] ".\n"
    print "  input    " reads[it]
    print "  output   " writes[it]
    if (words[it] + options[it]) print ""
    for (at = 1; at <= words[it]; at++) help_line(word[it, at], word_kind[it, at], word_says[it, at])
    for (at = 1; at <= options[it]; at++)
        if ((it, at) in value) help_line(option[it, at] " " value[it, at], value_kind[it, at], option_says[it, at])
        else help_line(option[it, at], "", option_says[it, at])
    print "\n  ./avida " example[it]
    print "\ndocs/FORMATS.md has the input and the output line by line, and docs/GUIDE.md what to do with them."
}

function help_line(called, kind, says) {
    printf "  %-16s %s\n", called, (kind == "" ? "" : bounds(kind) ": ") says
}

# ---- Nearest words

function least(one, other) { return one < other ? one : other }

# how many letters are wrong, missing, added or exchanged with the next one, whatever their case
function distance(one, other,    row, at, place, cost) {
    one = tolower(one); other = tolower(other)
    for (at = 0; at <= length(one); at++) row[at, 0] = at
    for (place = 0; place <= length(other); place++) row[0, place] = place
    for (at = 1; at <= length(one); at++)
        for (place = 1; place <= length(other); place++) {
            cost = substr(one, at, 1) != substr(other, place, 1)
            row[at, place] = least(least(row[at - 1, place] + 1, row[at, place - 1] + 1), row[at - 1, place - 1] + cost)
            if (at > 1 && place > 1 && substr(one, at, 1) == substr(other, place - 1, 1) && substr(one, at - 1, 1) == substr(other, place, 1))
                row[at, place] = least(row[at, place], row[at - 2, place - 2] + 1)
        }
    return row[length(one), length(other)]
}

# keeps in `nearest` the nearest of the names that are tried, where less than half of its letters are wrong
function try_name(given, name,    far) {
    far = index(tolower(name), tolower(given)) == 1 && length(given) > 1 ? 0.5 : distance(given, name)
    if (far * 2 < length(name) && (nearest == "" || far < nearest_far)) { nearest = name; nearest_far = far }
}

# ---- Checks

# a word as a line shows it
function shown(text) {
    gsub(/[^ -~]/, "?", text)
    return text == "" ? "an empty word" : substr(text, 1, 60)
}

function fault(text) {
    print "avida: " text > "/dev/stderr"
    exit 1
}

# numbers beyond 53 bits too
function is_above(one, other) {
    return length(one) != length(other) ? length(one) > length(other) : (one "") > (other "")
}

function is_number(text, range,    part) {
    if (text !~ /^(0|[1-9][0-9]*)$/) return 0
    split(range, part, /[.][.]/)
    return !is_above(part[1], text) && !is_above(text, part[2])
}

function is_of_kind(text, kind,    part, each, count, at) {
    if (kind !~ / of /) return is_number(text, kind)
    split(kind, part, / of /)
    count = split(text, each, /,/)
    for (at = 1; at <= count; at++) if (!is_number(each[at], part[2])) return 0
    return count == part[1]
}

function is_file(text,    line, found) {
    if (text ~ /[\/]|[.][a-z]+$/) return 1
    found = text != "" && (getline line < text) >= 0
    close(text)
    return found
}

function check_value(called, kind, text) {
    if (is_of_kind(text, kind)) return
    if (text !~ /^[-+]?[0-9,]+$/ && is_file(text)) fault(called " is " bounds(kind) ", and a file is given by < " shown(text))
    fault(called " is " bounds(kind) ", not " shown(text) (text ~ /^0[0-9]+$/ ? ": no zero stands before other digits" : ""))
}

# the place of an option of this name
function place_of(it, name,    at) {
    for (at = 1; at <= options[it]; at++) if (option[it, at] == name) return at
    return 0
}

function no_option(it, text,    at, name) {
    name = text
    sub(/=.*/, "", name)
    if (name == "--version" || name == "--unproved") fault(name " stands before a command: ./avida " name)
    nearest = ""
    for (at = 1; at <= options[it]; at++) try_name(name, option[it, at])
    at = place_of(it, nearest)
    fault(name_of[it] " has no option " shown(name) (at ? "; the nearest is " nearest (((it, at) in value) ? " " value[it, at] : "") \
        : "; ./avida " name_of[it] " --help has them all"))
}

function extra_word(it, text) {
    if (reads[it] != "nothing" && is_file(text))
        fault(name_of[it] " reads " reads[it] " from standard input: give the file by < " shown(text))
    fault(name_of[it] " takes " (words[it] ? "no further word" : "no word") ", and " shown(text) " is one: ./avida " example[it])
}

function check_command(it, first, last,    at, text, name, place, count, ended, waits) {
    for (at = first; at <= last && ARGV[at] != "--"; at++)
        if (ARGV[at] == "--help" || ARGV[at] == "-h") { help(it); exit 3 }
    for (at = first; at <= last; at++) {
        text = ARGV[at]
        if (waits) {
            if (text ~ /^-/) break
            check_value(option[it, waits], value_kind[it, waits], text)
            waits = 0
        } else if (!ended && text == "--") {
            ended = 1
        } else if (!ended && text ~ /^--?[^-0-9]/) {
            name = text
            sub(/=.*/, "", name)
            place = place_of(it, name)
            if (!place) no_option(it, text)
            if (place in given) fault(name " stands twice")
            given[place]
            if (!((it, place) in value)) {
                if (name != text) fault(name " takes no value: it stands alone")
            } else if (name == text) {
                waits = place
            } else {
                check_value(name, value_kind[it, place], substr(text, length(name) + 2))
            }
        } else if (++count > words[it]) {
            extra_word(it, text)
        } else {
            check_value(word[it, count], word_kind[it, count], text)
            told[count] = text
        }
    }
    if (waits) fault(option[it, waits] " needs a value: " value[it, waits] " is " bounds(value_kind[it, waits]))
    if (count < words[it])
        fault(name_of[it] " needs " word[it, count + 1] ", " bounds(word_kind[it, count + 1]) ": ./avida " example[it])
}

function check_words(first, last,    it, at, text) {
    text = ARGV[first]
    if (text == "help" || text == "--help" || text == "-h") {
        it = "command " ARGV[first + 1]
        if (it in does) help(it)
        else usage()
        exit 3
    }
    it = "command " text
    if (it in does) { check_command(it, first + 1, last); return it }
    if (text ~ /^-/) fault(shown(text) " is no command, and no option stands before one but --unproved; ./avida --help shows all")
    nearest = ""
    for (at = 1; at <= things; at++) if (thing[at] ~ /^command/) try_name(text, name_of[thing[at]])
    fault("no command is called " (text == "" ? "by an empty word" : shown(text)) (nearest == "" ? "" : "; the nearest is " nearest) \
        "; ./avida --help shows all")
}

# A line `key = value` of the top table that the program would reject, or a world that the command's words don't fit. Lines
# within brackets, in long strings and below the header of a table aren't looked at.
function is_odd(path, it,    line, depth, part, key, text, size) {
    size["width"] = size["height"] = 60
    while ((getline line < path) > 0) {
        sub(/\r$/, "", line)
        if (line ~ /"""|'''/ || (!depth && line ~ /^[ \t]*\[/)) break
        text = line
        gsub(/"[^"]*"|'[^']*'/, "s", text)
        sub(/#.*/, "", text)
        if (!depth && text ~ /^[ \t]*[A-Za-z0-9_-]+[ \t]*=/) {
            key = text
            gsub(/^[ \t]*|[ \t]*=.*/, "", key)
            sub(/^[^=]*=[ \t]*/, "", text)
            sub(/[ \t]*$/, "", text)
            if (!(key in key_kind)) return 1
            if (key_kind[key] ~ /[.][.]/ ? !is_number(text, key_kind[key]) : key_kind[key] ~ / / && text != "true" && text != "false") return 1
            size[key] = text
        }
        depth += gsub(/[[{]/, "", text) - gsub(/[]}]/, "", text)
    }
    close(path)
    size["cells"] = size["width"] * size["height"]
    if (it == "command lineage") return told[1] >= size["cells"]
    return it == "command assay" && told[1] * size["cells"] > 131072
}

BEGIN {
    mode = ARGV[1]
    read_table(ARGV[2])
    if (mode == "usage") usage()
    else if (mode == "reads") print reads["command " ARGV[3]]
    else if (mode == "check") {
        it = check_words(4, ARGC - 1)
        if (ARGV[3] != "" && reads[it] == "a configuration" && is_odd(ARGV[3], it)) exit 4
    }
}
