# The completions of tools/completions, made of the table that words.awk has read.

# a text between single quotes
function quoted(text) { gsub(/'/, "'\\''", text); return "'" text "'" }

# the names of all commands or of all tools
function names(kind, between,    at, text) {
    for (at = 1; at <= things; at++)
        if (thing[at] ~ "^" kind) text = text (text == "" ? "" : between) name_of[thing[at]]
    return text
}

# the names of the options
function options_of(it,    at, text) {
    for (at = 1; at <= options[it]; at++) text = text option[it, at] " "
    return text "--help"
}

function is_list(kind) { return kind !~ /[.][.]|^(file|folder|text)$/ }

# ---- bash

# what offers a value of this kind
function bash_offer(kind) {
    if (kind == "file") return "compopt -o default"
    if (kind == "folder") return "compopt -o dirnames"
    return is_list(kind) ? "_avida_offer " quoted(kind) : ""
}

function with_return(text) { return text (text == "" ? "" : "; ") "return" }

function bash(    at, place, it) {
    print "_avida_offer() { COMPREPLY=($(compgen -W \"$1\" -- \"$word\")); }\n"
    print "_avida() {"
    print "    local word=${COMP_WORDS[COMP_CWORD]} before=${COMP_WORDS[COMP_CWORD - 1]} it=${COMP_WORDS[0]##*/} at=1"
    print "    COMPREPLY=()"
    print "    [ \"$word\" != = ] || word="
    print "    [ \"$before\" != = ] || before=${COMP_WORDS[COMP_CWORD - 2]}"
    print "    case $before in *'<' | *'>') compopt -o default; return ;; esac"
    print "    if [ \"$it\" = avida ]; then"
    print "        [ \"${COMP_WORDS[1]}\" != --unproved ] || at=2"
    print "        if [ \"$COMP_CWORD\" -le \"$at\" ]; then"
    print "            _avida_offer " quoted(names("command", " ") " help --help --version --unproved")
    print "            return"
    print "        fi"
    print "        it=\"command ${COMP_WORDS[at]}\""
    print "    else"
    print "        it=\"tool $it\""
    print "    fi"
    print "    case \"$it $before\" in"
    for (at = 1; at <= things; at++) {
        it = thing[at]
        for (place = 1; place <= options[it]; place++)
            if ((it, place) in value) print "    " quoted(it " " option[it, place]) ") " with_return(bash_offer(value_kind[it, place])) " ;;"
    }
    print "    esac"
    print "    case $it in"
    for (at = 1; at <= things; at++) {
        it = thing[at]
        print "    " quoted(it) ")"
        print "        case $word in"
        print "        -*) _avida_offer " quoted(options_of(it)) " ;;"
        # Which word it is depends on those before it, and most take files all along.
        if (bash_offer(word_kind[it, 1])) print "        *) " bash_offer(word_kind[it, 1]) " ;;"
        print "        esac"
        print "        ;;"
    }
    print "    esac"
    print "}\n"
    print "complete -F _avida avida ./avida"
    # A tool has its folder before its name: some names are those of other programs.
    print "for _avida_tool in " names("tool", " ") "; do"
    print "    complete -F _avida {,./}tools/\"$_avida_tool\" " quoted(top "/tools/") "\"$_avida_tool\""
    print "done"
    print "unset _avida_tool"
}

# ---- zsh

# what stands after the colon of a message
function zsh_action(kind) {
    if (kind == "file") return "_files"
    if (kind == "folder") return "_files -/"
    return is_list(kind) ? "(" kind ")" : " "
}

# a message, of a value of this kind
function zsh_message(called, kind,    text) {
    text = called (kind ~ /[.][.]/ ? ", " bounds(kind) : "")
    gsub(/[.][.][?]?$|[?]$/, "", text)
    gsub(/:/, "\\:", text)
    return ":" text ":" zsh_action(kind)
}

function zsh_arguments(it,    at, text, name) {
    text = "_arguments -s '(- *)'{-h,--help}'[tells more]'"
    for (at = 1; at <= options[it]; at++) {
        name = option[it, at]
        text = text " " quoted(name (((it, at) in value) && name ~ /^--/ ? "=" : "") "[" option_says[it, at] "]" \
            (((it, at) in value) ? zsh_message(value[it, at], value_kind[it, at]) : ""))
    }
    for (at = 1; at <= words[it]; at++)
        text = text " " quoted((word[it, at] ~ /[.][.]/ ? "*" : word[it, at] ~ /[?]$/ ? ":" : "") zsh_message(word[it, at], word_kind[it, at]))
    return text
}

function zsh(    at, it, kind) {
    print "_avida() {"
    print "    if [[ $words[2] = --unproved ]] && (( CURRENT > 2 )); then shift words; (( CURRENT-- )); fi"
    print "    if (( CURRENT == 2 )); then"
    print "        local -a commands=("
    for (at = 1; at <= things; at++) if (thing[at] ~ /^command/) print "            " quoted(name_of[thing[at]] ":" does[thing[at]])
    print "        )"
    print "        _describe command commands"
    print "        _arguments '--help[shows all commands]' '--version[prints the version]' '--unproved[a program without proofs]'"
    print "        return"
    print "    fi"
    print "    shift words"
    print "    (( CURRENT-- ))"
    print "    case $words[1] in"
    for (at = 1; at <= things; at++)
        if (thing[at] ~ /^command/) print "    " name_of[thing[at]] ") " zsh_arguments(thing[at]) " ;;"
    print "    esac"
    print "}\n"
    print "_avida_tool() {"
    print "    case ${words[1]:t} in"
    for (at = 1; at <= things; at++)
        if (thing[at] ~ /^tool/) print "    " name_of[thing[at]] ") " zsh_arguments(thing[at]) " ;;"
    print "    esac"
    print "}\n"
    print "compdef _avida avida"
    print "compdef -p _avida_tool '(*/|)tools/(" names("tool", "|") ")'"
}

# ---- fish

# what a value of this kind takes
function fish_value(kind) {
    if (kind == "file") return " -r -F"
    if (kind == "folder") return " -x -a '(__fish_complete_directories)'"
    return " -x" (is_list(kind) ? " -a " fish_quoted(kind) : "")
}

function fish_quoted(text) { gsub(/\\/, "\\\\", text); gsub(/'/, "\\'", text); return "'" text "'" }

function fish_options(it, begin,    at, name) {
    for (at = 1; at <= options[it]; at++) {
        name = option[it, at]
        print begin (sub(/^--/, "", name) ? " -l " name : " -s " substr(name, 2)) (((it, at) in value) ? fish_value(value_kind[it, at]) : "") \
            " -d " fish_quoted(option_says[it, at])
    }
    print begin " -s h -l help -d 'tells more'"
}

function fish(    at, it, begin) {
    begin = "complete -c avida"
    print begin " -f"
    for (at = 1; at <= things; at++) {
        it = thing[at]
        if (it ~ /^command/) {
            print begin " -n 'not __fish_seen_subcommand_from " names("command", " ") "' -a " name_of[it] " -d " fish_quoted(does[it])
            fish_options(it, begin " -n '__fish_seen_subcommand_from " name_of[it] "'")
        }
    }
    print begin " -n 'not __fish_seen_subcommand_from " names("command", " ") "' -l help -d 'shows all commands'"
    print begin " -n 'not __fish_seen_subcommand_from " names("command", " ") "' -l version -d 'prints the version'"
    print begin " -n 'not __fish_seen_subcommand_from " names("command", " ") "' -l unproved -d 'a program without proofs'"
    for (at = 1; at <= things; at++) {
        it = thing[at]
        if (it !~ /^tool/) continue
        begin = "complete -p " fish_quoted("*/tools/" name_of[it])
        fish_options(it, begin)
        if (words[it] && is_list(word_kind[it, 1])) print begin " -f -a " fish_quoted(word_kind[it, 1])
        if (!words[it]) print begin " -f"
    }
}

BEGIN {
    top = ARGV[3]
    if (mode == "bash") bash()
    if (mode == "zsh") zsh()
    if (mode == "fish") fish()
}
