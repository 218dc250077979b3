# Makes the completion of a shell of the texts that `neqysbar help` writes, that of the whole first:
#
#     awk -v shell=bash -f help/completion.awk help/neqysbar.txt help/serial.txt ..
#
# shell is bash or zsh. The commands are those of the section COMMANDS, the options those of each
# section OPTIONS, with the line that explains them.

FNR == 1 {
    command = $1 == "neqysbar" && $2 != "-" ? $2 : ""
    section = ""
}
/^[A-Z]/ { section = $0 }

section == "COMMANDS" && /^    [a-z]+  / {
    commands = commands " " $1
    text = substr($0, 5)
    sub(/^[a-z]+ +/, "", text)
    sub(/\.$/, "", text)
    said[$1] = text
}

section == "OPTIONS" && command != "" && /^    --/ {
    option = $1
    options[command] = options[command] " " option
    next
}
option != "" {
    text = $0
    sub(/^ +/, "", text)
    sub(/\..*/, "", text)
    explained[command, option] = text
    option = ""
}

# the values of an option, where they are letters
function values(command, option,   words, letters, at) {
    if (explained[command, option] !~ / [A-Z] to [A-Z]$/) return ""
    split(explained[command, option], words, " ")
    for (at = 1; words[at + 1] != "to"; at++);
    letters = "ABCDEFGHIJKLMNOPQRSTUVWXYZ"
    letters = substr(letters, index(letters, words[at]), index(letters, words[at + 2]) - index(letters, words[at]) + 1)
    gsub(/./, " &", letters)
    return substr(letters, 2)
}

function bash(   name, names, count, at, list) {
    print "# Completion of neqysbar for bash"
    print "_neqysbar() {"
    print "    local word=${COMP_WORDS[COMP_CWORD]} before=${COMP_WORDS[COMP_CWORD - 1]} command=${COMP_WORDS[1]} words="
    print "    if [[ $before == *[\\<\\>] ]]; then"
    print "        compopt -o filenames"
    print "        mapfile -t COMPREPLY < <(compgen -f -- \"$word\")"
    print "        return"
    print "    fi"
    print "    case $COMP_CWORD.$command.$before in"
    print "        1.*) words=\"" substr(commands, 2) " help --help --version\" ;;"
    print "        2.help.*) words=\"" substr(commands, 2) "\" ;;"
    count = split(commands, names, " ")
    for (at = 1; at <= count; at++) {
        name = names[at]
        number = split(options[name], list, " ")
        for (which = 1; which <= number; which++)
            print "        *." name "." list[which] ") words=\"" values(name, list[which]) "\" ;;"
        if (number) print "        *." name ".*) words=\"" substr(options[name], 2) "\" ;;"
    }
    print "    esac"
    print "    case $COMP_CWORD in 2) [ \"$command\" = help ] || words+=\" --help\" ;; esac"
    print "    local given"
    print "    for given in \"${COMP_WORDS[@]:1:COMP_CWORD - 1}\"; do words=\" $words \" && words=${words/ $given / }; done"
    print "    mapfile -t COMPREPLY < <(compgen -W \"$words\" -- \"$word\")"
    print "}"
    print "complete -F _neqysbar neqysbar"
}

function zsh(   names, count, at, list, number, which, letters) {
    print "#compdef neqysbar"
    print "# Completion of neqysbar for zsh"
    print "local -a commands"
    print "commands=("
    count = split(commands, names, " ")
    for (at = 1; at <= count; at++) print "    '" names[at] ":" said[names[at]] "'"
    print "    'help:Say more of a command'"
    print ")"
    print "if (( CURRENT == 2 )); then"
    print "    if [[ $PREFIX = -* ]]; then _arguments '--help[Say what there is]' '--version[Say which version this is]'"
    print "    else _describe command commands; fi"
    print "    return"
    print "fi"
    print "case $words[2] in"
    print "    help) (( CURRENT == 3 )) && _describe command commands ;;"
    for (at = 1; at <= count; at++) {
        number = split(options[names[at]], list, " ")
        printf "    %s) shift words; (( CURRENT-- )); _arguments '--help[Say more of it]'", names[at]
        for (which = 1; which <= number; which++) {
            letters = values(names[at], list[which])
            printf " '%s[%s]:value:%s'", list[which], explained[names[at], list[which]], letters == "" ? " " : "(" letters ")"
        }
        print " ;;"
    }
    print "esac"
}

END {
    if (shell == "zsh") zsh()
    else bash()
}
