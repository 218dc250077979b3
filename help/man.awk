# Makes the man page neqysbar(1) of the texts that `neqysbar help` writes, that of the whole first:
#
#     awk -v version=1.0.0 -f help/man.awk help/neqysbar.txt help/serial.txt ..
#
# A text has its name and what it is in its first line, and then sections. A line at the left is a
# section's heading. One that stands four in belongs to a paragraph, but if two blanks and an explanation
# stand behind it, or the next one stands twelve in and explains it: then it is a term. Those of a section
# USAGE, up to an empty line, and of a section EXAMPLE are kept as they are.

function escaped(text) {
    gsub(/\\/, "\\e", text)
    gsub(/-/, "\\-", text)
    if (text ~ /^[.']/) text = "\\&" text
    return text
}

function put(line) { page[part] = page[part] line "\n" }

function keep_no_more() {
    if (kept) put(".fi\n.RE")
    kept = 0
}

function begin_text(line,   name) {
    split(line, name, " - ")
    command = name[1]
    sub(/^neqysbar ?/, "", command)
    part = command == "" ? "whole" : "commands"
    if (command == "") put(".SH NAME\nneqysbar \\- " name[2])
    else put(".SH " toupper(command) "\n" toupper(substr(name[2], 1, 1)) substr(name[2], 2) ".")
}

function begin_section(line) {
    section = line
    paragraph = 1
    if (command != "") {
        put(".SS " substr(line, 1, 1) tolower(substr(line, 2)))
        return
    }
    # behind the options of the whole stand the commands
    if (section == "STATUS") part = "end"
    put(".SH " (line in HEADINGS ? HEADINGS[line] : line))
}

function empty_line() {
    paragraph = 1
    if (section != "USAGE" || !kept) return
    keep_no_more()
    section = "text"
    if (command == "") put(".SH DESCRIPTION")
}

function keep(line) {
    if (!kept) put(".RS 4\n.nf")
    kept = 1
    put(escaped(line))
}

# a line that stands four in, and the next one
function text_line(line, following,   gap) {
    gap = match(line, /   */)
    if (gap || following ~ /^            /) {
        put(".TP 8\n.B " escaped(gap ? substr(line, 1, gap - 1) : line))
        if (gap) put(escaped(substr(line, gap + RLENGTH)))
        paragraph = 1
        return
    }
    if (paragraph) put(".PP")
    put(escaped(line))
    paragraph = 0
}

{
    lines[NR] = $0
    first[NR] = FNR == 1
}

END {
    HEADINGS["USAGE"] = "SYNOPSIS"
    HEADINGS["STATUS"] = "EXIT STATUS"
    HEADINGS["EXAMPLE"] = "EXAMPLES"
    for (at = 1; at <= NR; at++) {
        line = lines[at]
        if (first[at] || line ~ /^[A-Z]/) keep_no_more()
        if (first[at]) begin_text(line)
        else if (line ~ /^[A-Z]/) begin_section(line)
        else if (line == "") empty_line()
        else if (section == "USAGE" || section == "EXAMPLE") keep(substr(line, 5))
        else if (line ~ /^            /) put(escaped(substr(line, 13)))
        else text_line(substr(line, 5), lines[at + 1])
    }
    keep_no_more()
    print ".TH NEQYSBAR 1 \"\" \"neqysbar " version "\""
    printf "%s%s%s", page["whole"], page["commands"], page["end"]
}
