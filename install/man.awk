# Lays out helps as a man page, each of them below a line `== COMMAND`, that of the program first.

# The text as roff prints it unchanged.
function plain(text) {
    gsub(/\\/, "\\e", text)
    gsub(/-/, "\\-", text)
    gsub(/'/, "\\(aq", text)
    gsub(/`/, "\\(ga", text)
    gsub(/\^/, "\\(ha", text)
    gsub(/~/, "\\(ti", text)
    if (text ~ /^\./) text = "\\&" text
    return text
}

# The same in lines of at most 76 columns.
function fill(text,    count, words, i, line) {
    count = split(plain(text), words, / +/)
    line = words[1]
    for (i = 2; i <= count; i++)
        if (length(line) + 1 + length(words[i]) > 76) {
            print line
            line = (words[i] ~ /^\./ ? "\\&" : "") words[i]
        } else line = line " " words[i]
    print line
}

# What a command takes: names of values in italics, all else in bold.
function usage(text,    out, part, before) {
    while (match(text, /<[^<> ]+>|(^|[ [])[A-Z][A-Z-]*/)) {
        before = substr(text, 1, RSTART - 1)
        part = substr(text, RSTART, RLENGTH)
        text = substr(text, RSTART + RLENGTH)
        if (part ~ /^[ []/) before = before substr(part, 1, 1)
        gsub(/[][<> ]/, "", part)
        out = out bold(before) "\\fI" plain(part) "\\fR"
    }
    return out bold(text)
}

function bold(text) {
    if (text ~ /^[][ .]*$/) return plain(text)
    return "\\fB" plain(text) "\\fR"
}

function entry(term, text) {
    print ".TP"
    print usage(term)
    fill(text)
}

function heading(command) {
    print ".SS " (command == "top" ? "mpiprove" : "mpiprove " command)
}

# PART: one more line of this part of the help that is read.
function add(part, line) {
    lines[help, part, ++count[help, part]] = line
}

# An entry with its text, which two blanks or more part, or a text that goes on.
function add_entry(part, line,    text) {
    sub(/^ +/, "", line)
    if (line !~ /^[-<[a-z0-9]/ && count[help, part] > 0) {
        about[help, part, count[help, part]] = about[help, part, count[help, part]] " " line
        return
    }
    text = ""
    if (match(line, /  +/)) {
        text = substr(line, RSTART + RLENGTH)
        line = substr(line, 1, RSTART - 1)
    }
    add(part, line)
    about[help, part, count[help, part]] = text
}

/^== / {
    help = $2
    if (help == "failed") { failed = 1; exit 1 }
    helps[++helped] = help
    part = "front"
    next
}
/^[Uu]sage: |^ +mpiprove run / {
    sub(/^[Uu]sage: |^ +/, "")
    add("usage", $0)
    part = help == "record" ? "Options:" : "notes"
    next
}
/^(Commands|Arguments|Options|Example|Exit status):$/ { part = $0; next }
/^$/ { if (help != "record" && part != "front") part = "notes"; next }
part == "Example:" || part == "front" || part == "notes" {
    sub(/^ +/, "")
    add(part, $0)
    next
}
{ add_entry(part, $0) }

function entries(command, part,    i) {
    for (i = 1; i <= count[command, part]; i++)
        entry(lines[command, part, i], about[command, part, i])
}

# Whether this status, or this note, is one of each command.
function is_common(part, line, text,    i, k, found) {
    for (i = 2; i < helped; i++) {
        found = 0
        for (k = 1; k <= count[helps[i], part]; k++)
            if (lines[helps[i], part, k] == line && about[helps[i], part, k] == text) found = 1
        if (!found) return 0
    }
    return 1
}

function statuses(command, common,    k, line, text) {
    for (k = 1; k <= count[command, "Exit status:"]; k++) {
        line = lines[command, "Exit status:", k]
        text = about[command, "Exit status:", k]
        if (is_common("Exit status:", line, text) == common) entry(line, text)
    }
}

function name_and_synopsis(    i, k) {
    print ".\\\" Made by install/man of the help of the program."
    split(version, words, " ")
    print ".TH MPIPROVE 1 " day " \"" version "\" \"User Commands\""
    print ".SH NAME"
    sub(/^mpiprove /, "", lines["top", "front", 1])
    sub(/\.$/, "", lines["top", "front", 1])
    fill("mpiprove - " lines["top", "front", 1])
    print ".SH SYNOPSIS"
    print ".nf"
    for (i = 1; i <= helped; i++)
        for (k = 1; k <= count[helps[i], "usage"]; k++) print usage(lines[helps[i], "usage", k])
    print ".fi"
}

function commands() {
    print ".SH COMMANDS"
    entries("top", "Commands:")
    entry("record", "Runs an MPI program, and writes its text and its map")
    entry("run", "The same, and tells whether some run of the text gets stuck, and where")
}

function options(    i) {
    print ".SH OPTIONS"
    for (i = 1; i <= helped; i++) {
        heading(helps[i])
        entries(helps[i], "Arguments:")
        entries(helps[i], "Options:")
    }
}

function exit_status(    i) {
    print ".SH EXIT STATUS"
    fill("Of each command but record and run:")
    statuses(helps[2], 1)
    for (i = 2; i < helped; i++) {
        heading(helps[i])
        statuses(helps[i], 0)
    }
    heading("record, mpiprove run")
    entry("0", "the text and its map are written, and the run ended; of run and --paths also no deadlock")
    entry("1", "a fault that the recordings show; or the run hung, and the text is written; of run and --paths also deadlock")
    entry("2", "the text is written, of a run that was cut off; of run and --paths also unknown")
    entry("3", "refused: what the run did has no text, with the reason")
    entry("5", "a file failed")
    entry("6", "the words can't be read")
    entry("70", "the recorder can't be built or run")
}

function files() {
    print ".SH FILES"
    fill("Below the folder in which it is installed:")
    entry("share/doc/mpiprove", "README.md, the documents and the examples")
    entry("share/mpiprove/installed", "the list of all that was installed")
    print ".PP"
    fill("Of each user:")
    entry("~/.cache/mpiprove", "the recorder, which record builds for an MPI when it first" \
        " meets it; $XDG_CACHE_HOME/mpiprove where that variable is set")
}

function examples(    i, k) {
    print ".SH EXAMPLES"
    for (i = 1; i <= helped; i++)
        for (k = 1; k <= count[helps[i], "Example:"]; k++) example(lines[helps[i], "Example:", k])
    example("mpiprove record -o halo mpirun -n 4 ./halo")
    example("mpiprove run -o halo mpirun -n 4 ./halo")
    print ".fi"
}

function example(line) {
    if (line in shown) return
    print shown_any ? "" plain(line) : ".nf\n" plain(line)
    shown[line] = shown_any = 1
}

function notes(    k, line) {
    print ".SH NOTES"
    for (k = 1; k <= count[helps[2], "notes"]; k++) {
        line = lines[helps[2], "notes", k]
        if (is_common("notes", line, "")) fill(line)
    }
}

END {
    if (failed || helped < 3) exit 1
    name_and_synopsis()
    commands()
    options()
    exit_status()
    files()
    examples()
    notes()
}
