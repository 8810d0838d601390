# Prints each command of the program with the options that it takes, `prove out workers ..`, from
# the sources arguments.rt and commands.rt, which are read in this order.
#
# A command is a function NAME_command with a call of named(alloc, "NAME", ..) and a call of
# with(.., ARGUMENT(alloc)) for each argument, or of a function with_NAME above it that has such
# calls. An argument is a function whose body names a constant in capitals, or calls a function of
# the same file that does.

function fault(words) {
    print FILENAME ": " words > "/dev/stderr"
    failed = 1
    exit 1
}

# The option that this function of arguments.rt makes, or nothing for a positional argument.
function option(name, depth,    word, count, words, i) {
    if (!(name in body) || depth > 4) fault("no argument is made by " name)
    count = split(body[name], words, /[^A-Za-z_]+/)
    for (i = 1; i <= count; i++)
        if (words[i] in value) return value[words[i]]
    for (i = 2; i <= count; i++)
        if (words[i] in body && words[i] != name) return option(words[i], depth + 1)
    fault("no constant is named by " name)
}

# The commands' function is whole: its name, and what its arguments make.
function end_command(    line, call, name) {
    if (!match(code, /named\( *alloc, *"[a-z]+"/)) fault("no name in " in_function)
    line = substr(code, RSTART, RLENGTH)
    gsub(/^[^"]*"|"$/, "", line)
    for (name in shared) sub(name "\\(alloc,[^;]*", shared[name], code)
    while (match(code, /with\([^;]*, *[a-z_]+\(alloc\)\)/)) {
        call = substr(code, RSTART, RLENGTH)
        code = substr(code, RSTART + RLENGTH)
        match(call, /[a-z_]+\(alloc\)\)$/)
        name = option(substr(call, RSTART, RLENGTH - 8), 0)
        if (name ~ /^[a-z]/) line = line " " name
    }
    print line
    printed++
}

/^pub const [A-Z]+: &str = "/ {
    name = $3
    sub(/:$/, "", name)
    text = $0
    gsub(/^[^"]*"|".*$/, "", text)
    value[name] = text
}
/^(pub )?fn / {
    in_function = $0
    sub(/^(pub )?fn /, "", in_function)
    sub(/[<(].*/, "", in_function)
    code = ""
}
in_function != "" && !/^ *(requires|ensures) / { code = code " " $0 }
/^}/ && in_function != "" {
    if (FILENAME ~ /commands\.rt$/) {
        if (in_function ~ /^with_/) shared[in_function] = code
        if (in_function ~ /_command$/) end_command()
        if (in_function == "command") called = gsub(/[a-z]_command\(alloc\)/, "", code)
    } else {
        gsub(/"[^"]*"/, "", code)
        body[in_function] = code
    }
    in_function = ""
}
END {
    if (!failed && (printed == 0 || printed != called))
        fault(printed + 0 " commands are made, and " called + 0 " are called")
}
