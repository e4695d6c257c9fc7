# Takes the blocks of a document that begin with a command, `$ ` behind four blanks. The file shown gets
# their lines, and the file script the commands with what prints each of them first. A line that begins
# with `> ` right behind a command goes on with it.

function quoted(text) {
    gsub(/'/, "'\\''", text)
    return "'" text "'"
}

function give() {
    if (command != "") print echoes command > script
    command = echoes = ""
}

/^    / {
    line = substr($0, 5)
    if (!inside) shows = line ~ /^\$ /
    inside = 1
    if (!shows) next
    print line > shown
    if (line ~ /^\$ /) {
        give()
        begins = 1
        command = substr(line, 3)
    } else if (begins && line ~ /^> /) {
        command = command "\n" substr(line, 3)
    } else {
        begins = 0
        next
    }
    echoes = echoes "printf '%s\\n' " quoted(line) "\n"
    next
}

{
    give()
    inside = begins = 0
}

END { give() }
