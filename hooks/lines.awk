# Presents what each_file prints. Findings, errors and diffs go to standard output. Explanations and the files that are
# left alone go to standard error, and so does the command that repairs the files, at the end.
#
#   .. | REPAIR=COMMAND STAGE=COMMAND LC_ALL=C awk [-v pairs=1] -f lines.awk
#
# REPAIR is the command that repairs files, without their names, or nothing. STAGE is the command that stages them then,
# or nothing. With pairs=1 the explanation of a finding follows the finding; otherwise it is dropped.
#
# Some lines are marks. The character 2: the names after it, up to the next such mark, are not those of files. The
# character 3 and a line: the line goes to standard error.
#
# A diff begins with the lines `--- NAME` and `+++ NAME`. The line before each hunk says how many lines the hunk has.

BEGIN {
    MOST = 20
}

function put(line, is_aside) {
    if (is_aside) {
        print line > "/dev/stderr"
        fflush("/dev/stderr")
    } else {
        print line
        fflush()
        # (Only at the next output does mawk notice that a write has failed.)
        printf "%s", ""
    }
}

# Puts a line, or holds it until the explanations of all findings are known.
function take(line, is_aside) {
    if (pairs) {
        held[++lines] = line
        aside[lines] = is_aside
    } else {
        put(line, is_aside)
    }
}

# Records a file that `fmt` would change, by its quoted name.
function note(name) {
    if (!is_unnamed && name != names[count] && name !~ /^\/dev\//) {
        names[++count] = name
    }
}

# Records the explanation of a finding: the line NAME:   L:C ID: WORDS, with its three spaces at this position.
function note_explanation(line, at,    rest) {
    rest = substr(line, at + 4)
    match(rest, /^[0-9]+:[0-9]+ [a-z-]+/)
    about[substr(line, 1, at) substr(rest, 1, RLENGTH)] = substr(line, 1, at + 3) substr(rest, RLENGTH + 3)
}

# A name as the shell takes it. The program shows control characters as `\x1F`.
function quoted(name) {
    if (name ~ /^[A-Za-z0-9_.\/,:+@%-]+$/) {
        return name
    }
    if (name ~ /\\x[0-9A-F][0-9A-F]/) {
        gsub(/\047/, "\\\047", name)
        return "$\047" name "\047"
    }
    gsub(/\047/, "\047\\\047\047", name)
    return "\047" name "\047"
}

# The name in the first line of a diff, as the shell takes it. A tab follows a name with a space. A name with special
# characters is in double quotes, with escapes that the shell knows.
function name_in_diff(line,    name) {
    name = substr(line, 5)
    sub(/\t$/, "", name)
    if (name !~ /^"/) {
        return quoted(name)
    }
    name = substr(name, 2, length(name) - 2)
    gsub(/\047/, "\\\047", name)
    return "$\047" name "\047"
}

# The number of lines in a range of a hunk: -FIRST,COUNT, or -LINE for one line.
function lines_in(range,    at) {
    at = index(range, ",")
    return at ? substr(range, at + 1) + 0 : 1
}

# Takes a line that is no part of a diff.
function take_line(line,    at) {
    at = index(line, ":   ")
    if (at && substr(line, at + 4) ~ /^[0-9]+:[0-9]+ [a-z-]+: /) {
        note_explanation(line, at)
        return
    }
    if (!at && line ~ /: left out: the settings exclude it$/) {
        return
    }
    if (at || line ~ /^  / || line ~ /: left alone: /) {
        take(line, 1)
        return
    }
    if (match(line, /:[0-9]+:[0-9]+ ([a-z-]+ \(fixable\)|not formatted)$/)) {
        note(quoted(substr(line, 1, RSTART - 1)))
    } else if (match(line, /:[0-9]+:[0-9]+ (template|no-data)$/)) {
        is_left[quoted(substr(line, 1, RSTART - 1))] = 1
    }
    take(line, 0)
}

# Puts the command that repairs the files, if there are any. `fmt --write` skips those that are no data.
function tell_repair(    k, many, words, more) {
    for (k = 1; k <= count; k++) {
        if (!(names[k] in is_left) && ++many <= MOST) {
            words = words " " names[k]
        }
    }
    if (many) {
        more = ENVIRON["STAGE"] == "" ? "" : " && " ENVIRON["STAGE"] words
        more = more (many > MOST ? " # and " (many - MOST) " more" : "")
        put("This repairs them: " ENVIRON["REPAIR"] words more, 1)
    }
}

# A line of a hunk
old_left > 0 || new_left > 0 {
    old_left -= /^[ -]/
    new_left -= /^[ +]/
    put($0, 0)
    next
}

is_diff && /^@@ -/ {
    note(name_in_diff(first))
    split($0, words, " ")
    old_left = lines_in(words[2])
    new_left = lines_in(words[3])
    put($0, 0)
    next
}

# The note that the last line has no line feed
is_diff && /^\\ / {
    put($0, 0)
    next
}

# The line before this one may be the first of a diff.
head != "" {
    first = head
    head = ""
    is_diff = $0 == "+++ " substr(first, 5)
    if (is_diff) {
        put(first, 0)
        put($0, 0)
        next
    }
    take_line(first)
}

{
    is_diff = 0
}

/^--- / {
    head = $0
    next
}

$0 == "\002" {
    is_unnamed = !is_unnamed
    next
}

index($0, "\003") == 1 {
    take(substr($0, 2), 1)
    next
}

{
    take_line($0)
}

END {
    if (head != "") {
        take_line(head)
    }
    for (k = 1; k <= lines; k++) {
        put(held[k], aside[k])
        sub(/ \(fixable\)$/, "", held[k])
        if (held[k] in about) {
            put(about[held[k]], 1)
        }
    }
    if (ENVIRON["REPAIR"] != "") {
        tell_repair()
    }
}
