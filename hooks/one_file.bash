# Functions of each_file for files that the program takes one by one: for changed lines, and if a name is not UTF-8.

# Copies standard input, with the name of a file before each line.
named() {
    local name line
    set_name "$1"
    while IFS= read -r line; do
        case $line in
            [0-9]*) printf '%s:%s\n' "$name" "$line" ;;
            *) printf '%s: %s\n' "$name" "$line" ;;
        esac
    done
}

# Runs the program on the text of a file with a name that is not UTF-8, which the program does not accept. The file is
# not rewritten.
do_text() {
    local name text=$1 by=$mode status=0
    set_ascii "$1"
    [ -z "$staged" ] || text=$folder/$1
    if [ ! -f "$text" ] || [ ! -r "$text" ]; then
        say "$name" "read failed" 3
        return
    fi
    [ "$mode" != --write ] || by=--check
    printf '\002\n'
    call ${by:+"$by"} --names "--stdin-name=$name" < "$text" || status=$?
    [ "$mode$status" != --write1 ] || say "$name" "not rewritten: its name is not UTF-8" 3
    count "$status"
    printf '\002\n'
}

# Formats the lines of a file that differ from the commit. A file that the commit does not have is added to `paths`.
do_changed() {
    local file=$1 path=./$1 lines options=()
    case $file in
        /*) path=$file ;;
    esac
    [ -z "$staged" ] || options=(--staged)
    lines=$("$here/changed_lines" ${options[@]+"${options[@]}"} "$changed" "$path" 2>&1) \
        || refuse "can't find the changed lines of $file: ${lines%%$'\n'*}"
    case $lines in
        '') ;;
        all) paths+=("$file") ;;
        *)
            mapfile -t options <<< "$lines"
            call "$mode" --names "${options[@]}" -- "$file"
            count "$?"
            ;;
    esac
}
