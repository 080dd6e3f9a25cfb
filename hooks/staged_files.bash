# Functions of each_file for what Git has staged.

# Makes the program run in a folder that gets what is staged, with the settings of the work tree.
run_over_staged() {
    local at=.yamlfmt.toml
    need_scratch
    folder=$scratch/tree
    mkdir -p -- "$folder/.git" || refuse "no temporary folder can be made in $scratch"
    if [ -n "$config" ]; then
        config=${config#"$PWD"/}
        at=$config
        case /$config/ in
            //* | */../*)
                [ "${config#/}" != "$config" ] || config=$PWD/$config
                return
                ;;
        esac
    elif [ ! -e "$at" ] && [ ! -L "$at" ]; then
        return
    fi
    case $at in
        */*) mkdir -p -- "$folder/${at%/*}" ;;
    esac
    cat -- "$at" > "$folder/$at" || refuse "the settings can't be read: $at"
}

# Records which of the names are staged as links: each after a colon, since no key may be empty.
declare -A is_staged_link=()
note_staged_links() {
    local entry
    while IFS= read -r -d '' entry; do
        case $entry in
            120000\ *) is_staged_link[":${entry#*$'\t'}"]=1 ;;
        esac
    done < <(git --literal-pathspecs ls-files --stage -z -- "$@")
}

# Writes what is staged of a file into the folder in which the program runs.
stage() {
    local message text=$folder/$1
    [ -d "${text%/*}" ] || mkdir -p -- "${text%/*}"
    message=$(git cat-file blob ":0:$1" 2>&1 > "$text") || {
        say "$1" "what is staged can't be read: ${message%%$'\n'*}" 3
        return 1
    }
}
