# The words of a command line, for the scripts verdict, translate and table. Each sets `self`, its own path without links, and `usage`, the text that
# says how it is used, and sources this file.
root=${self%/*}
name=${self##*/}

# Ends the script with one line and the usage.
wrong_use() { # WHAT
    printf '%s: %s\n%s\n' "$name" "$1" "$usage" >&2
    exit 2
}

help() {
    printf '%s\n' "$usage" 2>/dev/null || { echo "$name: cannot write standard output" >&2; exit 2; }
    exit 0
}

# Ends the script where the file is not there, so that a wrong name starts no build.
must_be_there() { # FILE
    [ "$1" = - ] || [ -e "$1" ] || { echo "$name: cannot read $(printf %q "$1"): there is no such file" >&2; exit 2; }
}

# Sets the array `names` to the words that are no options. The only options are those for help; '--' ends the options, and '-' is none.
take_words() { # WORDS..
    local word options=1
    names=()
    for word; do
        case $options$word in
        1--) options=0 ;;
        1-h | 1--help) help ;;
        1-?*) wrong_use "unknown option $(printf %q "$word")" ;;
        *) names+=("$word") ;;
        esac
    done
}
