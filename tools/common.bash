# What the scripts in bash share: help, words that a script does not take, and signals. A script sources it before it changes the folder.

script=$(readlink -f "$0")

# print_help: prints the comment that the script begins with.
print_help() {
    sed -n '2,/^[^#]/s/^# \{0,1\}//p' "$script"
}

# reject WORD: ends the script, which takes no such word.
reject() {
    echo "${script##*/}: unknown argument '$1' (${script##*/} --help explains)" >&2
    exit 2
}

# take_no_words WORD..: prints the help if that is asked for, and rejects any other word.
take_no_words() {
    [[ ${1:-} != --help ]] || { print_help && exit; }
    (($# == 0)) || reject "$1"
}

# await COMMAND..: runs a command that takes long. A signal that ends the script ends the command at once.
await() {
    local status=0
    "$@" <&0 &
    wait "$!" || status=$?
    return "$status"
}

# descendants PID: the processes that this one has started, and theirs.
descendants() {
    local child
    for child in $(pgrep -P "$1"); do
        echo "$child"
        descendants "$child"
    done
}

# end_by NUMBER: ends what the script has started, and then the script, by this signal.
end_by() {
    trap '' HUP INT TERM
    kill $(descendants $$) 2>/dev/null
    exit $((128 + $1))
}

trap 'end_by 1' HUP
trap 'end_by 2' INT
trap 'end_by 15' TERM
