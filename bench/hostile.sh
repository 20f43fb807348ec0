#!/usr/bin/env bash
# Gives `kmipctl answer` and `kmipctl show` lines of ten megabytes, under limits of memory.
#
#     bench/hostile.sh PROGRAM
#
# A line that is too long stands between two lines with a message. The program has to answer both, to
# print `refused: length` for the line between them, and to end with exit status 1. Ten megabytes of
# empty lines, and ten megabytes of messages, have to end with exit status 0.
#
# The limit is that of `ulimit -v`, the whole address space in kilobytes, the program's code and the C
# library among it. For each input the script looks for the least limit, in steps of pages, under which
# all is as it has to be, and prints it beside that for one line with a message. The exit status is 1
# where an input is not answered as it has to be under the widest limit, or needs more than `spare`
# kilobytes beyond that of one line, and 0 otherwise.
set -euo pipefail
export LC_ALL=C

program=$(realpath "$1")
cd "$(dirname "$0")/.."
out=out/hostile
size=10000000
# Kilobytes: a limit that suffices for all, the step between limits, and what an input may need beyond
# one line.
widest=65536
page=4
spare=64

mkdir -p "$out"

# The first message of the examples: a Locate, which changes nothing.
read -r message < examples/answer-first.hex

# Prints the character $1 as many times as a long line has characters.
line_of() {
    head -c "$size" /dev/zero | tr '\0' "$1"
}

# Prints the line $1 as many times as messages have ten megabytes together.
lines_of() {
    yes "$1" | head -n $((size / (${#message} + 1))) || true
}

# Prints the input that $1 names.
input() {
    case $1 in
        one_line) echo "$message" ;;
        digits) echo "$message"; line_of 4; echo; echo "$message" ;;
        other_characters) echo "$message"; line_of z; echo; echo "$message" ;;
        no_line_feed) echo "$message"; line_of 4 ;;
        empty_lines) echo "$message"; line_of '\n'; echo "$message" ;;
        messages) lines_of "$message" ;;
    esac
}

# Prints what has to be written for the input $1, where the file $2 has what one message is answered.
wanted() {
    case $1 in
        one_line) cat "$2" ;;
        digits | other_characters) cat "$2"; echo 'refused: length'; cat "$2" ;;
        no_line_feed) cat "$2"; echo 'refused: length' ;;
        empty_lines) cat "$2" "$2" ;;
        messages) lines_of "$2" | xargs cat ;;
    esac
}

# Prints the exit status that the input $1 has to end with.
wanted_status() {
    case $1 in
        one_line | empty_lines | messages) echo 0 ;;
        *) echo 1 ;;
    esac
}

# Succeeds where the command $1 does for the input $2 what it has to do under a limit of $3 kilobytes.
is_right() {
    local status=0
    { (ulimit -v "$3"; exec "$program" "$1" < "$out/$2" > "$out/written") || status=$?; } 2> /dev/null
    ((status == $(wanted_status "$2"))) && cmp -s "$out/written" "$out/wanted"
}

# Sets `least` to the least limit for the command $1 and the input $2.
find_least() {
    local low=0 high=$((widest / page))
    if ! is_right "$1" "$2" "$widest"; then
        echo "$1 does not do what it has to do for $2 under $widest KB"
        exit 1
    fi
    while ((high - low > 1)); do
        local middle=$(((low + high) / 2))
        if is_right "$1" "$2" $((middle * page)); then high=$middle; else low=$middle; fi
    done
    least=$((high * page))
}

echo 'the least limit of memory in kilobytes:'
printf '%-18s %8s %8s\n' input answer show
declare -A base
for name in one_line digits other_characters no_line_feed empty_lines messages; do
    input "$name" > "$out/$name"
    printf '%-18s' "$name"
    for command in answer show; do
        "$program" "$command" < "$out/one_line" > "$out/one_reply"
        wanted "$name" "$out/one_reply" > "$out/wanted"
        find_least "$command" "$name"
        printf ' %8d' "$least"
        base[$command]=${base[$command]:-$least}
        if ((least > base[$command] + spare)); then
            echo
            echo "$command needs $((least - base[$command])) KB more for $name than for one line"
            exit 1
        fi
    done
    echo
done
