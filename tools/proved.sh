#!/bin/sh
# Ties a program to the sources that it was proved from.
#
#     tools/proved.sh sources              prints the sum of the sources
#     tools/proved.sh note PROGRAM SUM     notes that the program was proved from sources with this sum
#     tools/proved.sh check PROGRAM        exit status 0 if this program was proved from these sources
#
# It runs at the top of the repository. The sum of the sources is over crates.txt and every .rt and .antt file below
# crates/. The note is the file PROVED next to the program: the sum of the program and the sum of its sources. `note`
# removes an older note. It writes none, and ends with status 1, if the sources changed since SUM was taken.
set -eu

sum_of_sources() {
    { echo crates.txt; find crates -name out -prune -o \( -name '*.rt' -o -name '*.antt' \) -print | LC_ALL=C sort; } |
        tr '\n' '\0' | xargs -0 sha256sum | sha256sum | cut -d ' ' -f 1
}

sum_of() {
    sha256sum <"$1" | cut -d ' ' -f 1
}

written_for() {
    printf 'program %s\nsources %s\n' "$(sum_of "$1")" "$2"
}

case ${1-} in
sources)
    sum_of_sources
    ;;
note)
    note=$(dirname "$2")/PROVED
    rm -f "$note"
    if [ "$(sum_of_sources)" != "$3" ]; then
        echo 'the sources changed during the proof, so nothing is noted of it' >&2
        exit 1
    fi
    written_for "$2" "$3" >"$note"
    ;;
check)
    note=$(dirname "$2")/PROVED
    [ -f "$2" ] && [ -f "$note" ] && [ "$(cat "$note")" = "$(written_for "$2" "$(sum_of_sources)")" ]
    ;;
*)
    sed -n 's/^#     //p' "$0" >&2
    exit 2
    ;;
esac
