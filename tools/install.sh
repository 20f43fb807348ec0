#!/bin/sh
# Copies what is built to where it is used, or takes that away again. It builds nothing.
#
#     tools/install.sh install PROGRAM PREFIX [DESTDIR]
#     tools/install.sh uninstall PREFIX [DESTDIR]
#
# It runs anywhere, and reads the repository that it stands in (`make install` does both). What is copied:
#
#     PREFIX/bin/kmipctl                   the program
#     PREFIX/share/man/man1, man5          the man pages of docs/man
#     PREFIX/share/bash-completion, share/zsh, share/fish
#                                          the scripts by which shells complete command lines: the program prints them
#     PREFIX/lib/systemd/system            the services and timers of examples/systemd, with the folder of PREFIX
#     PREFIX/lib/sysusers.d/kmipctl.conf   the user that they run as
#     PREFIX/lib/tmpfiles.d/kmipctl.conf   the folders that they write to
#     PREFIX/share/doc/kmipctl             the documents and examples, and INSTALLED: a list of all these files
#
# DESTDIR goes before PREFIX, for whoever makes a package. An install over an older one takes that away first.
# Uninstalling removes the files of the list, and the folders of share/doc/kmipctl that are empty then.
set -eu

top=$(cd "$(dirname "$0")/.." && pwd)
list=share/doc/kmipctl/INSTALLED

stop() {
    echo "install.sh: $*" >&2
    exit 1
}

# Each function has a shell of its own, so that it changes no variable and no folder of another.

# Has the program $1 print the scripts of the shells into the folder $2.
scripts() (
    for shell in bash zsh fish; do
        if ! "$1" completions $shell > "$2/$shell"; then
            stop "$1 prints no script for $shell: does it run on this machine, and is it of this version?"
        fi
    done
)

# Prints what is copied: the mode, the file, and its place below PREFIX. The scripts of the shells are in $2.
files() (
    echo "755 $1 bin/kmipctl"
    echo "644 $2/bash share/bash-completion/completions/kmipctl"
    echo "644 $2/zsh share/zsh/site-functions/_kmipctl"
    echo "644 $2/fish share/fish/vendor_completions.d/kmipctl.fish"
    cd "$top"
    for page in docs/man/*.[15]; do
        echo "644 $top/$page share/man/man${page##*.}/${page##*/}"
    done
    for unit in examples/systemd/*.service examples/systemd/*.timer; do
        echo "644 $top/$unit lib/systemd/system/${unit##*/}"
    done
    echo "644 $top/examples/systemd/sysusers.conf lib/sysusers.d/kmipctl.conf"
    echo "644 $top/examples/systemd/tmpfiles.conf lib/tmpfiles.d/kmipctl.conf"
    for document in *.md docs/*.md; do
        echo "644 $top/$document share/doc/kmipctl/$document"
    done
    find examples -type f | LC_ALL=C sort | while read -r example; do
        mode=644
        if [ -x "$example" ]; then mode=755; fi
        echo "$mode $top/$example share/doc/kmipctl/$example"
    done
)

# Copies the files of standard input to below $1. In a unit $2 stands for /usr/local.
copy() (
    while read -r mode file place; do
        install -D -m "$mode" "$file" "$1/$place"
        case $place in
            lib/systemd/system/*) sed "s|/usr/local/|$2/|g" "$file" > "$1/$place" ;;
        esac
    done
)

# Takes away what the list below $1 names. The list is the last of it.
take_away() (
    while read -r place; do
        case /$place/ in
            */../*) stop "$1/$list names $place, which no install has copied" ;;
        esac
        rm -f "$1/$place"
    done < "$1/$list"
    find "$1/share/doc/kmipctl" -depth -type d -empty -delete
)

# The folder of an installation. A unit names PREFIX, so it may hold no character that means something there.
place_of() {
    case $1 in
        /*) ;;
        *) stop "PREFIX is '$1', and has to begin with /" ;;
    esac
    case $1 in
        *[!A-Za-z0-9._/+-]*) stop "PREFIX is '$1', and may have letters, digits and ._/+- alone" ;;
    esac
    echo "${2:-}${1%/}"
}

command=${1:-}
case $command:$# in
    install:[34])
        program=$(realpath -m "$2") place=$(place_of "$3" "${4:-}")
        if ! [ -x "$program" ] || ! [ -f "$program" ]; then
            stop "there is no program $2: run make first, as a user that is not root; installing builds nothing"
        fi
        made=$(mktemp -d)
        trap 'rm -rf "$made"' EXIT
        case "$program$top$made" in
            *[[:space:]]*) stop "the path of the program, the repository or TMPDIR has a space: $program, $top, $made" ;;
        esac
        scripts "$program" "$made"
        if [ -f "$place/$list" ]; then take_away "$place"; fi
        files "$program" "$made" | copy "$place" "${3%/}"
        {
            files "$program" "$made" | sed 's/^[^ ]* [^ ]* //'
            echo "$list"
        } > "$place/$list"
        chmod 644 "$place/$list"
        echo "installed $(wc -l < "$place/$list") files below $place"
        ;;
    uninstall:[23])
        place=$(place_of "$2" "${3:-}")
        if ! [ -f "$place/$list" ]; then stop "nothing is installed below $place: there is no $place/$list"; fi
        take_away "$place"
        echo "uninstalled what was below $place"
        ;;
    *)
        sed -n 's/^#     tools/usage: tools/p' "$0" >&2
        exit 2
        ;;
esac
