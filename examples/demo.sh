#!/bin/sh
# Carries out a plan over a network that loses the reply to a Create, and shows each exchange.
#
#     examples/demo.sh PROGRAM
#
# It runs the program if that is built, and says whether it was proved from the sources that lie here
# (tools/proved.sh). Otherwise it runs the sources by `rt try`, which proves nothing.
set -eu
program=$1
case $program in /*) ;; *) program=$PWD/$program ;; esac
examples=$(cd "$(dirname "$0")" && pwd)

echo 'The plan has one key, which is to become active. The network loses the reply to its Create.'
echo 'kmipctl sim --plan examples/lost-create.toml --script examples/lost-create.script --trace'
echo
if [ -x "$program" ]; then
    "$program" sim --plan "$examples/lost-create.toml" --script "$examples/lost-create.script" --trace
    echo
    cd "$examples/.."
    if tools/proved.sh check "$program" 2>/dev/null; then
        echo 'This was the proved program. One key was made, and no second one.'
    else
        echo 'One key was made, and no second one. This program was not proved from these sources: run make.'
    fi
else
    cd "$examples/../crates/kmipctl"
    echo 'Nothing is built yet, so rt try runs the sources. This takes about a minute.' >&2
    if ! shown=$(rt try --data plan="$examples/lost-create.toml" --data script="$examples/lost-create.script" \
        -- sim --plan plan --script script --trace </dev/null 2>/dev/null); then
        echo 'rt try failed. Is the Rattle toolchain there? README.md says which one.' >&2
        exit 1
    fi
    printf '%s\n\n' "$shown" | grep -v '^\(checked:\|run=\)'
    echo 'One key was made, and no second one. This run was not the proved program: make proves and builds it.'
fi
