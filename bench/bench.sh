#!/usr/bin/env bash
# Compares `kmipctl answer` with the baseline of bench/baseline.rs, which does the same work in
# plain Rust.
#
#     bench/bench.sh PROGRAM
#
# Both programs answer the same input, and have to print the same bytes. A time is the least of seven
# runs, which the two programs take in turn; a short one is the mean of several runs at a time. It is
# processor time, the system's included, so other work on the machine disturbs it little. First come
# whole loads, then how the cost of a request grows from 10 objects of the server to 10,000, and then
# the memory that an object takes, how the time of `kmipctl sim` grows with the keys of a plan, and what an
# exchange of it takes. Then comes what `sim` and `run` take by how many keys a message asks about, and `run`
# beside a bare loop over the disk. Where gnuplot is there, it draws the growths into out/bench/growth.svg.
# Three parts are in Python: `run` and `serve` beside a plain loop over sockets (bench/sockets.py), the times of
# the other commands (bench/commands.py), and counts of allocations and of instructions (bench/counts.py). At the
# end stands a table of all that has an aim.
# The exit status is 1 where the outputs differ, or a run or a simulation takes another number of exchanges
# than its plan needs, and 0 whatever the times are.
set -euo pipefail
export LC_ALL=C

program=$(realpath "$1")
cd "$(dirname "$0")/.."
out=out/bench
runs=7
# How long a load may take, and how much the cost of a request may grow, by the baseline's; and the bytes
# of an object beyond its data.
aim=0.9
growth_aim=1.3
memory_aim=300
# How much longer a simulation of 1,000 keys may take than one of 100.
sim_aim=11
# How many microseconds an exchange of a simulation may take.
exchange_aim=8
# How much longer a run of 1,000 keys may take than a bare loop that writes its texts.
disk_aim=1.3

TIMEFORMAT='%3U %3S'

# Builds a program of bench/ into the folder of this script's results.
build() {
    rustc --edition 2024 -O -o "$out/$1" "bench/$1.rs"
}

# Answers the input $1 $2 times by the program that the further words name, and prints the
# microseconds of processor time that one run took.
microseconds() {
    local input=$1 repeats=$2 times
    shift 2
    times=$({ time for ((i = 0; i < repeats; i++)); do "$@" < "$input" > "$out/replies"; done; } 2>&1)
    read -r user system <<< "${times//./}"
    echo $(((10#$user + 10#$system) * 1000 / repeats))
}

# Sets `ours` and `theirs` to the least microseconds that kmipctl and the baseline take for the input
# $1, of $2 runs at a time.
measure() {
    local input=$1 repeats=$2 time
    ours=
    theirs=
    for ((run = 0; run < runs; run++)); do
        time=$(microseconds "$input" "$repeats" "$program" answer)
        if [[ -z $ours || $time -lt $ours ]]; then ours=$time; fi
        time=$(microseconds "$input" "$repeats" "$out/baseline")
        if [[ -z $theirs || $time -lt $theirs ]]; then theirs=$time; fi
    done
}

# Ends with exit status 1 where the two programs do not print the same replies to the input $1.
compare() {
    "$program" answer < "$1" > "$out/replies.kmipctl"
    "$out/baseline" < "$1" > "$out/replies.baseline"
    cmp "$out/replies.kmipctl" "$out/replies.baseline"
}

# Notes for the table that $1 was measured as $2, and is to be at most $3.
note_aim() {
    printf '%s\t%s\t%s\n' "$1" "$2" "$3" >> "$out/aims.tsv"
}

# Prints the table of what has an aim.
print_aims() {
    printf '\n%-72s %9s %8s\n' measured here aim
    awk -F'\t' '{ printf "%-72s %9s %8s  %s\n", $1, $2, $3, ($2 + 0 <= $3 + 0) ? "met" : "not met" }' "$out/aims.tsv"
}

# Prints $1 / $2 with $3 digits behind the point.
quotient() {
    awk -v a="$1" -v b="$2" -v digits="$3" 'BEGIN { printf "%.*f", digits, (b > 0) ? a / b : 0 }'
}

# Compares the two programs over a whole input: what it is called, the aim, how many runs are taken at
# a time, and the words for bench/input.rs.
load() {
    local title=$1 aim=$2 repeats=$3
    shift 3
    "$out/input" "$@" > "$out/load.hex"
    compare "$out/load.hex"
    measure "$out/load.hex" "$repeats"
    printf '%s: kmipctl %s s, baseline %s s, ratio %s (aim: at most %s)\n' "$title" \
        "$(quotient "$ours" 1000000 3)" "$(quotient "$theirs" 1000000 3)" \
        "$(quotient "$ours" "$theirs" 2)" "$aim"
    note_aim "$title: processor, by plain Rust" "$(quotient "$ours" "$theirs" 2)" "$aim"
}

# Sets `ours_each` and `theirs_each` to the nanoseconds of one request: what the input of the words
# from $4 on takes beyond that of the words $3, both $2 runs at a time, by the $1 requests more.
each() {
    local requests=$1 repeats=$2 before=$3
    shift 3
    # shellcheck disable=SC2086
    "$out/input" $before > "$out/before.hex"
    "$out/input" "$@" > "$out/after.hex"
    compare "$out/after.hex"
    measure "$out/before.hex" "$repeats"
    local ours_before=$ours theirs_before=$theirs
    measure "$out/after.hex" "$repeats"
    ours_each=$((1000 * (ours - ours_before) / requests))
    theirs_each=$((1000 * (theirs - theirs_before) / requests))
}

# Prints a line of the table: the nanoseconds of a request with few objects and with many.
print_growth() {
    local title=$1 ours_few=$2 theirs_few=$3 ours_many=$4 theirs_many=$5 growth growth_of_theirs
    growth=$(quotient "$ours_many" "$ours_few" 2)
    growth_of_theirs=$(quotient "$theirs_many" "$theirs_few" 2)
    printf '%-26s %7s %7s %7s %9s %7s %7s %12s\n' "$title" \
        "$(quotient "$ours_few" 1000 2)" "$(quotient "$ours_many" 1000 2)" "$growth" \
        "$(quotient "$theirs_few" 1000 2)" "$(quotient "$theirs_many" 1000 2)" "$growth_of_theirs" \
        "$(quotient "$growth" "$growth_of_theirs" 2)"
    note_aim "$title: growth to 10,000 objects, by plain Rust's" "$(quotient "$growth" "$growth_of_theirs" 2)" "$growth_aim"
    printf '%s\t%s\t%s\t%s\t%s\n' "$title" "$ours_few" "$theirs_few" "$ours_many" "$theirs_many" >> "$out/growth.tsv"
}

# Draws the growths that were printed.
draw() {
    if ! command -v gnuplot > /dev/null; then
        echo 'gnuplot is not there, so nothing is drawn'
        return
    fi
    gnuplot -e "table='$out/growth.tsv'; picture='$out/growth.svg'" bench/growth.gnuplot
    echo "the growths are drawn in $out/growth.svg"
}

# Prints how the cost of the request that bench/input.rs knows by the word $2 grows.
growth() {
    local title=$1 word=$2 requests=100000 few
    each "$requests" 1 'create 10' "$word" 10 "$requests"
    few=("$ours_each" "$theirs_each")
    each "$requests" 1 'create 10000' "$word" 10000 "$requests"
    print_growth "$title" "${few[@]}" "$ours_each" "$theirs_each"
}

# Prints how the mean cost of a Create that makes an object grows: of the first thousand, and of all
# ten thousand.
growth_of_creates() {
    local few
    each 990 40 'create 10' create 1000
    few=("$ours_each" "$theirs_each")
    each 9990 10 'create 10' create 10000
    print_growth 'Creates, 1,000 and 10,000' "${few[@]}" "$ours_each" "$theirs_each"
}

# Prints the kilobytes that a program had resident at the most while it answered the input $1; the
# further words name the program.
resident() {
    local input=$1 pid
    shift
    rm -f "$out/fifo"
    mkfifo "$out/fifo"
    "$@" < "$out/fifo" > "$out/replies" &
    pid=$!
    exec 3> "$out/fifo"
    cat "$input" >&3
    # A program writes what it holds back before it waits for input.
    until (($(wc -l < "$out/replies") == $(wc -l < "$input"))); do sleep 0.02; done
    awk '$1 == "VmHWM:" { print $2 }' "/proc/$pid/status"
    exec 3>&-
    wait "$pid"
}

# Prints the bytes that an object takes beyond its data.
memory() {
    local title=$1 few many data bytes
    shift
    "$out/input" create 10 > "$out/few.hex"
    "$out/input" create 10000 > "$out/many.hex"
    few=$(resident "$out/few.hex" "$@")
    many=$(resident "$out/many.hex" "$@")
    # Names of nine characters, identifiers of 3.9 on the average, keys of 256 bits, and 13 bytes of
    # algorithm, length, usage mask and state.
    data=58
    bytes=$(((many - few) * 1024 / 9990 - data))
    echo "$title: $bytes bytes an object beyond its data (aim: at most $memory_aim)"
    if [[ $title == kmipctl ]]; then note_aim 'an object: bytes beyond its data' "$bytes" "$memory_aim"; fi
}

# Writes a plan of $1 keys, which are all to become active: a look and two steps each.
write_plan() {
    for ((key = 1; key <= $1; key++)); do
        printf '[[key]]\nname = "k%d"\nalgorithm = "AES"\nlength = 256\n' "$key"
        printf 'usage = ["encrypt", "decrypt"]\ntarget = "active"\n\n'
    done
}

# Sets `ours` to the least microseconds that a simulation of $1 keys takes with a script without words,
# of $2 runs at a time. Ends with exit status 1 where it does not make three exchanges a key.
measure_simulation() {
    local keys=$1 repeats=$2 time
    write_plan "$keys" > "$out/plan.toml"
    : > "$out/empty.script"
    local words=("$program" sim --plan "$out/plan.toml" --script "$out/empty.script")
    "${words[@]}" > "$out/simulated"
    if [[ $(head -n 1 "$out/simulated") != "run 1 AllFinished $((3 * keys))" ]]; then
        echo "a simulation of $keys keys: $(head -n 1 "$out/simulated")"
        exit 1
    fi
    ours=
    for ((run = 0; run < runs; run++)); do
        time=$(microseconds /dev/null "$repeats" "${words[@]}")
        if [[ -z $ours || $time -lt $ours ]]; then ours=$time; fi
    done
}

# Prints how the time of a simulation grows with the keys of its plan, and what an exchange takes: with all that
# the program does, and without what it does for a plan of 10 keys.
growth_of_simulations() {
    local ten hundred
    measure_simulation 10 50
    ten=$ours
    measure_simulation 100 10
    hundred=$ours
    measure_simulation 1000 1
    printf 'sim of 10, 100 and 1,000 keys, 3 exchanges a key: %s, %s and %s ms, growth from 100 to 1,000 %s (aim: at most %s)\n' \
        "$(quotient "$ten" 1000 2)" "$(quotient "$hundred" 1000 2)" "$(quotient "$ours" 1000 2)" \
        "$(quotient "$ours" "$hundred" 2)" "$sim_aim"
    printf 'sim of 100 and 1,000 keys: %s and %s microseconds an exchange (aim: at most %s), %s and %s beyond those of 10 keys\n' \
        "$(quotient "$hundred" 300 2)" "$(quotient "$ours" 3000 2)" "$exchange_aim" \
        "$(quotient $((hundred - ten)) 270 2)" "$(quotient $((ours - ten)) 2970 2)"
    note_aim 'sim: growth from 100 keys to 1,000' "$(quotient "$ours" "$hundred" 2)" "$sim_aim"
    note_aim 'an exchange of sim: microseconds' "$(quotient "$ours" 3000 2)" "$exchange_aim"
}

# Ends with exit status 1 where the line $1 is not $2.
expect() {
    if [[ $1 != "$2" ]]; then
        echo "$1, and not: $2"
        exit 1
    fi
}

# Prints the least milliseconds, waiting included, of three runs of the further words; their output is
# in $out/told, and the progress file is removed before each.
elapsed() {
    local least= begun took
    for ((run = 0; run < 3; run++)); do
        rm -f "$out/batch.progress"
        begun=$(date +%s%N)
        "$@" > "$out/told"
        took=$((($(date +%s%N) - begun) / 1000000))
        if [[ -z $least || $took -lt $least ]]; then least=$took; fi
    done
    echo "$least"
}

# Prints the exchanges and the time of `sim` and of `run --loopback` for 1,000 keys, three questions a
# key, with one key a message and with eight. `run` writes its progress to the disk after each exchange.
batches() {
    local batch exchanges simulated ran
    write_plan 1000 > "$out/plan.toml"
    : > "$out/empty.script"
    for batch in 1 8; do
        exchanges=$((3000 / batch))
        simulated=$(elapsed "$program" sim --plan "$out/plan.toml" --script "$out/empty.script" --batch "$batch")
        expect "$(head -n 1 "$out/told")" "run 1 AllFinished $exchanges"
        ran=$(elapsed "$program" run --plan "$out/plan.toml" --progress "$out/batch.progress" --loopback --batch "$batch")
        expect "$(tail -n 1 "$out/told")" "stop AllFinished $exchanges"
        echo "1,000 keys, --batch $batch: $exchanges exchanges; sim $simulated ms, run --loopback $ran ms, with the waits for the disk"
    done
}

# Prints what `run --loopback` of 1,000 keys takes beside a bare loop that writes, syncs and renames as many texts
# of the same sizes on the same disk. The first text is written after the first exchange, and another one after
# each of two steps a key.
disk() {
    local texts=2001 first last ran bare
    write_plan 1000 > "$out/plan.toml"
    local words=("$program" run --plan "$out/plan.toml" --progress "$out/batch.progress" --loopback)
    rm -f "$out/batch.progress"
    "${words[@]}" --limit 1 > "$out/told" || true
    first=$(wc -c < "$out/batch.progress")
    ran=$(elapsed "${words[@]}")
    expect "$(tail -n 1 "$out/told")" 'stop AllFinished 3000'
    last=$(wc -c < "$out/batch.progress")
    bare=$(elapsed "$out/disk" "$out/bare" "$texts" "$first" "$last")
    rm -f "$out/bare"
    echo "1,000 keys, $texts texts of $first to $last bytes, $((texts * (first + last) / 2000000)) MB: run --loopback $ran ms, a bare loop $bare ms, ratio $(quotient "$ran" "$bare" 2) (aim: at most $disk_aim)"
    note_aim 'run --loopback of 1,000 keys over the disk: time, by a bare loop' "$(quotient "$ran" "$bare" 2)" "$disk_aim"
}

# Runs the parts that are in Python.
parts_in_python() {
    if ! command -v python3 > /dev/null; then
        echo 'python3 is not there, so no sockets, other commands, allocations and instructions are measured'
        return
    fi
    python3 bench/sockets.py "$program" "$out"
    python3 bench/commands.py "$program" "$out"
    python3 bench/counts.py "$program" "$out"
}

mkdir -p "$out"
rm -f "$out/growth.tsv" "$out/growth.svg" "$out/aims.tsv"
build baseline
build disk
build input
build sockets

load '100000 requests over 100 objects' "$aim" 1 mix 100000 100
load '100000 requests over 10000 objects' "$aim" 1 mix 100000 10000
load '100000 Locates over 10000 objects' "$aim" 1 locate 10000 100000
load '10000 Creates' "$aim" 10 create 10000

echo "microseconds a request with 10 objects and with 10,000, and the growth (aim: at most $growth_aim times the baseline's):"
printf '%-26s %7s %7s %7s %9s %7s %7s %12s\n' request kmipctl 10,000 growth baseline 10,000 growth 'by baseline'
growth 'Locate that finds' locate
growth 'Locate that finds nothing' miss
growth 'Get Attributes' get
growth Activate activate
growth 'Create, a used name' again
growth_of_creates
draw

memory kmipctl "$program" answer
memory baseline "$out/baseline"

growth_of_simulations
batches
disk
parts_in_python
print_aims
