#!/bin/bash
# Measures the built program on files in a folder, and on a memory file system where there is one, in turns with a
# baseline in C, and writes one table. docs/PERFORMANCE.md says what its rows mean.
#
#     bench/run.sh <folder>
#
# TURNS=<n> takes another number of turns than five; ROWS=<pattern> takes only the rows whose names match it.
# All files stand in folders of its own, which are removed at the end. Without cc there is no baseline, and without
# strace there are no system calls. The status is 0 only where both programs gave the same texts and left the same origins.
set -u
export LC_ALL=C
top=$(dirname "$(dirname "$(readlink -f "$0")")")
program=$top/crates/eractl/out/eractl
turns=${TURNS:-5}
only=${ROWS:-}
# No turn but a row's first one begins after so many seconds.
budget=200

say() { echo "bench/run.sh: $*" >&2; }
fail() { say "$*"; exit 1; }

if [ $# -ne 1 ] || [ ! -d "$1" ]; then
    say "usage: bench/run.sh <folder>"
    exit 2
fi
case $turns in '' | 0* | *[!0-9]*) say "TURNS is a number from 1 on"; exit 2 ;; esac

# ---- the folders ----

work=
memory=
trap 'rm -rf ${work:+"$work"} ${memory:+"$memory"}' EXIT
trap 'exit 129' HUP
trap 'exit 130' INT
trap 'exit 143' TERM

file_system() { df --output=fstype "$1" | tail -n 1; }

work=$(mktemp -d "$(readlink -f "$1")/eractl-bench.XXXXXX") || fail "no folder can be made in $1"
places=("$(file_system "$work")")
folders=("$work")
if [ "${places[0]}" != tmpfs ] && [ -w /dev/shm ] && [ "$(file_system /dev/shm)" = tmpfs ] \
    && [ "$(df -Pk /dev/shm | awk 'NR == 2 { print $4 }')" -ge 49152 ]; then
    memory=$(mktemp -d /dev/shm/eractl-bench.XXXXXX) && places+=(tmpfs) && folders+=("$memory")
fi

# ---- the programs ----

[ "$("$top/eractl" need 512 8)" = "need 57" ] || fail "eractl isn't there"

build() { cc -std=gnu11 -O3 -pthread -o "$work/$1" "$top/bench/$1.c" 2> "$work/errors"; }

spend=
baseline=
gate=
if ! command -v cc > /dev/null; then
    say "there is no cc, so there is no baseline"
elif build spend && build baseline && build gate && "$work/spend" "$work/spent" /bin/true; then
    spend=$work/spend
    baseline=$work/baseline
    gate=$work/gate
else
    say "there is no baseline, since its programs can't be built or run: $(head -n 1 "$work/errors")"
fi
strace=
if strace -c -o "$work/calls" true 2> /dev/null; then
    strace=strace
else
    say "there is no strace, so system calls aren't counted"
fi

# ---- what is asked of the program ----

# A new folder with small images under all names that are used, blank.
make_asks() {
    rm -rf "$work/asks" && mkdir "$work/asks" && cd "$work/asks" || exit 1
    truncate -s 262144 origin.img origin-65536.img copy.img && truncate -s 233472 meta.img other.img || exit 1
}

# Whether the program serves this line.
serves() (
    make_asks
    echo "$1" | "$program" serve "0 512 era meta.img origin.img 8" > /dev/null 2>&1
)

# Whether it runs these words, on images that a session has left.
runs_tool() (
    serves "0 checkpoint"
    cd "$work/asks" || exit 1
    case $1 in
    restore*) printf 'eradump 1 512 8 2\narray\ncurrent\nend\n' ;;
    apply*) printf 'erabackup 1 512 8 1 1\nend 0\n' ;;
    esac | "$program" $1 > /dev/null 2>&1
)

# Where sessions store their marks on the metadata disk, the baseline does so, too.
serves "0 checkpoint" || fail "the program serves no checkpoint"
mode=plain
cmp -s -n 233472 "$work/asks/meta.img" /dev/zero || mode=commit

# ---- the rows ----

# Of a session: its name, how many commands it has at most, the blocks of its origin, and a line that has to be served.
sector=$(printf '00%.0s' {1..512})
sessions=(
    "an empty session|0|65536|0 checkpoint"
    "first writes of 1 sector|4096|4096|0 write 0 $sector"
    "marked writes of 1 sector|4096|4096|0 write 0 $sector"
    "first writes of 8 sectors|4096|4096|0 write 0 $sector"
    "marked writes of 8 sectors|4096|4096|0 write 0 $sector"
    "reads of 1 sector|4096|4096|0 read 0 1"
    "reads of 8 sectors|4096|4096|0 read 0 1"
    "lists, no archived set|512|65536|0 list 1"
    "lists, 16 archived sets|512|65536|0 list 1"
    "checkpoints|1024|65536|0 checkpoint"
    "digest steps|64|65536|0 digest"
    "snapshots, taken and dropped|1024|65536|0 take_metadata_snap"
    "marked writes of 1 sector, in rounds|65536|4096|run"
)

# Of a tool: its name and its words. Each works on what a session of 65,536 blocks has left.
tools=(
    "check|check meta.img"
    "dump|dump meta.img"
    "logical dump|dump meta.img --logical"
    "invalidate|invalidate meta.img --written-since 1"
    "backup|backup meta.img origin-65536.img --written-since 1"
    "restore|restore other.img"
    "apply|apply copy.img"
)

# The stream of a session with so many commands of its kind.
stream_of() {
    awk -v name="$1" -v count="$2" '
        function write_line(sector, i, many,    digits) {
            digits = sprintf("%04x%04x", i * 40503 % 65536, i)
            while (length(digits) < 1024 * many)
                digits = digits digits
            print "0 write " sector " " digits
        }
        BEGIN {
            many = name ~ /8 sectors/ ? 8 : 1
            # writes that spread over 65,536 blocks, with 17 checkpoints among them or none, come before these
            before = name ~ /^(lists|digest)/ ? 72 : name ~ /^tools/ ? 576 : 0
            for (i = 1; i <= before; i++) {
                write_line(int(i * 65535 / before) * 8, i, 1)
                if (name !~ /no archived/ && i % (before / 18) == 0 && i < before)
                    print "0 checkpoint"
            }
            for (i = 0; i < count; i++) {
                if (name ~ /^first/) write_line(i * 8, i, many)
                else if (name ~ /^marked/) write_line(i % 8 * 4096 + (many == 1 ? int(i / 8) % 8 : 0), i, many)
                else if (name ~ /^reads/) print "0 read " i * 8 " " many
                else if (name ~ /^lists/) print "0 list 1"
                else if (name ~ /^checkpoints/) print "0 checkpoint"
                else if (name ~ /^digest/) print "0 digest"
                else if (name ~ /^snapshots/) print i % 2 ? "0 drop_metadata_snap" : "0 take_metadata_snap"
                if (name ~ /in rounds/ && i % 4096 == 4095)
                    print "run"
            }
        }' > "$work/stream"
    sync "$work/stream"
}

# The origins of a program in a place: one of 4,096 blocks, written, and one of 65,536 blocks, with holes.
make_origins() {
    mkdir "$1" && head -c 16777216 /dev/zero > "$1/origin-4096.img" && truncate -s 268435456 "$1/origin-65536.img" \
        && sync "$1/origin-4096.img"
}

# A blank metadata image. Where sessions don't write it, it has holes.
make_metadata() {
    rm -f "$1"
    if [ $mode = plain ]; then
        truncate -s "$2" "$1"
    else
        head -c "$2" /dev/zero > "$1" && sync "$1"
    fi
}

# ---- a run ----

within() { (cd "$1" && shift && exec "$@"); }

# Runs a program in a folder on the stream. It sets status, wall and cpu in microseconds, and peak in KiB.
run_in() {
    local folder=$1 answer=$2 seconds user system
    shift 2
    if [ "$spend" ]; then
        within "$folder" "$spend" "$work/spent" "$@" < "$work/stream" > "$answer" 2> "$work/errors"
        status=$?
        read -r wall cpu peak < "$work/spent"
    else
        TIMEFORMAT='%3R %3U %3S'
        { time within "$folder" "$@" < "$work/stream" > "$answer" 2> "$work/errors"; } 2> "$work/spent"
        status=$?
        read -r seconds user system < "$work/spent"
        wall=$((10#${seconds/./} * 1000))
        cpu=$(((10#${user/./} + 10#${system/./}) * 1000))
        peak=0
    fi
}

# The peak of a run in KiB, as /proc tells it again and again while the program runs.
watch_peak() {
    local folder=$1 child key value rest
    shift
    peak=0
    (cd "$folder" && exec "$@") < "$work/stream" > /dev/null 2>&1 &
    child=$!
    while kill -0 "$child" 2> /dev/null; do
        [ "/proc/$child/exe" -ef "$1" ] || continue
        while read -r key value rest; do
            [ "$key" != VmHWM: ] || peak=$value
        done < "/proc/$child/status"
    done 2> /dev/null
    wait "$child"
}

# How many pread64 calls a program makes before its main begins, by a run that reads no device.
loading_calls() {
    [ "$strace" ] || return
    strace -f -c -e trace=pread64 -o "$work/calls" "$@" > /dev/null 2>&1 < /dev/null
    awk '$NF == "pread64" { count = $4 } END { print count + 0 }' "$work/calls"
}

# The system calls of a run: those of devices and streams by kind, the others together. The first argument says how many
# of pread64 belong to the others.
calls_of() {
    local loading=$1 folder=$2
    shift 2
    [ "$strace" ] || return
    within "$folder" strace -f -c -o "$work/calls" "$@" < "$work/stream" > /dev/null 2>&1
    awk -v loading="$loading" '
        $1 ~ /^[0-9.]+$/ && $NF != "total" {
            if ($NF ~ /^(read|write|pread64|pwrite64|fdatasync|fsync)$/) count[$NF] = $4
            else others += $4
        }
        END {
            count["pread64"] -= loading
            others += loading
            many = split("read write pread64 pwrite64 fdatasync fsync", names)
            for (i = 1; i <= many; i++)
                if (count[names[i]] > 0)
                    printf "%s %d, ", names[i], count[names[i]]
            printf "others %d\n", others
        }' "$work/calls"
}

device_calls() { tr ',' '\n' <<< "$1" | grep -E 'pread64|pwrite64|sync'; }

# ---- the table ----

median() { sort -n "$1" | awk '{ v[NR] = $1 } END { print (v[int((NR + 1) / 2)] + v[int(NR / 2) + 1]) / 2 }'; }

# Median, least and greatest of microseconds, in milliseconds.
spread() {
    sort -n "$1" | awk -v m="$(median "$1")" '
        { v[NR] = $1 }
        END { printf "%.1f (%.1f to %.1f)", m / 1000, v[1] / 1000, v[NR] / 1000 }'
}

# A line of what was noted under a name.
table_line() {
    local place=$1 name=$2 whose=$3 noted=$work/noted.$4 calls=$5 ratio=$6 memory
    memory=$(awk -v kib="$(median "$noted.peak")" 'BEGIN { if (kib > 0) printf "%.1f", kib / 1024; else printf "-" }')
    echo "| $place | $name | $whose | $(spread "$noted.cpu") | $(spread "$noted.wall") | $memory | $calls | $ratio |"
}

note() {
    echo "$cpu" >> "$work/noted.$1.cpu"
    echo "$wall" >> "$work/noted.$1.wall"
    echo "$peak" >> "$work/noted.$1.peak"
}

# How many times the processor and wall time of the baseline the program took.
ratio() {
    awk -v p="$(median "$work/noted.program.cpu")" -v c="$(median "$work/noted.baseline.cpu")" \
        -v q="$(median "$work/noted.program.wall")" -v d="$(median "$work/noted.baseline.wall")" \
        'BEGIN { if (c > 0 && d > 0) printf "%.2f, %.2f", p / c, q / d; else printf "-" }'
}

check_status() {
    [ "$status" -eq 0 ] \
        || fail "$name: $1 ended with $status: $(tail -n 1 "$2" | head -c 80) $(head -n 1 "$work/errors")"
}

run_program() {
    if [ "$line" ]; then
        make_metadata "$folder/eractl/meta.img" "$metadata"
        run_in "$folder/eractl" "$work/answer" "$program" serve "$line"
    else
        make_metadata "$folder/eractl/other.img" "$metadata"
        run_in "$folder/eractl" "$work/answer" "$program" $words
    fi
    check_status eractl "$work/answer"
    note program
}

run_baseline() {
    if [ "$line" ] && [ "$baseline" ]; then
        make_metadata "$folder/c/meta.img" "$metadata"
        run_in "$folder/c" "$work/answer.c" "$baseline" $mode "$line"
        check_status "the baseline" "$work/answer.c"
        note baseline
    fi
}

compare_texts() {
    [ -z "$line" ] || [ -z "$baseline" ] || cmp "$work/answer" "$work/answer.c" >&2 \
        || fail "$name: eractl and the baseline give different texts"
}

# Both programs in turns.
take_turns() {
    local turn
    rm -f "$work"/noted.*
    for ((turn = 1; turn <= turns && (turn == 1 || SECONDS < budget); turn++)); do
        if ((turn % 2)); then
            run_program
            run_baseline
        else
            run_baseline
            run_program
        fi
        compare_texts
    done
    ((turn > turns)) || name="$name ($((turn - 1)) turns)"
}

# The peak, where no turn told it, and the system calls of the program, by further runs.
look_closer() {
    if [ -z "$spend" ]; then
        make_metadata "$folder/eractl/$1" "$metadata"
        watch_peak "$folder/eractl" "$program" "${@:2}"
        echo "$peak" > "$work/noted.program.peak"
    fi
    make_metadata "$folder/eractl/$1" "$metadata"
    calls=$(calls_of "$loading" "$folder/eractl" "$program" "${@:2}")
}

# As many commands as a run of the program takes about half a second for: on a disk of wall time, in memory of processor
# time, which depends less on what else the machine does.
size_session() {
    local spent
    count=$((most < 64 ? most : 64))
    while true; do
        stream_of "$name" $count
        run_program
        spent=$([ "$place" = tmpfs ] && echo "$cpu" || echo "$wall")
        if [ $count -eq "$most" ] || [ "$spent" -ge 300000 ]; then
            break
        fi
        count=$((count * (spent < 50000 ? 12 : 600000 / spent)))
        count=$((count > most ? most : count))
    done
    [ $count -eq 0 ] || name="$count $name"
}

measure_session() {
    local name=$1 most=$2 blocks=$3 line metadata count calls others=
    metadata=$("$program" need $((blocks * 8)) 8)
    metadata=$((${metadata#need } * 4096))
    line="0 $((blocks * 8)) era meta.img origin-$blocks.img 8"
    size_session
    take_turns
    look_closer meta.img serve "$line"
    if [ -z "$baseline" ]; then
        table_line "$place" "$name" eractl program "$calls" ""
        return
    fi
    cmp "$folder/eractl/origin-$blocks.img" "$folder/c/origin-$blocks.img" >&2 \
        || fail "$name: eractl and the baseline leave different origins"
    make_metadata "$folder/c/meta.img" "$metadata"
    others=$(calls_of "$loading_baseline" "$folder/c" "$baseline" $mode "$line")
    if [ "$(device_calls "$calls")" = "$(device_calls "$others")" ]; then
        table_line "$place" "$name" eractl program "$calls" "$(ratio)"
    else
        table_line "$place" "$name" eractl program "$calls" "$(ratio) (other device calls)"
    fi
    table_line "" "" C baseline "$others" ""
}

# What the tools work on: a session's images.
leave_images() {
    local line="0 524288 era meta.img origin-65536.img 8" metadata=1216512 name="the tools' session"
    stream_of "tools" 0
    run_program
}

measure_tool() {
    local name=$1 words=$2 line= metadata=1216512 calls
    : > "$work/stream"
    case $words in
    restore*) (cd "$folder/eractl" && "$program" dump meta.img) > "$work/stream" ;;
    apply*)
        (cd "$folder/eractl" && truncate -s 268435456 copy.img \
            && "$program" backup meta.img origin-65536.img --written-since 1) > "$work/stream"
        ;;
    esac
    take_turns
    look_closer other.img $words
    table_line "$place" "$name" eractl program "$calls" ""
}

# ---- the whole ----

loading=$(loading_calls "$program" need 512 8)
loading_baseline=
[ -z "$baseline" ] || loading_baseline=$(loading_calls "$baseline")

wanted() { [[ $1 =~ $only ]]; }

served=()
for session in "${sessions[@]}"; do
    IFS='|' read -r name most blocks line <<< "$session"
    wanted "$name" && serves "$line" && served+=("$name|$most|$blocks")
done
run_tools=()
for tool in "${tools[@]}"; do
    wanted "${tool%%|*}" && [ $mode = commit ] && runs_tool "${tool#*|}" && run_tools+=("$tool")
done

processor=$(awk -F ': *' '/^model name/ { print $2; exit }' /proc/cpuinfo)
echo "$(date +%F), $(nproc) processors${processor:+ ($processor)}, Linux $(uname -r), ${places[*]}," \
    "load average $(cut -d ' ' -f 1 /proc/loadavg), marks $([ $mode = plain ] && echo in memory || echo on the metadata disk)"
echo
echo "| Files on | Session | Of | user + system, ms | wall, ms | peak, MiB | system calls | times C: processor, wall |"
echo "|---|---|---|---|---|---|---|---|"
for at in "${!places[@]}"; do
    place=${places[at]}
    folder=${folders[at]}
    if ! make_origins "$folder/eractl" || ! make_origins "$folder/c"; then
        fail "the images can't be made on $place"
    fi
    for session in ${served[@]+"${served[@]}"}; do
        IFS='|' read -r name most blocks <<< "$session"
        measure_session "$name" "$most" "$blocks"
    done
    [ ${#run_tools[@]} -eq 0 ] || leave_images
    for tool in ${run_tools[@]+"${run_tools[@]}"}; do
        measure_tool "${tool%%|*}" "${tool#*|}"
    done
    rm -rf "$folder/eractl" "$folder/c"
done
if [ "$gate" ] && wanted "a round at the gate"; then
    echo "| | a round at the gate, on each of two threads at once | C | | $("$gate") ns | | | |"
fi
