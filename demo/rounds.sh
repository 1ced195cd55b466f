#!/bin/bash
# Serves two rounds over two pipes: each round is sent only after the one before was answered. So a program that waits
# for more input before it answers gets none, and this ends after a minute with an error.
# The status is 0 only where the answers are the expected ones.
set -u
top=$(dirname "$(dirname "$(readlink -f "$0")")")

# builds it, or says in one line what that needs
"$top/eractl" need 512 8 > /dev/null || exit

folder=$(mktemp -d) || exit 1
cd "$folder" || exit 1
program=
finish() {
    [ -z "$program" ] || kill "$program" 2> /dev/null
    rm -rf "$folder"
}
trap finish EXIT

truncate -s 262144 origin.img
truncate -s 233472 meta.img
mkfifo sent answered

"$top/eractl" serve "0 512 era meta.img origin.img 8" < sent > answered &
program=$!
exec 3> sent 4< answered

# the next line that is answered has to be this one
expect() {
    line=
    if read -r -t 60 line <&4 && [ "$line" = "$1" ]; then
        echo "    answered: $line"
    else
        echo "not as expected: '$line' in the place of '$1'" >&2
        exit 1
    fi
}

# one sector of a byte, as hexadecimal digits
sector() {
    printf "$1%.0s" $(seq 512)
}

expect "open 1 64"
echo "sent: a write, and the end of its round"
printf '0 write 0 %s\nrun\n' "$(sector aa)" >&3
expect "1 ok t0 m1 g2 d3"
echo "sent: a checkpoint, a list, and the end of their round"
printf '0 checkpoint\n0 list 1\nrun\n' >&3
expect "3 era 2 e4"
expect "4 blocks 0 l5"
echo "sent: the end of the input"
exec 3>&-
expect "end 2 6"
wait "$program"
status=$?
program=
[ "$status" -eq 0 ] || { echo "not as expected: status $status" >&2; exit 1; }
echo "as expected"
