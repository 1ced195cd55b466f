#!/bin/sh
# Serves a short stream on two new images, and shows what was sent and what was answered: writes, a checkpoint, a write
# in the next era, and which blocks were written since each of the two eras.
# The status is 0 only where the answers and the image are the expected ones.
set -u
top=$(dirname "$(dirname "$(readlink -f "$0")")")

# builds it, or says in one line what that needs
"$top/eractl" need 512 8 > /dev/null || exit

folder=$(mktemp -d) || exit 1
trap 'rm -rf "$folder"' EXIT
cd "$folder" || exit 1

# 512 sectors of 512 bytes, in 64 blocks of 8 sectors, and 57 metadata blocks of 4,096 bytes
truncate -s 262144 origin.img
truncate -s 233472 meta.img

# one sector of a byte, as hexadecimal digits
sector() {
    printf "$1%.0s" $(seq 512)
}

{
    echo "0 write 0 $(sector aa)"
    echo "0 write 1 $(sector bb)"
    echo "0 write 8 $(sector cc)"
    echo "0 write 512 $(sector dd)"
    echo "0 checkpoint"
    echo "0 write 8 $(sector ee)"
    echo "0 write 40 $(sector ff)"
    echo "0 list 1"
    echo "0 list 2"
} > sent.txt

cat > expected.txt << 'ANSWERS'
open 1 64
1 ok t0 m1 g2 d3
2 ok g4 d5
3 ok t6 m7 g8 d9
4 range
5 era 2 e10
6 ok t11 m12 g13 d14
7 ok t15 m16 g17 d18
8 blocks 0-1,5 l19
9 blocks 1,5 l20
end 2 21
ANSWERS

"$top/eractl" serve "0 512 era meta.img origin.img 8" < sent.txt > answered.txt
status=$?

echo "sent (each line cut after 24 characters):"
sed 's/^\(.\{24\}\).*/\1../; s/^/    /' sent.txt
echo "answered, with status $status:"
sed 's/^/    /' answered.txt

# the image: sectors of aa and bb in block 0, of ee in block 1 and of ff in block 5
{
    printf '\252%.0s' $(seq 512)
    printf '\273%.0s' $(seq 512)
    head -c 3072 /dev/zero
    printf '\356%.0s' $(seq 512)
    head -c 15872 /dev/zero
    printf '\377%.0s' $(seq 512)
    head -c 241152 /dev/zero
} > expected.img

if [ "$status" -eq 0 ] && cmp answered.txt expected.txt && cmp origin.img expected.img; then
    echo "as expected"
else
    echo "not as expected" >&2
    exit 1
fi
