#!/usr/bin/env bash
# The command `sangueko` on a store in a temporary folder: a file of flags is written, overwritten, shown, settled and read back, and it is told which parts
# of it hold data; a batch of writes is made, and one that stops; a byte is written with `--archive` and without; files are written into a store with
# holes; a write is killed; then one byte of a copy is damaged in each of several ways, a copy gets the cards of an older store, and the refusals are shown
# in words. Every answer is compared with what it has to be: the script fails where one is not. It needs the archive (`tools/archives`), ends by itself
# and leaves nothing behind.
set -euo pipefail
cd "$(dirname "$0")/.."
cargo build --release --offline --quiet --manifest-path host/tool/Cargo.toml
sangueko=$PWD/host/tool/target/release/sangueko

place=$(mktemp -d)
trap 'rm -rf "$place"' EXIT
cd "$place"

say() { printf '\n-- %s\n' "$*"; }
# the command as one would type it, and its answer
run() {
    echo "\$ sangueko $*"
    "$sangueko" "$@"
}
# the same for a command that has to end with a code
ends() {
    local code=$1 got=0
    shift
    run "$@" 2>&1 || got=$?
    echo "   (exit code $got)"
    [ "$got" -eq "$code" ] || { echo "expected exit code $code"; exit 1; }
}
# two files have to be equal; a `cmp .. && echo ..` would not end the script where they are not
same() {
    cmp "$1" "$2"
    echo "$3"
}
# COUNT bytes of one value, in octal
bytes() { head -c "$1" /dev/zero | tr '\0' "\\$2"; }

say "A store of 160 blocks; file 7 holds a bit for each coverage bin"
run new store --blocks 160 --reserved 4 --cards 4 --groups 4 --uuid 00112233445566778899aabbccddeeff
run enter store 7 --time 1700000000.5
bytes 150000 357 >flags
run write store 7 flags
echo "a second file" >text
run enter store 9
run write store 9 text

say "Some bins are excluded: zeros over a part of the flags. New bytes go to new blocks, and the old ones are retired"
bytes 1000 000 >zeros
run write store 7 zeros --at 60000
dd if=zeros of=flags bs=1 seek=60000 conv=notrunc status=none

say "Flags far behind the end. What lies between was never written, and reads as zeros: bins that nobody excluded"
bytes 50000 377 >more
run write store 7 more --at 400000
truncate -s 400000 flags
cat more >>flags
run flags store 7

say "Which parts of the file hold data, and which nobody wrote; and the same of its last three units alone"
run data store 7 | tee told
grep -q 'with data      4 units in 2 stretches, 253,392 bytes' told
grep -q '^  0  AAA\.\.\.A$' told
run data store 7 4 3 --json | tee told
grep -q '"never_written":2,"without_checksum":0,"stretches":\[{"first":6,"units":1,"bytes":56784}\]' told
ends 19 data store 7 1 18446744073709551615

say "The store"
run show store

say "File 7 was created at the time at which it was entered, whatever was written since"
"$sangueko" show store | grep -o 'file 7: .*, created 2023-11-14 22:13:20.500000000 UTC'

say "Settled: the retired blocks are free again"
run settle store
run show store --json | sed 's/.*"map":"\(.*\)".*/\1/' | fold -w 64

say "Read back, and compared with a plain file to which the same was done"
run read store 7 --out back
same back flags "the same, byte for byte"

say "Parts of it, one after another: two of a unit, one that was never written, and one that ends past the file's end"
run read store 7 --ranges 59990:20,60990:20,300000:5,449990:100 --out parts
for range in 59990:20 60990:20 300000:5 449990:10; do
    dd if=flags bs=1 skip="${range%:*}" count="${range#*:}" status=none
done >expected
same parts expected "the same bytes"

say "Many small updates of a copy at once: a line for each, the bytes as digits or from a file"
cp -r store updated
cp flags updated.flags
# bytes in octal, put into the plain file
put() { printf "$2" | dd of=updated.flags bs=1 seek="$1" conv=notrunc status=none; }
printf '7 100 00\n9 2 5345434f4e44\n7 59999 @text\n7 449999 fe\n' >list
cat list
run batch updated list
put 100 '\000'
put 59999 'a second file\n'
put 449999 '\376'
run read updated 7 --out back
same back updated.flags "the same, byte for byte"
run read updated 9

say "The third of four has no file: the two before it are stored, the fourth is not made"
printf '7 0 01\n9 2 7365636f6e64\n8 0 00\n7 0 02\n' >list
ends 3 batch updated list
put 0 '\001'
run read updated 7 --out back
same back updated.flags "the same, byte for byte"
run read updated 9
ends 0 check updated

say "A file that is read end to end: 64 KiB in one piece, and a byte written in the middle. One block is new, and the file is in three pieces"
run new pieces --blocks 40
run enter pieces 7
bytes 65536 252 >unit
run write pieces 7 unit
cp -r pieces whole
printf x >byte
run write pieces 7 byte --at 30000
"$sangueko" show pieces >told
grep '^  [0-9]* reserved' told
grep -o 'file 7: .* in [0-9]* pieces*' told | tee told.file
grep -q '16 of files, 1 retired' told
grep -q '16 blocks in 3 pieces$' told.file

say "The same of a copy with --archive, by which a unit keeps old blocks only at two runs: all 16 are new, and it is in one piece"
run write whole 7 byte --at 30000 --archive
"$sangueko" show whole >told
grep '^  [0-9]* reserved' told
grep -o 'file 7: .* in [0-9]* pieces*' told | tee told.file
grep -q '16 of files, 16 retired' told
grep -q '16 blocks in 1 piece$' told.file
dd if=byte of=unit bs=1 seek=30000 conv=notrunc status=none
for store in pieces whole; do
    run read "$store" 7 --out back
    same back unit "the same, byte for byte"
done
say "Eight blocks are free now: too few for --archive, and enough without"
ends 13 write whole 7 byte --at 20000 --archive
ends 0 write whole 7 byte --at 20000

say "Eight files of a block each, of which every second was written again: the blocks that they gave up are holes"
run new holes --blocks 16 --cards 10
for file in 1 2 3 4 5 6 7 8; do "$sangueko" enter holes "$file" >told; done
printf '%s 0 61\n' 1 2 3 4 5 6 7 8 2 4 6 8 >list
run batch holes list
run settle holes
# the map of a store, one letter for each block
map() { "$sangueko" show "$1" --json | sed 's/.*"map":"\(.*\)".*/\1/' | tee told; }
map holes
grep -qx 'A\.C\.E\.G\.BDFH\.\.\.\.' told

say "A file of four blocks is in one piece behind them; the next is not, as no four are side by side any more"
bytes 16384 252 >four
for file in 9 10; do
    run enter holes "$file"
    run write holes "$file" four
    map holes
done
grep -qx AJCJEJGJBDFHIIII told
"$sangueko" show holes | grep -o 'file [0-9]*: 16,384 .* in [0-9] pieces*' | tee told
grep -q '^file 9: .* in 1 piece$' told
grep -q '^file 10: .* in 4 pieces$' told
ends 0 check holes

say "A write of four calls is killed on the way: the store is as after some whole call"
run new large --blocks 2000
run enter large 1
bytes 4000000 252 >large.bytes
cp large/cards before
"$sangueko" write large 1 large.bytes >/dev/null &
writer=$!
# until its first call has reached the files
while cmp -s large/cards before && kill -0 "$writer" 2>/dev/null; do sleep 0.001; done
kill -KILL "$writer" 2>/dev/null || true
wait "$writer" 2>/dev/null || true
ends 0 check large
"$sangueko" show large | grep 'file 1:'

# one byte of a copy is set to an octal value; the check has to end with a code
damage() {
    local what=$1 file=$2 at=$3 value=$4 code=$5
    say "$what (byte $at of $file)"
    rm -rf copy
    cp -r store copy
    printf "\\$value" | dd of="copy/$file" bs=1 seek="$at" conv=notrunc status=none
    ends "$code" check copy
}

say "Now a copy is damaged, one byte at a time"
damage "A byte of the flags" image 20480 000 12
ends 12 read copy 7 --ranges 449990:5,5:10 --out parts
same parts expected "   (nothing was written)"
damage "The head's number of blocks" head 17 000 1
damage "The nanoseconds of a file's creation" cards 39 003 2
damage "A spare bit of a card" cards 47 001 2
damage "The count of an extent" extents 25 000 2
damage "The first block of an extent" extents 17 001 2
damage "A bit of the map of used blocks" used 0 177 2
damage "A checksum's presence bit" groups 17 000 2
damage "A checksum" groups 49 000 12

say "A file that is a byte short, and one that is gone"
rm -rf copy
cp -r store copy
truncate -s -1 copy/cards
ends 1 fill copy
rm copy/cards
ends 66 fill copy

say "An older store, whose cards have 32 bytes: it is not converted"
card() { dd if=store/cards bs=1 skip="$1" count=32 status=none; }
{ card 0 && card 48 && bytes 64 000; } >copy/cards
ends 1 check copy

say "What a refusal means"
run explain 12
echo "-- the store itself is untouched by all that"
ends 0 check store
