#!/bin/sh
# Runs each command of the program once for each status that it can end with, but for that of want of memory (which
# failing_memory.py looks at), and compares the status of the process, which the program's main makes of the command's.
#
#     exit_statuses.sh [PROGRAM]
#
# PROGRAM is the program, else the variable UZEBOX, else `uzebox` at the top of the repository. Of the second form of a row
# standard output is /dev/full, which takes nothing: where a command did its work that is status 5, and a fault keeps its own.
# Of the third one it is closed, which is status 5 too, and the file that is written is what it is where it's open.
# At the end: what is read isn't written over, and what standard error says of the statuses 1 and 5.
# Prints a line for each run that ends otherwise than it should, and at last `N passed, M failed, K skipped`. Ends with 0 where
# none failed, 1 where one did, 2 where the words aren't these.
[ $# -le 1 ] || { sed -n '2,12s/^# \{0,1\}//p' "$0" >&2; exit 2; }
top=$(dirname -- "$(readlink -f -- "$0")")/..
program=$(readlink -f -- "${1:-${UZEBOX:-$top/uzebox}}")
[ -x "$program" ] || { echo "$program: no program is there" >&2; exit 2; }
folder=$(mktemp -d) || exit 70
trap 'rm -rf "$folder"' EXIT
trap 'exit 130' HUP INT TERM
cd "$folder" || exit 70
cp "$top"/examples/*.asm "$top"/examples/*.cert "$top"/examples/*.hex "$top"/examples/no-pads.txt .
printf 'foo\n' >bad
printf 'step 1\n' >script
printf '.dw 0xFFFF\n' | cat - loop-ring.asm >stops.asm # the first word is no instruction
printf 'ldi r16,1\nout DDRB,r16\nout PORTB,r16\n.dw 0xFFFF\n' >late.asm # nor is the word after sync rises
sed '/start/d' pulse.asm >unstarted.asm
runs=0
wrong=0

# a status, where standard output goes, and the words
runs_to() {
    want=$1
    output=$2
    shift 2
    "$program" "$@" >"$output" 2>errors
    came=$?
    runs=$((runs + 1))
    if [ "$came" != "$want" ]; then
        wrong=$((wrong + 1))
        echo "failed: status $came and not $want, output to $output: $*"
    fi
}

prints() {
    want=$1
    shift
    runs_to "$want" lines "$@"
}

can_not_print() {
    want=$1
    shift
    runs_to "$want" /dev/full "$@"
}

# the words of a command, of which the last one names the file that is written
writes_unprinted() {
    for file; do :; done
    prints 0 "$@"
    mv "$file" whole
    "$program" "$@" >&- 2>errors
    came=$?
    runs=$((runs + 1))
    if [ "$came" != 5 ] || ! cmp -s whole "$file"; then
        wrong=$((wrong + 1))
        echo "failed: status $came and not 5, or not the same file, output closed: $*"
    fi
}

# no command
prints 1
prints 1 demo 07
prints 1 play ring.hex ring.cert no-pads.txt 0 frames
can_not_print 1 what

# asm, build, expand
for command in asm build expand; do
    prints 0 $command loop-ring.asm out
    prints 1 $command loop-ring.asm
    prints 2 $command none out
    can_not_print 2 $command none out
    can_not_print 5 $command loop-ring.asm out
    prints 5 $command loop-ring.asm no/such/folder
    writes_unprinted $command loop-ring.asm out
done
prints 3 asm bad out
prints 3 build bad out
printf '.endr\n' >unopened
prints 3 expand unopened out

# the files of the rows below
prints 0 asm stops.asm stops.hex
prints 0 asm pulse.asm pulse.hex
prints 0 certify stops.asm 4 stops.hex stops.cert
prints 0 asm late.asm late.hex

# dis
prints 0 dis ring.hex
prints 1 dis
prints 2 dis none
prints 3 dis bad
can_not_print 3 dis bad
can_not_print 5 dis ring.hex

# trace
prints 0 trace ring.hex no-pads.txt 4 4000
prints 1 trace ring.hex no-pads.txt 6 4000
prints 2 trace ring.hex none 4 4000
prints 3 trace ring.hex bad 4 4000
can_not_print 3 trace ring.hex bad 4 4000
can_not_print 5 trace ring.hex no-pads.txt 4 4000
prints 6 trace stops.hex no-pads.txt 4 4000
can_not_print 6 trace stops.hex no-pads.txt 4 4000
prints 6 trace late.hex no-pads.txt 4 4000
can_not_print 5 trace late.hex no-pads.txt 4 4000 # the line of the edge comes first

# debug
prints 0 debug ring.hex no-pads.txt 4 script
prints 1 debug ring.hex no-pads.txt 4
prints 2 debug ring.hex no-pads.txt 4 none
prints 3 debug ring.hex no-pads.txt 4 bad
can_not_print 5 debug ring.hex no-pads.txt 4 script

# certify
prints 0 certify pulse.asm 4 out.hex out.cert
prints 1 certify pulse.asm 3 out.hex out.cert
prints 2 certify none 4 out.hex out.cert
prints 3 certify bad 4 out.hex out.cert
prints 4 certify unstarted.asm 4 out.hex out.cert
can_not_print 4 certify unstarted.asm 4 out.hex out.cert
prints 5 certify pulse.asm 4 out.hex no/such/folder
can_not_print 5 certify pulse.asm 4 out.hex out.cert
writes_unprinted certify pulse.asm 4 out.hex out.cert

# timing
prints 0 timing pulse.hex pulse.cert
prints 0 timing ring.hex ring.cert
prints 1 timing ring.hex
prints 2 timing ring.hex none
prints 3 timing ring.hex bad
prints 4 timing ring-short.hex ring-short.cert
can_not_print 4 timing ring-short.hex ring-short.cert
can_not_print 5 timing ring.hex ring.cert

# find
prints 0 find pulse.hex pulse.asm 4 out.cert
prints 1 find pulse.hex pulse.hex 4 out.cert
prints 2 find pulse.hex none 4 out.cert
prints 3 find ring.hex pulse.asm 4 out.cert
prints 4 find pulse.hex unstarted.asm 4 out.cert
can_not_print 4 find pulse.hex unstarted.asm 4 out.cert
prints 5 find pulse.hex pulse.asm 4 no/such/folder
can_not_print 5 find pulse.hex pulse.asm 4 out.cert
writes_unprinted find pulse.hex pulse.asm 4 out.cert

# check
prints 0 check ring.hex ring.cert
prints 1 check ring.hex
prints 2 check ring.hex none
prints 3 check ring.hex bad
prints 4 check ring-short.hex ring-short.cert
can_not_print 4 check ring-short.hex ring-short.cert
can_not_print 5 check ring.hex ring.cert

# report
prints 0 report pulse.hex pulse.cert
prints 0 report ring.hex ring.cert
prints 1 report ring.hex
prints 2 report ring.hex none
prints 3 report ring.hex bad
prints 4 report ring-short.hex ring-short.cert
can_not_print 4 report ring-short.hex ring-short.cert
can_not_print 5 report ring.hex ring.cert

# wave
prints 0 wave ring.hex no-pads.txt 4 4000 out.wav
prints 1 wave ring.hex no-pads.txt 4 4000 ring.hex
prints 2 wave none no-pads.txt 4 4000 out.wav
prints 3 wave bad no-pads.txt 4 4000 out.wav
can_not_print 3 wave bad no-pads.txt 4 4000 out.wav
prints 5 wave ring.hex no-pads.txt 4 4000 no/such/folder
can_not_print 5 wave ring.hex no-pads.txt 4 4000 out.wav
writes_unprinted wave ring.hex no-pads.txt 4 4000 out.wav
rm -f out.wav
prints 6 wave late.hex no-pads.txt 4 4000 out.wav
can_not_print 6 wave late.hex no-pads.txt 4 4000 out.wav
runs=$((runs + 1))
[ -e out.wav ] && wrong=$((wrong + 1)) && echo "failed: a run that is stopped writes a sound file"

# hints
prints 0 hints ring.hex no-pads.txt 4 20000 out.hints
prints 1 hints ring.hex no-pads.txt 4 20000 ring.hex
prints 2 hints none no-pads.txt 4 20000 out.hints
prints 3 hints bad no-pads.txt 4 20000 out.hints
can_not_print 3 hints bad no-pads.txt 4 20000 out.hints
prints 5 hints ring.hex no-pads.txt 4 20000 no/such/folder
can_not_print 5 hints ring.hex no-pads.txt 4 20000 out.hints
writes_unprinted hints ring.hex no-pads.txt 4 20000 out.hints
rm -f out.hints
prints 4 hints late.hex no-pads.txt 4 20000 out.hints
can_not_print 4 hints late.hex no-pads.txt 4 20000 out.hints
runs=$((runs + 1))
[ -e out.hints ] && wrong=$((wrong + 1)) && echo "failed: a run that gives no hints writes a file of them"

# play
prints 0 play ring.hex ring.cert no-pads.txt 4000 frames
prints 1 play ring.hex ring.cert no-pads.txt 4000
prints 2 play none ring.cert no-pads.txt 4000 frames
prints 3 play bad ring.cert no-pads.txt 4000 frames
prints 4 play ring-short.hex ring-short.cert no-pads.txt 4000 frames
prints 5 play ring.hex ring.cert no-pads.txt 4000 no/such/folder
can_not_print 5 play ring.hex ring.cert no-pads.txt 4000 frames
writes_unprinted play ring.hex ring.cert no-pads.txt 4000 frames
prints 6 play stops.hex stops.cert no-pads.txt 4000 frames
can_not_print 6 play stops.hex stops.cert no-pads.txt 4000 frames
prints 7 play ring.hex ring.cert no-pads.txt 1 frames
can_not_print 7 play ring.hex ring.cert no-pads.txt 1 frames

# demo
prints 0 demo 0
prints 1 demo 65536
can_not_print 5 demo 0

# migrate
prints 0 migrate loop-ring-1.cert out
prints 1 migrate loop-ring-1.cert
prints 2 migrate none out
prints 3 migrate ring.cert out
prints 5 migrate loop-ring-1.cert no/such/folder
can_not_print 5 migrate loop-ring-1.cert out
writes_unprinted migrate loop-ring-1.cert out

# help, version
prints 0 help
prints 0 help wave
prints 1 help what
can_not_print 5 help
prints 0 version
prints 1 version 1
can_not_print 5 version

# What is read, or written before, isn't written over: status 5, its name on standard error, and the file as it was. The
# first word is the file, the last one a name of it
keeps() {
    file=$1
    shift
    cp "$file" before
    for name; do :; done
    prints 5 "$@"
    if ! cmp -s before "$file" || ! grep -q "^uzebox: $name could not be written$" errors; then
        wrong=$((wrong + 1))
        echo "not kept, or not told: $*"
    fi
}
ln -s pulse.asm soft
ln pulse.asm hard
printf '.include pulse.asm\n' >includes.asm
for name in ./pulse.asm "$PWD/pulse.asm" soft hard; do
    keeps pulse.asm asm pulse.asm "$name"
    keeps pulse.asm build includes.asm "$name"
    keeps pulse.asm expand includes.asm "$name"
done
rm -f out.hex
prints 0 asm pulse.asm whole
prints 5 certify pulse.asm 4 out.hex ./out.hex
cmp -s whole out.hex || { wrong=$((wrong + 1)) && echo 'certify leaves another image'; }
for name in /dev/stdout /proc/self/fd/1 standard; do
    echo before >standard
    "$program" asm pulse.asm $name >>standard 2>errors
    came=$?
    runs=$((runs + 1))
    if [ "$came" != 5 ] || [ "$(cat standard)" != before ]; then
        wrong=$((wrong + 1))
        echo "status $came and not 5, or something is written, to $name as standard output"
    fi
done
[ "$({ "$program" asm pulse.asm /dev/stdout 2>errors; echo $?; } | cat)" = 5 ] || { wrong=$((wrong + 1)) && echo 'a pipe takes both'; }
prints 0 asm pulse.asm /dev/null
prints 1
grep -q '^uzebox: uzebox help prints the words of each command$' errors || { wrong=$((wrong + 1)) && echo 'no word on help'; }

echo "$((runs - wrong)) passed, $wrong failed, 0 skipped"
[ "$wrong" = 0 ]
