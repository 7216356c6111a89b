#!/bin/sh
# Tries ./uzebox, ./prove, tools/release and .ci/run in a small tree of its own, with stand-ins for the program and for
# the toolchain's command rt: which program is run, and with what status, after files are changed, added, removed or put
# back, what is said where nothing can be built, and what the comparisons refuse. Needs no toolchain; takes no words.
# Its last line is `N passed, M failed, 0 skipped`; ends with 0 where none failed, 1 where one did, and 2 where the tree
# can't be made.
#   tests/runner.sh
top=$(CDPATH="" cd -- "$(dirname -- "$0")/.." && pwd) || exit 2
room=$(mktemp -d) || exit 2
trap 'chmod -R u+w "$room"; rm -rf "$room"' EXIT
trap 'exit 130' HUP INT TERM
passed=0 failed=0
FAILS='' # has the stand-in for rt prove nothing
export FAILS
tree="$room/a clone"
text=crates/uz_hex/src/lib.rt
without_rt=$room/tools # all commands that the scripts call, and no rt
with_rt=$room/kit:$without_rt

# the scripts, and four crates, of which the program stands on two
make_tree() {
    mkdir -p "$tree/release/x86_64-linux" "$without_rt" "$room/kit" || return
    cp -R "$top/uzebox" "$top/prove" "$top/tools" "$top/HANDLES" "$top/.ci" "$tree" || return
    for crate in uz_hex uz_core uzebox core_cases; do
        mkdir -p "$tree/crates/$crate/src" "$tree/crates/$crate/proofs"
        echo "fn of_$crate() {}" >"$tree/crates/$crate/src/lib.rt"
        echo "module $crate" >"$tree/crates/$crate/proofs/Lib.antt"
    done
    printf '%s\n' '# crates' uz_hex: 'uz_core: uz_hex # a machine' 'core_cases: uz_core' 'uzebox: uz_core thiserror' \
        >"$tree/crates.txt"
    cp -Rp "$tree" "$room/before"
    for command in awk cat chmod cmp cp cut dirname env find flock grep install ls mkdir mktemp mv readlink rm sed sh \
        sha256sum sleep sort tail tee touch uname; do
        ln -s "$(command -v $command)" "$without_rt/$command" || return
    done
}

# a program that says its name and its words, and ends with a status: make_program FILE NAME STATUS
make_program() {
    printf '#!/bin/sh\necho %s "$@"\nexit %s\n' "$2" "$3" >"$1" && chmod +x "$1"
}

# a command rt that proves all at once, and "builds" a program
make_rt() {
    cat >"$room/kit/rt" <<'END'
#!/bin/sh
[ "$*" = ci ] || { echo 'kit 1'; exit; }
echo "$(cat "$0.runs" 2>/dev/null)x" >"$0.runs"
sleep "${SECONDS_OF_RT:-0}"
[ -z "$FAILS" ] || { echo 'rt: uz_hex NOT PROVED'; echo '0 passed, 1 failed'; exit 2; }
sed -n 's/^\([a-z0-9_]*\):.*/rt: \1 proved/p' crates.txt
mkdir -p crates/uzebox/out
printf '#!/bin/sh\necho own "$@"\nexit 4\n' >crates/uzebox/out/uzebox
chmod +x crates/uzebox/out/uzebox
echo '3 passed, 0 failed'
END
    chmod +x "$room/kit/rt"
}

# expects STATUS LAST WHAT COMMAND..: a command's status, and the last line that it writes
expects() {
    status=$1 last=$2 what=$3
    shift 3
    said=$("$@" 2>&1)
    ended=$?
    if [ "$ended $(printf '%s\n' "$said" | tail -n 1)" = "$status $last" ]; then
        passed=$((passed + 1))
    else
        failed=$((failed + 1))
        printf 'FAILED: %s: status %s for %s, said: %s\n' "$what" "$ended" "$status" "$said"
    fi
}

uzebox() { PATH=$without_rt ./uzebox "$@"; }
uzebox_with_rt() { PATH=$with_rt ./uzebox "$@"; }
runs_release() { expects 3 'release a b  c' "$1" uzebox a 'b  c'; }
runs_own() { expects 4 'own a' "$1" uzebox a; }
builds_none() { expects 70 "uzebox: the program can't be built: the command rt is not found" "$1" uzebox a; }
prove() { PATH=$with_rt ./prove; }
gate() { PATH=$with_rt .ci/run; }
refused='tools/release puts what was built into release/'
put_back() { cp -p "$room/before/$1" "$1"; }

make_tree && cd "$tree" && make_rt && make_program release/x86_64-linux/uzebox release 3 || exit 2
echo "$(tools/sources_sum) kit 1" >release/SOURCES

runs_release 'a fresh clone'
runs_release 'a second call'
expects 3 'release version' 'a version that ends otherwise than with 0' uzebox version
make_program release/x86_64-linux/uzebox release 0
expects 0 "sources $(tools/sources_sum)" 'the sum behind the version' uzebox version
expects 0 'release version x' 'other words' uzebox version x
make_program release/x86_64-linux/uzebox release 3
ln -s "$tree/uzebox" "$room/link"
expects 3 'release x' 'called by a link' env PATH="$without_rt" "$room/link" x
expects 3 'release x' 'called by its name' env PATH="$tree:$without_rt" uzebox x
expects 3 'release x' 'from another folder' env PATH="$without_rt" CDPATH="$room" sh -c 'cd / && "$0" x' "$tree/uzebox"

printf ' ' >>$text
builds_none 'a byte more'
builds_none 'a byte more, once more'
put_back $text
runs_release 'the byte taken back, with the file time of before'
printf 'x' >>$text && touch -r "$room/before/$text" $text
builds_none 'a changed file with an old time'
put_back $text
: >crates/uz_hex/src/more.rt
builds_none 'a file more'
rm crates/uz_hex/src/more.rt
runs_release 'that file removed'
mv crates/uz_core/proofs "$room/proofs"
builds_none 'a folder less'
mv "$room/proofs" crates/uz_core/proofs
runs_release 'that folder put back'
sed -i 's/thiserror/hex/' crates.txt
builds_none 'a line of crates.txt changed'
put_back crates.txt
echo '# no crate' >>crates.txt
printf ' ' >>crates/core_cases/src/lib.rt
runs_release 'a comment in crates.txt, and a crate that the program does not stand on'
find . -exec touch {} +
runs_release 'all times new'
rm -rf out && : >out
runs_release 'out cannot be written'
printf ' ' >>$text
expects 70 "uzebox: the program can't be built: $tree/out can't be written" 'nor can a build be' uzebox_with_rt a
rm out

expects 4 'own a' 'a build of the changed source' uzebox_with_rt a
runs_own 'that build, without rt'
put_back $text
runs_release 'the source as it was'
printf ' ' >>$text
runs_own 'the source changed again'
printf ' ' >>$text
FAILS=1
expects 70 "uzebox: the program can't be built: $tree/out/build.log has what was not proved or not built" \
    'a crate that is not proved' uzebox_with_rt a
FAILS=''
: >"$room/kit/rt.runs"
(SECONDS_OF_RT=2 uzebox_with_rt a >/dev/null 2>&1) &
sleep 1
expects 4 'own a' 'a second use at once' uzebox_with_rt a
wait
expects 0 x 'that two uses at once build once' tail -n 1 "$room/kit/rt.runs"

put_back $text
expects 1 "$refused" 'prove: another program' prove
expects 0 "release/ has the program of $(tools/sources_sum) kit 1" 'release' env PATH="$with_rt" tools/release
rm -r out
expects 0 'the same program' 'prove' prove
runs_own 'the refreshed program'
expects 0 'the same program' 'the gate' gate
mkdir tests
make_program tests/run tested 0
expects 0 'tested' 'the gate, with tests' gate
make_program tests/run tested 1
expects 1 'tested' 'the gate: tests that fail' gate
make_program tests/run tested 0
FAILS=1
expects 2 '0 passed, 1 failed' 'the gate: a crate that is not proved' gate
FAILS=''
printf ' ' >>release/x86_64-linux/uzebox
expects 1 "$refused" 'the gate: a byte more in the program' gate
expects 1 "$refused" 'prove: a byte more in the program' prove
cp out/uzebox release/x86_64-linux/uzebox
echo "$(tools/sources_sum) kit 2" >release/SOURCES
expects 0 'tested' 'the gate: another toolchain that makes the same bytes' gate
expects 0 'the same program' 'prove: another toolchain that makes the same bytes' prove
echo "0$(tools/sources_sum) kit 1" >release/SOURCES
expects 1 "$refused" 'the gate: stale SOURCES' gate
expects 1 "$refused" 'prove: stale SOURCES' prove

echo "$passed passed, $failed failed, 0 skipped"
[ "$failed" = 0 ]
