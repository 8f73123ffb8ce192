#!/bin/sh
# Tries the script ./endport with a stand-in for the toolchain's `rt`, on a checkout of tiny crates. It proves nothing and
# takes a minute. Its last line is 'N passed, M failed'. Where root runs it, another user (nobody, by setpriv) meets what
# can't be written.
# shellcheck disable=SC2015,SC2016
top=$(dirname "$(dirname "$(readlink -f "$0")")")
work=$(mktemp -d) || exit 1
trap 'chmod -R u+w "$work"; rm -rf "$work"' EXIT
chmod 755 "$work"
here=$work/checkout
passed=0
failed=0

# ---- the stand-ins

mkdir "$work/bin" "$work/try" "$work/tmp"
chmod 1777 "$work/try" "$work/tmp"
export TMPDIR="$work/tmp"

# For the program: a source's first line is the status, and the others are what is written.
cat > "$work/program" <<'END'
#!/bin/sh
for word; do case $word in *.c) file=$word ;; esac; done
[ -f "$file" ] && [ -r "$file" ] || { [ -z "$file" ] && echo usage: && exit 3; exit 4; }
sed 1d "$file" 2> /dev/null || exit 5
exit "$(sed -n 1p "$file")"
END

# For `rt`: it notes its words, runs the program under `try`, and builds it under `run`.
cat > "$work/bin/rt" <<'END'
#!/bin/sh
echo "$*" >> "$RT_WORK/calls"
verb=$1
shift
case $verb in
    version) echo "${RT_VERSION:-stand-in}" ;;
    try)
        room=$(mktemp -d "$RT_WORK/try/XXXXXX")
        while [ "$1" != -- ]; do
            [ "$1" != --data ] || cp "${2#*=}" "$room/${2%%=*}"
            shift 2
        done
        shift
        wc -c "$room"/* > "$RT_WORK/sizes" 2> /dev/null
        echo $# > "$RT_WORK/count"
        cd "$room" || exit 2
        sh -c "$RT_DURING"
        sh "$RT_WORK/program" "$@"
        status=$?
        rm -rf "$room"
        [ -z "$RT_LAST" ] || { echo "$RT_LAST" >&2; exit "$RT_STATUS"; }
        echo "run=ended status=$status runners=1 proved=no" >&2
        exit "$status"
        ;;
    all)
        mkdir -p ../one/out ../two/out
        sleep 0.1
        sh -c "$RT_DURING"
        echo "$RT_FAILS" >&2
        [ -z "$RT_FAILS" ]
        ;;
    run) mkdir -p out && cp "$RT_WORK/program" out/endport_cli && chmod +x out/endport_cli ;;
    # As the gate: it writes its lock, makes each out/ anew, reads, and builds.
    ci)
        rm -rf crates/*/out
        : > .git/rt-ci.lock
        sleep 0.1
        mkdir crates/one/out
        sleep 0.1
        sh -c "$RT_DURING"
        mkdir crates/two/out crates/endport_cli/out crates/tests/out
        cp "$RT_WORK/program" crates/endport_cli/out/endport_cli
        chmod +x crates/endport_cli/out/endport_cli
        ;;
esac
END
chmod +x "$work/bin/rt" "$work/program"
export RT_WORK="$work" RT_VERSION RT_DURING RT_FAILS RT_LAST RT_STATUS ENDPORT_MEMINFO
PATH=$work/bin:$PATH

# A new checkout.
anew() {
    chmod -R u+w "$here" 2> /dev/null
    rm -rf "$here"
    mkdir -p "$here/.git" "$here/files"
    cp "$top/endport" "$here"
    cp -r "$top/launcher" "$here"
    echo 'Handles allowed: none.' > "$here/HANDLES"
    printf 'one:\ntwo: one # a library\nendport_cli: two one\ntests: one\n' > "$here/crates.txt"
    for crate in one two endport_cli tests; do
        mkdir -p "$here/crates/$crate/src" "$here/crates/$crate/specs" "$here/crates/$crate/proofs/f"
        echo "// $crate" > "$here/crates/$crate/src/lib.rt"
        echo "-- $crate" > "$here/crates/$crate/specs/Lib.antt"
        echo "-- $crate" > "$here/crates/$crate/proofs/f/Proof.antt"
    done
    printf '1\n4: E1 output-differs left [0,255] right [0,255]\n1 alarms\n' > "$here/files/alarms.c"
    printf '0\nportable\n' > "$here/files/portable.c"
    printf '2\n7: refused 8 goto x\n' > "$here/files/refused.c"
    for code in 3 4 5 6 7 9 126; do echo "$code" > "$here/files/$code.c"; done
    : > "$work/calls"
    RT_VERSION='' RT_DURING='' RT_FAILS='' RT_LAST='' RT_STATUS='' ENDPORT_MEMINFO=''
    cd "$here/files" || exit 1
}

# ---- comparing

# Runs the script with these words.
call() {
    : > "$work/calls"
    # shellcheck disable=SC2086
    $as sh "$here/endport" "$@" > "$work/written" 2> "$work/said"
    status=$?
    written=$(cat "$work/written")
    said=$(cat "$work/said")
    calls=$(grep -v '^version' "$work/calls")
}

as=
as_nobody() {
    chmod -R a+rX "$work"
    touch "$work/sizes" "$work/count"
    chmod a+rw "$work/calls" "$work/sizes" "$work/count"
    [ "$(id -u)" != 0 ] || as="setpriv --reuid=65534 --regid=65534 --clear-groups"
    "$@"
    as=
}

report() {
    if [ "$1" = 0 ]; then
        passed=$((passed + 1))
    else
        failed=$((failed + 1))
        echo "FAILED: $name: $2"
        echo "    status $status, written: $written"
        echo "    said: $said"
        echo "    rt's words: $calls"
    fi
}

is() {
    [ "$2" = "$3" ]
    report $? "$1 is '$2', wanted '$3'"
}

says() {
    case $said in *"$1"*) report 0 ;; *) report 1 "says nothing of '$1'" ;; esac
}

answers() {
    is status "$status" "$1"
    is text "$written" "$2"
}

# The script with these words, interrupted while this command of `rt` runs.
stops_while() {
    anew
    RT_DURING='sleep 20'
    awaited=$1
    shift
    sh "$here/endport" "$@" > /dev/null 2>&1 &
    job=$!
    while ! grep -q "$awaited" "$work/calls"; do sleep 0.1; done
    kill "$job"
    wait "$job"
    is status $? 130
}

is_unproved() {
    case $calls in try*) report 0 ;; *) report 1 "answered without rt try" ;; esac
    says "isn't proved yet"
    says "./endport --prove"
}

is_proved() {
    is "words for rt" "$calls" ""
    is "standard error" "$said" ""
}

# ---- the first call

name='on a fresh checkout'
anew
call check alarms.c
answers 1 "4: E1 output-differs left [0,255] right [0,255]
1 alarms"
is_unproved
call check portable.c
answers 0 portable

name='any name of a file'
cp alarms.c '../a=b $x\n.c'
call check "$here/a=b \$x\\n.c"
is status "$status" 1
call check '../a=b $x\n.c'
is status "$status" 1
ln -s "$here/endport" "$work/link"
sh "$work/link" check alarms.c > /dev/null 2>&1
is status $? 1

name='a file that is not there'
call check nowhere.c
answers 4 ""
says "nowhere.c can't be opened or read"
# (a file of this name lies where rt runs)
call check src/lib.rt
is status "$status" 4
call check "$here"
is status "$status" 4

name='a file that is too long'
{ echo 7; head -c 3000000 /dev/zero; } > long.c
call check long.c
is status "$status" 7
is size "$(awk '{ print $1 }' "$work/sizes")" 1048577

name='many inputs'
# shellcheck disable=SC2046
call run --order little --steps 1 portable.c $(seq 65536)
answers 0 portable
is words "$(cat "$work/count")" 65542

name='statuses of the toolchain'
for it in 1 2 3 4 5 6; do
    RT_STATUS=$it RT_LAST='run=none proved=no'
    call check portable.c
    answers 70 ""
    says 'run=none'
done
RT_STATUS=1 RT_LAST='run=ended status=0 runners=1 proved=no'
call check portable.c
answers 70 ""

name='no proved program where one is wanted'
anew
call --proved check portable.c
answers 70 ""
says "./endport --prove"
is "words for rt" "$calls" ""

name='a run before the proofs is stopped'
stops_while try check portable.c

# ---- proving

name='proving'
anew
call --prove
answers 0 ""
says 'proved and built'
is 'last words for rt' "$(echo "$calls" | tail -n 1)" 'run -- check data/number.c'
call check alarms.c
answers 1 "4: E1 output-differs left [0,255] right [0,255]
1 alarms"
is_proved
call --proved --gcc check portable.c
answers 0 portable
is_proved
call --prove check portable.c
answers 0 portable
is_proved

name='proving, and then the answer'
anew
call --prove check alarms.c
is status "$status" 1

name='an edit of a source'
for it in crates.txt HANDLES crates/one/src/lib.rt crates/two/specs/Lib.antt crates/endport_cli/proofs/f/Proof.antt; do
    cp -p "$here/$it" "$work/was"
    echo '# more' >> "$here/$it"
    touch -r "$work/was" "$here/$it"
    call check portable.c
    is_unproved
    cat "$work/was" > "$here/$it"
    call check portable.c
    is_proved
    rm "$here/$it"
    [ "$it" = crates.txt ] || call check portable.c
    [ "$it" = crates.txt ] || is_unproved
    cat "$work/was" > "$here/$it"
done
echo '-- new' > "$here/crates/one/proofs/New.antt"
call check portable.c
is_unproved
rm "$here/crates/one/proofs/New.antt"
echo '// more' >> "$here/crates/tests/src/lib.rt"
call check portable.c
is_proved

name='another toolchain'
RT_VERSION=other
call check portable.c
is_unproved
RT_VERSION=

anew
call --prove
RT_VERSION=other
call check portable.c
is_unproved
RT_VERSION=

name='a damaged program'
call check portable.c
is_proved
echo '# more' >> "$here/out/endport"
call check portable.c
is_proved
is 'program' "$(cmp "$here/out/endport" "$work/program" 2>&1)" ""
echo '# more' >> "$here/out/endport"
echo '# more' >> "$here/crates/endport_cli/out/endport_cli"
touch -d '1 hour ago' "$here/crates/endport_cli/out/endport_cli"
call check portable.c
is_unproved

name='an edit while proving runs'
anew
RT_DURING='echo "// more" >> ../one/src/lib.rt'
call --prove
answers 70 ""
says 'edited while proving ran'
RT_DURING=
call --proved check portable.c
is status "$status" 70
call --prove
is status "$status" 0
name='an edit while proving runs, changed back'
anew
RT_DURING='echo "// more" >> ../one/src/lib.rt; echo "// one" > ../one/src/lib.rt'
call --prove
is status "$status" 70
call --proved check portable.c
is status "$status" 70

name='proving that fails'
anew
RT_FAILS='one: NOT PROVED'
call --prove
answers 70 ""
says 'one: NOT PROVED'
says 'out/build.log'

name='proving is stopped'
stops_while all --prove

name='memory'
anew
most=$(getconf _NPROCESSORS_ONLN)
for it in 1000000:1 3500000:1 7000000:2 900000000:$most; do
    rm -rf "$here/out"
    rm -f "$here/crates/endport_cli/out/endport_cli"
    ENDPORT_MEMINFO=$work/meminfo
    printf 'MemTotal: 90000000 kB\nMemAvailable:    %s kB\n' "${it%:*}" > "$ENDPORT_MEMINFO"
    call --prove
    wanted=${it#*:}
    [ "$wanted" -le "$most" ] || wanted=$most
    is jobs "$(sed -n 's/^all check --jobs //p' "$work/calls")" "$wanted"
done
rm -rf "$here/out" "$work/meminfo" "$here/crates/endport_cli/out/endport_cli"
call --prove
is 'jobs where memory is unknown' "$(sed -n 's/^all check --jobs //p' "$work/calls")" 1

# ---- what the gate built

gate() {
    (cd "$here" && rt ci)
}

name='what the gate built'
anew
gate
call --proved check alarms.c
is status "$status" 1
is_proved
is 'kept' "$(ls "$here/out")" "endport
endport.sum"
anew
gate
call --prove
is status "$status" 0
is "words for rt" "$calls" ""
name='what the gate built again'
echo '-- more' >> "$here/crates/one/proofs/f/Proof.antt"
call --proved check portable.c
is status "$status" 70
gate
call --proved check portable.c
is status "$status" 0

name='an edit since the gate, or while it ran'
for it in 'echo "// more" >> crates/one/src/lib.rt' 'rm crates/two/proofs/f/Proof.antt' 'rm -r crates/two/proofs' \
    'rm -r crates/two' 'echo "# more" >> crates.txt' 'echo "-- new" > crates/one/specs/New.antt' \
    'mv crates/one/src/lib.rt crates/one/src/lob.rt' \
    'echo "// more" >> crates/one/src/lib.rt; sleep 0.1; mkdir crates/one/must-fail' \
    'cp -p crates/one/src/lib.rt was; echo "// more" >> crates/one/src/lib.rt; touch -r was crates/one/src/lib.rt'; do
    anew
    gate
    (cd "$here" && sleep 0.1 && sh -c "$it")
    call --proved check portable.c
    is "status after $it" "$status" 70
    anew
    case $it in rm\ -r*) continue ;; esac
    RT_DURING=$it
    gate
    call --proved check portable.c
    is "status with $it" "$status" 70
done

name='without the lock of the gate'
anew
gate
rm "$here/.git/rt-ci.lock"
call --proved check portable.c
is status "$status" 0
anew
RT_DURING='echo "// more" >> crates/one/src/lib.rt'
gate
rm "$here/.git/rt-ci.lock"
call --proved check portable.c
is status "$status" 70

# ---- what can't be written, and what is missing

read_only() {
    chmod -R a-w "$here"
    chmod -R a+rX "$here"
    as_nobody call "$@"
    chmod -R u+w "$here"
}

name='a read-only checkout with what the gate built'
anew
gate
read_only --proved check alarms.c
is status "$status" 1
is_proved
is 'folder out' "$(ls -d "$here/out" 2> /dev/null)" ""

name='a read-only checkout with a proved program'
anew
call --prove
read_only --proved check alarms.c
is status "$status" 1
is_proved

name='a read-only checkout with nothing'
anew
read_only check alarms.c
is status "$status" 1
is_unproved
read_only --prove
answers 70 ""
says 'out/build.log'

name='a log that cannot be written'
anew
mkdir -p "$here/out/build.log"
call --prove
answers 70 ""
says 'out/build.log'
rm -r "$here/out"
: > "$here/out"
call --prove
answers 70 ""
says 'out/build.log'
call check alarms.c
is status "$status" 1

name='no rt'
anew
call --prove
mv "$work/bin/rt" "$work/rt"
PATH_WAS=$PATH
PATH=$(echo "$PATH" | tr : '\n' | while read -r it; do [ -x "$it/rt" ] || printf '%s:' "$it"; done)
call check portable.c
answers 0 portable
echo '// more' >> "$here/crates/one/src/lib.rt"
call check portable.c
answers 70 ""
says 'no command rt'
call --prove
answers 70 ""
says 'no command rt'
PATH=$PATH_WAS
mv "$work/rt" "$work/bin/rt"

name='a part of the checkout is missing'
for it in crates.txt crates/endport_cli launcher/words.awk launcher/proving.sh; do
    anew
    rm -r "${here:?}/$it"
    call check portable.c
    answers 70 ""
    says "$it is missing"
done

name='a program that cannot be run'
anew
call --prove
call check 126.c
answers 70 ""

# ---- what is said of a status

name='the file that is named'
anew
for proved in '' yes; do
    [ -z "$proved" ] || call --prove
    for it in 4 5 6 7; do
        call run --order little --steps 5 $it.c 7 8
        is status "$status" $it
        says "$it.c"
        call layout --model lp64 $it.c
        is status "$status" $it
        says "$it.c"
    done
    call check portable.c > /dev/full
done
if [ -w /dev/full ]; then
    for it in '' --gcc; do
        sh "$here/endport" $it check alarms.c > /dev/full 2> "$work/said"
        is "status $it" $? 5
        said=$(cat "$work/said")
        says 'standard output failed'
    done
    rm "$here/out/endport"
    rm -f "$here/crates/endport_cli/out/endport_cli"
    sh "$here/endport" check alarms.c > /dev/full 2> "$work/said"
    is 'status before the proofs' $? 5
fi

name='words that are refused'
anew
cp "$work/program" "$work/program.was"
printf '#!/bin/sh\necho usage:\nexit 3\n' > "$work/program"
call --prove
# What is said, and the words.
while IFS='|' read -r wanted words; do
    # shellcheck disable=SC2086
    call $words
    answers 3 usage:
    is 'standard error' "$said" "endport: $wanted"
done <<'END'
missing command|
unknown command chek|chek a.c
unknown option --help|--help
unknown option -v|-v a.c
missing FILE|check
unknown option --unrol|check --unrol 3 a.c
unknown option -x|check -x
unknown option --order|check --order big a.c
missing value of --orders|check --orders
repeated option --unroll|check --unroll 7 --model lp64 --unroll 7 a.c
value out of range: --unroll 4097 (0 to 4096)|check --model lp64 --unroll 4097 a.c
value out of range: --orders big,big (little,big little,swapped-words big,little big,swapped-words swapped-words,little swapped-words,big)|check --orders big,big a.c
value out of range: --model lp32 (ilp32 lp64)|check --orders big,little --model lp32 a.c
option behind FILE: --unroll|check a.c --unroll 7
value out of range: --domain intervals (bits)|check --unroll 7 --domain intervals a.c
repeated option --domain|check --domain bits --domain bits a.c
missing value of --domain|check --domain
word too many: b.c|check a.c b.c
--gcc stands before the command|check a.c --gcc
--proved stands before the command|check --proved a.c
missing FILE|run --order little --steps 5
missing option --order|run --steps 5 a.c
missing option --steps|run --order big a.c
missing value of --steps|run --order big --steps
repeated option --order|run --order big --steps 5 --order little a.c
value out of range: --order middle (little big swapped-words)|run --order middle --steps 5 a.c
value out of range: --steps 1000001 (0 to 1000000)|run --order big --steps 1000001 a.c
value out of range: --steps 5x (0 to 1000000)|run --order big --steps 5x a.c
value out of range: --steps 000000000000000000005 (0 to 1000000)|run --order big --steps 000000000000000000005 a.c
value out of range: --model lp32 (ilp32 lp64)|layout --model lp32 a.c
value out of range: INPUT 18446744073709551616 (0 to 18446744073709551615)|run --order big --steps 1 a.c 0 18446744073709551616
value out of range: INPUT x (0 to 18446744073709551615)|run --order big --steps 01000000 a.c 18446744073709551615 x
value out of range: INPUT -1 (0 to 18446744073709551615)|run --order big --steps 5 --model lp64 a.c -1
option behind FILE: --model|run --order big --steps 5 a.c --model lp64
unknown option --orders|run --orders little,big a.c
unknown option --steps|layout --steps 5 a.c
unknown option --unroll|layout --unroll 5 a.c
unknown option --order|layout --order big a.c
unknown option --domain|layout --domain bits a.c
word too many: 7|layout a.c 7
missing START|sample
missing FIELDS|sample 7
value out of range: START 2147483648 (0 to 2147483647)|sample 2147483648 1
value out of range: START x (0 to 2147483647)|sample x 1
value out of range: FIELDS 0 (1 to 5000)|sample 0 0
value out of range: FIELDS 5001 (1 to 5000)|sample 7 5001
unknown option --model|sample --model lp64 7 1
word too many: 8|sample 7 1 8
END
call check ''
is 'standard error' "$said" 'endport: FILE is empty'
call check "$(printf 'a\377.c')"
is 'standard error' "$said" 'endport: a word is no text in UTF-8'
# shellcheck disable=SC2046
call run --order big --steps 5 a.c $(seq 65537)
is 'standard error' "$said" 'endport: more than 65536 words behind FILE'
name='words that are no text, before the proofs'
rm "$here/out/endport" "$here/crates/endport_cli/out/endport_cli"
call check "$(printf 'a\377.c')"
answers 3 usage:
is words "$(cat "$work/count")" 0
mv "$work/program.was" "$work/program"

# ---- as compilers write

name='as compilers write'
anew
for proved in '' yes; do
    [ -z "$proved" ] || call --prove
    call --gcc check alarms.c
    answers 1 "alarms.c:4: warning: E1 output-differs left [0,255] right [0,255]
1 alarms"
    call --gcc check portable.c
    answers 0 portable
    for it in check 'run --order big --steps 5' 'layout --model lp64'; do
        # shellcheck disable=SC2086
        call --gcc $it refused.c
        answers 2 "refused.c:7: error: refused 8 goto x"
    done
    printf '1\n4: U1 overflow left [0,1] right [0,1]\n12: E1 output-differs left [0,1] right [0,1]\n2 alarms\n' > 'a\n b&.c'
    call --gcc --proved check 'a\n b&.c'
    [ -n "$proved" ] || call --gcc check 'a\n b&.c'
    answers 1 'a\n b&.c:4: warning: U1 overflow left [0,1] right [0,1]
a\n b&.c:12: warning: E1 output-differs left [0,1] right [0,1]
2 alarms'
    printf '9\nu8 13\nundefined 4 U2 division\n' > run.c
    call --gcc run --order big --steps 5 run.c
    answers 9 'u8 13
undefined 4 U2 division'
done

name='temporary folders'
is 'what is left' "$(ls "$TMPDIR")" ''

echo "$passed passed, $failed failed"
[ "$failed" = 0 ]
