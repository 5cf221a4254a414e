# Sourced by host/check: the calls of host/README.md's table "Bad files and misuse", each held to what the table says.

# word NUMBER: a little-endian u32.
word() {
    printf '%b' "$(printf '\\x%02x\\x%02x\\x%02x\\x%02x' $(($1 & 255)) $(($1 >> 8 & 255)) $(($1 >> 16 & 255)) $(($1 >> 24 & 255)))"
}

# with FILE AT NUMBER: the file with one word changed, at this byte.
with() {
    head -c "$2" "$1"
    word "$3"
    tail -c +$(($2 + 5)) "$1"
}

# bad_files: makes them in the folder at hand; m10.plan and small.plan are there.
bad_files() {
    verb build m10.plan m10.script >built
    : >empty
    mkdir folder
    printf '\377\376' >noise
    { word 1; word 0; } >m10.state
    head -c 7 m10.state >odd.state
    head -c 4 m10.state >short.state
    bad_plans
    bad_scripts
    echo '0 zero' >word.turns
    echo '0 1' >far.turns
    printf '\1\5\0\0\0\1\1' >cut.records
    printf '\3\5\0\0\0\0' >kind.records
    printf '\1\5\0\0\0\0' >good.records
    printf 'aig 5 2 0 2 3\n10\n6\n\2\2\3\2\1\2' >adder.aig
    head -c 24 adder.aig >cut.aig
    printf 'aag 1 1 0 0 0\n2\n' >text.aig
    printf 'aig 5 2 0 2 3\n10\n6\n\2\2\3\2\200\0' >long.aig
    { word 3; word 4; word 2; word 5; word 6; word 4; } >gap.gates
    head -c 8 gap.gates >cut.gates
    head -c 9 gap.gates >odd.gates
    bad_sets
    echo 'insert 1 2 3 4' >form.traffic
    echo 'lookup 5 4000000000' >many.traffic
    echo 'in clock 2 0' >form.ports
    echo 'in clock: 2 0' >few.ports
    echo 'in a: 2 4000000000' >far.ports
    echo 'in a: 2 1' >other.ports
    echo 'in a: 20 0' >absent.ports
    printf 'in a: 2 0\nin b: 4 1\nout y: 6 32\n' >good.ports
    printf 'in a: 2 0\nin b: 4 1\nout y: 7 32\n' >not.ports
    printf 'a = 1\ncycle\n' >good.inputs
    echo 'c = 1' >name.inputs
    echo 'a = 2' >wide.inputs
    echo 'wait' >form.inputs
    echo 'cycle 4000000000' >many.inputs
}

# Read sets, as join takes them.
bad_sets() {
    { word 0; word 3; word 7; word 128; } >good.set
    head -c 9 good.set >odd.set
    head -c 12 good.set >half.set
    { word 3; word 1; word 3; word 2; } >twice.set
    { word 134217728; word 1; } >far.set
    { word 5; word 0; } >mask.set
    # 8193 words of one bit, 8192 of them, and one that is none of these.
    counted 8193 >long.set
    head -c 65536 long.set >full.set
    { word 9000; word 1; } >more.set
}

# counted COUNT: a read set of so many words, from 0 on, each with its first bit.
counted() {
    local zeros='\\0000\\0000'
    printf '%b' "$(seq 0 $(($1 - 1)) | awk -v zeros="$zeros" '{ printf "\\0%03o\\0%03o" zeros "\\0001\\0000" zeros, $1 % 256, $1 / 256 }')"
}

bad_plans() {
    head -c -2 m10.plan >odd.plan
    head -c 100 m10.plan >cut.plan
    head -c 20 m10.plan >head.plan
    { cat m10.plan; word 0; } >long.plan
    with m10.plan 0 0 >blocks.plan
    with m10.plan 4 65 >stages.plan
    with m10.plan 8 4000000000 >gates.plan
    with m10.plan 20 257 >edition.plan
    with m10.plan 20 128 >turned.plan
    with m10.plan 24 1 >second.plan
    with m10.plan 36 0 >parts.plan
    with m10.plan 40 1073741825 >pin.plan
    with m10.plan 68 1 >design.plan
}

bad_scripts() {
    head -c 20 m10.script >head.script
    head -c 1000 m10.script >cut.script
    with m10.script 8 127 >edition.script
    with m10.script 16 0 >blocks.script
    with m10.script 16 2 >majors.script
    with m10.script 44 1 >state.script
    with m10.script 72 0 >bent.script
    # Plans and scripts in a file: a name cut, a name of one letter and then nothing, and bytes behind none.
    { word 1; word 0; word 5; word 0; echo abc; } >name.made
    { word 1; word 0; word 1; word 0; printf 'a'; word 2; word 0; } >mark.made
    { word 0; word 0; echo; } >behind.made
}

# misuse: each row `| `WORDS` | what | `SENTENCE` | STATUS |` of the table: the words are given to juolgesot, which must say this
# sentence, and end with this status. Nothing is written under any name.
misuse() {
    local at=$OUT/manners rows=0 reader
    rm -rf "$at"
    mkdir -p "$at"
    ${RUN[@]+"${RUN[@]}"} "$OUT/m10" "$at/m10.plan"
    ${RUN[@]+"${RUN[@]}"} "$OUT/m10" small "$at/small.plan"
    cd "$at"
    bad_files
    # $CLOSED is a pipe that nobody reads any more.
    exec {CLOSED}> >(:)
    reader=$!
    wait "$reader" || true
    find . | sort >../manners.before
    local front words what sentence status
    while IFS='|' read -r front words what sentence status front; do
        words=${words# \`} words=${words%\` } sentence=${sentence# \`} sentence=${sentence%\` }
        [ "$sentence" != ' (nothing) ' ] || sentence=
        one_misuse "$words" "$sentence" "$((status))" || return 1
        rows=$((rows + 1))
    done < <(sed -n '/^## Bad files and misuse/,/^## /s/^\(| `.*\)$/\1/p' "$HOST/README.md")
    find . | sort | cmp - ../manners.before
    [ "$rows" -ge 100 ]
    echo "misuse: $rows calls, each with its sentence and its exit status"
}

# one_misuse WORDS SENTENCE STATUS
one_misuse() {
    local status=0 said lines
    eval "verb $1" >../manners.out 2>../manners.err || status=$?
    # Lines that tell how far it is begin with a blank.
    lines=$(grep -v '^ ' ../manners.err || true)
    said=$(head -n 1 <<<"$lines" | sed 's/^juolgesot\( [a-z]*\)\?: //')
    if [ "$status" != "$3" ] || [ "$said" != "$2" ] || { [ "$status" != 2 ] && [ "$(wc -l <<<"$lines")" != 1 ]; }; then
        echo "misuse: juolgesot $1"
        echo "  the table: status $3, $2"
        echo "  found:     status $status, $lines"
        return 1
    fi
}
