# Sourced by host/check: what the desk and the crew hold in their hands. Answers, waves and the report of a replay; any netlist by
# its inputs; plans and scripts that host/gem's file wrote inside GEM.

# try_desk: the replay's files are held to each other and to what it printed.
try_desk() {
    local at=$OUT/desk
    rm -rf "$at"
    mkdir -p "$at"
    verb replay --filter enable --lookups 4000 --answers "$at/answers.csv" --vcd "$at/waves.vcd" --report "$at/report.html" >"$at/said"
    cat "$at/said"
    check_answers "$at/answers.csv" "$at/said"
    check_waves "$at/waves.vcd" "$at/answers.csv" "$at/said"
    check_report "$at/report.html" 1
    verb replay --lookups 800 --report "$at/both.html" >/dev/null
    check_report "$at/both.html" 2
    try_any "$at"
}

# said_of NAME FILE: the number behind a name that the replay printed.
said_of() {
    sed -n "s/^$1  *\([0-9]*\).*/\1/p" "$2"
}

# check_answers ANSWERS SAID: as many of each kind as were printed; a no was not asked of flash, and a maybe was.
check_answers() {
    local no found absent
    no=$(grep -c ',no,not asked$' "$1")
    found=$(grep -c ',maybe,found$' "$1")
    absent=$(grep -c ',maybe,not found$' "$1")
    [ "$(head -n 1 "$1")" = cycle,port,key,answer,flash ]
    [ "$(wc -l <"$1")" = $((no + found + absent + 1)) ]
    [ "$no $((found + absent)) $absent" = "$(said_of no "$2") $(said_of maybe "$2") $(said_of 'false maybe' "$2")" ]
    [ "$found" -gt 0 ] && [ "$absent" -gt 0 ]
    echo "answers: $no no, $found maybe and found, $absent maybe and not found"
}

# check_waves WAVES ANSWERS SAID: the file is in form (each change is of a wave that was declared, as wide as it was, times ascend);
# in each look-up's cycle the port looks, its key is the key and its maybe is the answer; the last time is that after all cycles.
check_waves() {
    awk -v cycles="$(said_of cycles "$3")" '
        function fail(what) { print "waves: line " FNR ": " what; failed = 1; exit 1 }
        function binary(hex, digits, i) {
            digits = ""
            for (i = 3; i <= length(hex); i++) digits = digits nibble[substr(hex, i, 1)]
            return digits
        }
        BEGIN {
            split("0000 0001 0010 0011 0100 0101 0110 0111 1000 1001 1010 1011 1100 1101 1110 1111", bits, " ")
            for (i = 0; i < 16; i++) nibble[substr("0123456789abcdef", i + 1, 1)] = bits[i + 1]
            time = -1
        }
        FNR == NR && FNR > 1 {
            split($0, row, ",")
            asked[10 * row[1]] = asked[10 * row[1]] " " row[2] "," row[3] "," row[4]
            all++
        }
        FNR == NR { next }
        /^\$var/ { if ($2 != "wire") fail("no wire"); width[$4] = $3; code[$5] = $4; next }
        /^\$enddefinitions/ { defined = 1; next }
        /^\$/ { if (defined) fail("a declaration among the changes"); next }
        /^#/ { look(); if (substr($0, 2) + 0 <= time) fail("time goes back"); time = substr($0, 2) + 0; next }
        /^b/ { change(substr($1, 2), $2); next }
        /^[01]/ { change(substr($0, 1, 1), substr($0, 2)); next }
        { fail("neither a change nor a time") }
        function change(digits, name) {
            if (!defined || time < 0 || !(name in width)) fail("a change of what is not declared")
            if (length(digits) != width[name] || digits !~ /^[01]+$/) fail("not as wide as declared")
            value[name] = digits
            changes++
        }
        function look(items, count, i, item, port) {
            if (time < 0 || !(time in asked)) return
            count = split(asked[time], items, " ")
            for (i = 1; i <= count; i++) {
                split(items[i], item, ",")
                port = item[1]
                if (substr(value[code["look"]], 8 - port, 1) != "1") fail("port " port " does not look at " time)
                if (value[code["key_" port]] != binary(item[2])) fail("key of port " port " at " time)
                if (substr(value[code["maybe"]], 8 - port, 1) != (item[3] == "maybe")) fail("answer of port " port " at " time)
                seen++
            }
        }
        END {
            if (failed) exit 1
            if (time != 10 * cycles) fail("the last time is " time)
            if (seen != all || all == 0) fail("only " seen " of " all " look-ups were seen")
            if (width[code["register"]] != 128) fail("there are not 128 registers")
            print "waves: " changes " changes in " cycles " cycles; " seen " look-ups are in them with key and answer"
        }' "$2" "$1"
}

# check_report REPORT FILTERS: two charts for each filter, every element is closed, and nothing is fetched.
check_report() {
    [ "$(grep -c '<svg ' "$1")" = $((2 * $2)) ]
    [ "$(grep -c '</svg>' "$1")" = $((2 * $2)) ]
    [ "$(grep -c '<h2>' "$1")" = "$2" ]
    [ "$(tail -n 1 "$1")" = '</html>' ]
    ! grep -qiE 'https?:|src=|href=|@import|url\(|NaN|inf' "$1" || { echo "report: $1 fetches something, or has no number"; return 1; }
    echo "report: $(wc -c <"$1") bytes, $((2 * $2)) charts"
}

# try_any DIR: M10's gate, then one of the filters by its inputs: 1 and 2 of its keys are in it once one is put in.
try_any() {
    local at=$1
    ${RUN[@]+"${RUN[@]}"} "$OUT/m10" "$at/m10.plan"
    printf 'in a: 2 0\nin b: 4 1\nout y: 6 32\n' >"$at/m10.ports"
    printf 'cycle\na = 1 # and not b\ncycle 2\nb = 1\ncycle\na = 0\ncycle\n' >"$at/m10.inputs"
    verb replay --plan "$at/m10.plan" --ports "$at/m10.ports" --inputs "$at/m10.inputs" --answers "$at/m10.csv" --vcd "$at/m10.vcd"
    printf 'cycle,y\n0,0\n1,1\n2,1\n3,0\n4,0\n' | cmp - "$at/m10.csv"
    sed 's/^out y: 6/out y: 7/' "$at/m10.ports" >"$at/not.ports"
    is_told replay --plan "$at/m10.plan" --ports "$at/not.ports" --inputs "$at/m10.inputs"
    [ "$reference" = gem ] || return 0
    printf 'clock = 1\ninsert = 1\nkey 0 = 0x52e6b438\ncycle\ninsert = 0\nlook = 255\nkey 5 = 0x52e6b438\ncycle 70\nclear = 1\ncycle 2\n' \
        >"$at/filter.inputs"
    verb replay --plan "$OUT/filters/enable.plan" --ports "$STORED/enable.ports" --inputs "$at/filter.inputs" --answers "$at/filter.csv"
    { echo cycle,maybe; echo 0,00000000; seq -f '%.0f,00100001' 1 71; echo 72,00000000; } | cmp - "$at/filter.csv"
}

# try_crew: host/gem's file, put into GEM as it says, wrote a plan and a script of each design: forty are equal, three are refused by
# 12 though GEM builds them. A script that is bent is told with all its differences.
try_crew() {
    local at=$OUT/crew status=0
    rm -rf "$at"
    ${RUN[@]+"${RUN[@]}"} "$OUT/make_pairs" "$at"
    local pairs=() plan
    for plan in "$at"/*.plan; do
        pairs+=("$plan" "${plan%.plan}.script")
    done
    verb compare "${pairs[@]}" >"$at/said" || status=$?
    cat "$at/said"
    [ $status = 3 ]
    grep -q '^43 plans: 40 scripts equal in every word, start and size; 3 refused (3 by 12); 0 different' "$at/said"
    [ "$(grep -c 'refused 12; GEM builds it$' "$at/said")" = 3 ]
    # The first word of the first part, and the last one, are changed.
    with "$at/00.script" $(($(script_words "$at/00.script"))) 77 >"$at/bent"
    with "$at/bent" $(($(wc -c <"$at/bent") - 4)) 88 >"$at/bent.script"
    status=0
    verb compare "$at/00.plan" "$at/bent.script" >"$at/said" || status=$?
    cat "$at/said"
    [ $status = 1 ]
    grep -q 'DIFFERS: .*sizes that differ: 0, starts: 0, words: 2; the first: word 0 is .* (major stage 0, block 0' "$at/said"
    rm -f "$at"/*.plan "$at"/*.script "$at/bent"
}

# script_words SCRIPT: the byte where its words begin: 56 of its head, and 8 a start.
script_words() {
    local starts
    starts=$(od -An -tu8 -j24 -N8 "$1")
    echo $((56 + 8 * starts))
}
