# Sourced by host/check, for --tools.

# Makes the AIGER files anew: what the same versions of the tools write is what is stored. Then abc judges what we read and
# write of each.
judge_aiger() {
    local made=$OUT/aiger path
    command -v yosys >/dev/null && command -v berkeley-abc >/dev/null || install_packages yosys berkeley-abc
    rm -rf "$made"
    "$HOST/aiger/make.sh" "$made"
    if cmp -s "$made/versions.txt" "$STORED_AIGER/versions.txt"; then
        for path in "$STORED_AIGER"/*.aig "$STORED_AIGER"/refused/*.aig; do
            cmp <(undated "$path") <(undated "$made/${path#"$STORED_AIGER/"}")
        done
        echo "what yosys and abc make is what is stored"
    else
        echo "the stored files were made by other versions: $(paste -sd, "$STORED_AIGER/versions.txt")"
    fi
    run compare_aiger "$made"
    for path in "$made"/*.aig; do
        judge_file "$path"
    done
}

# abc writes the time into a comment.
undated() {
    LC_ALL=C grep -av '^This file was written by ABC on ' "$1"
}

# The gate list that is read, and what it is written as, are the file's gates; abc sees the difference of one inversion.
judge_file() {
    local file=$1 at=$OUT/judged
    mkdir -p "$at"
    verb aiger read "$file" "$at/gates"
    verb aiger write "$at/gates" "$at/ours.aig"
    if [ ! -s "$at/gates" ]; then
        printf 'aig 0 0 0 0 0\n' | cmp - "$at/ours.aig"
        return
    fi
    ${RUN[@]+"${RUN[@]}"} "$OUT/aiger_outputs" "$file" "$at/ours.aig" "$at/gates" "$at"
    are_equal "$at/file.aig" "$at/written.aig"
    are_equal "$at/file.aig" "$at/list.blif"
    ! are_equal "$at/file.aig" "$at/wrong.blif" || return 1
}

# are_equal A B: abc finds both to be the same, inputs and outputs taken in their order.
are_equal() {
    berkeley-abc -q "cec -n $1 $2" >"$OUT/judged/log" 2>&1 || true
    if grep -q '^Networks are equivalent' "$OUT/judged/log"; then
        echo "abc: $(basename "$1") and $(basename "$2") are equivalent"
    elif grep -q '^Verification failed' "$OUT/judged/log"; then
        echo "abc: $(basename "$1") and $(basename "$2") differ"
        return 1
    else
        cat "$OUT/judged/log" >&2
        exit 1
    fi
}
