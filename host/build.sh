# Sourced by host/check and ./run. Builds by cargo, offline: the workspace in host/ names no crate of a registry.
# Everything it makes goes to $OUT (target/host, target/run), but the archive, which goes to target/staticlib.

# at_once WORDS..: begins a command beside others, as many as there are processors. all_done waits for the last of them.
# A command that fails ends the script.
at_once() {
    while [ "$(jobs -rp | wc -l)" -ge "$(nproc)" ]; do
        wait -n
    done
    "$@" &
}

all_done() {
    while [ -n "$(jobs -p)" ]; do
        wait -n
    done
}

# cargo_host WORDS..: cargo in host/, for the machine that install.sh chose.
cargo_host() {
    cargo_in "$HOST" "$OUT/cargo" "$@"
}

# cargo_in FOLDER TO WORDS..: cargo in a folder; what it makes goes to another. The linker and the emulator are said by the names
# that cargo looks for.
cargo_in() {
    (
        cd "$1"
        export RUSTC CARGO_TARGET_DIR=$2
        # Of the same version as rustc: what is on the path may be another one's.
        [ ! -x "${RUSTC%/*}/rustdoc" ] || export RUSTDOC=${RUSTC%/*}/rustdoc
        shift 2
        export CARGO_TARGET_X86_64_UNKNOWN_LINUX_GNU_LINKER=$CC
        [ ${#RUN[@]} = 0 ] || export CARGO_TARGET_X86_64_UNKNOWN_LINUX_GNU_RUNNER="${RUN[*]}"
        "$CARGO" "$@" --offline --quiet ${CARGO_FLAGS[@]+"${CARGO_FLAGS[@]}"}
    )
}

# cargo_build MAKER REFERENCE PACKAGE..: these packages over the archive (MAKER archive) or over the model; compared with gem or
# with model. Their programs are then in $OUT.
cargo_build() {
    local maker=$1 reference=$2 features=() words=(-p juolgesot) package program
    shift 2
    [ "$maker" != model ] || features+=(juolgesot/model)
    for package in "$@"; do
        words+=(-p "$package")
        case $reference-$package in
            gem-compare | gem-juolgesot-program) features+=("$package/gem") ;;
        esac
    done
    [ ${#features[@]} = 0 ] || words+=(--features "${features[*]}")
    cargo_host build --release "${words[@]}"
    for program in "$OUT/cargo/${CARGO_FLAGS[1]:+${CARGO_FLAGS[1]}/}release"/*; do
        if [ -f "$program" ] && [ -x "$program" ] && [[ $program != *.so ]]; then
            ln -f "$program" "$OUT/"
        fi
    done
}

# Proves the crates that the archive is made of, where that is not done, and makes it. A copy of it, which outlasts the next
# `rt ci`, goes to target/staticlib. After the gate (GATE=yes) the libraries that it proved are there, and the archive is made over
# them. Says each crate that is proved here, and which of how many it is; $OUT/archive.log has all that was printed.
build_archive() {
    local log=$OUT/archive.log
    if [ "${GATE:-no}" != yes ] || ! over_gate >"$log" 2>&1; then
        if ! (cd crates/capi && rt lib) 2>&1 | tee "$log" | numbered; then
            cat "$log" >&2
            return 1
        fi
    fi
    mkdir -p "$ARCHIVE"
    cp crates/capi/out/libcapi.a "$ARCHIVE/"
}

# needs_little: the archive needs memcpy and memset from outside and nothing else, as juolgesot.h says.
needs_little() {
    local needed
    needed=$("$("$CC" -print-prog-name=nm)" -u "$ARCHIVE/libcapi.a" | awk 'NF == 2 { print $2 }' | sort -u | xargs)
    echo "the archive needs from outside: $needed"
    [ "$needed" = 'memcpy memset' ]
}

# over_gate: capi is proved once more, over the libraries that `rt ci` left, and built. Fails where others lie there (those have a
# stamp, and `rt lib` takes them). `rt lib` would prove the libraries again.
over_gate() {
    local kit name words=()
    kit=$(dirname "$(rt doc)")
    for name in $(crates_below capi); do
        [ "$name" != capi ] || continue
        [ -e "crates/$name/out/rlib/$name.rlib/format" ] && [ ! -e "crates/$name/out/rlib/stamp" ] || return 1
        words+=(-L "dependency=../$name/out/rlib")
    done
    for name in $(sed -n 's/^capi staticlib: //p' crates.txt); do
        words+=(--extern "$name=../$name/out/rlib/$name.rlib")
    done
    (
        cd crates/capi
        mkdir -p out
        rm -f out/libcapi.a
        "$kit/bin/rattle" build --crate-name capi src/lib.rt --crate-type staticlib --extern "std=$kit/rlibs/std.rlib" \
            -L "dependency=$kit/rlibs" "${words[@]}" --antt-project "$kit/rattle/logic/antt-project.json" \
            --logic-built "$kit/logic_built" --toolchain "$kit/toolchain" --backend llvm -o out/libcapi.a
    )
}

# numbered: of what `rt lib` prints, each crate that it proved, as `crate n of N`: it takes them in the order of crates_below.
numbered() {
    awk -v names="$(crates_below capi | tr '\n' ' ')" '
        BEGIN { all = split(names, list, " "); for (i = 1; i <= all; i++) at[list[i]] = i }
        /^crate [a-z0-9_]+: / { name = substr($2, 1, length($2) - 1) }
        /^logic=proved / && name in at { printf "  crate %d of %d: %s\n", at[name], all, name; fflush() }'
}

# crates_below NAME: the crates that it stands on, each after those that it stands on, and itself.
crates_below() {
    awk -v name="$1" '
        function visit(name, list, i, count) {
            if (name in seen || !(name in needs)) return
            seen[name]
            count = split(needs[name], list, " ")
            for (i = 1; i <= count; i++) visit(list[i])
            print name
        }
        { sub(/#.*/, "") }
        /:/ { needs[$1 ~ /:$/ ? substr($1, 1, length($1) - 1) : $1] = substr($0, index($0, ":") + 1) }
        END { visit(name) }' crates.txt
}

# build_juolgesot MAKER REFERENCE: the program juolgesot.
build_juolgesot() {
    cargo_build "$1" "$2" juolgesot-program
}

# build_programs MAKER REFERENCE: all of them. Those that are made of GEM's sources only where they are there.
build_programs() {
    local packages=(compare juolgesot-program)
    [ "$2" != gem ] || packages+=(from_gem cycles)
    cargo_build "$1" "$2" "${packages[@]}"
}

# test_crate MAKER: the tests of the crate juolgesot, and its examples.
test_crate() {
    local features=() example
    [ "$1" != model ] || features=(--features juolgesot/model)
    cargo_host test --release -p juolgesot ${features[@]+"${features[@]}"}
    for example in "$HOST"/juolgesot/examples/*.rs; do
        example=$(basename "$example" .rs)
        ${RUN[@]+"${RUN[@]}"} "$OUT/cargo/${CARGO_FLAGS[1]:+${CARGO_FLAGS[1]}/}release/examples/$example"
        echo "example $example: as it says"
    done
}

# try_outside: a C program and a cargo project that know nothing but the folder that host/install-lib fills.
try_outside() {
    local at installed
    command -v pkg-config >/dev/null || install_packages pkg-config
    at=$(mktemp -d)
    JUOLGESOT_ARCHIVE=$ARCHIVE/libcapi.a JUOLGESOT_PROGRAM=$OUT/juolgesot "$HOST/install-lib" "$at/made"
    # It may be moved.
    installed=$at/installed
    mv "$at/made" "$installed"
    cp "$HOST/c/outside.c" "$at/"
    # shellcheck disable=SC2046
    "$CC" -std=c99 -Wall -Wextra -Werror -o "$at/outside" "$at/outside.c" \
        $(PKG_CONFIG_PATH=$installed/lib/pkgconfig pkg-config --cflags --libs juolgesot)
    ${RUN[@]+"${RUN[@]}"} "$at/outside"
    mkdir -p "$at/project/src"
    printf '[package]\nname = "outside"\nversion = "0.1.0"\nedition = "2021"\n' >"$at/project/Cargo.toml"
    cp "$HOST/juolgesot/examples/machine.rs" "$at/project/src/main.rs"
    (cd "$at/project" && RUSTC=$RUSTC "$CARGO" add --offline --quiet --path "$installed/rust/juolgesot")
    cargo_in "$at/project" "$at/cargo" run
    ${RUN[@]+"${RUN[@]}"} "$installed/bin/juolgesot" --help >/dev/null
    # Without the archive it is said in a sentence what to do.
    says_why "$at" "JUOLGESOT_ARCHIVE names $at/none.a, which is no file" "$at/none.a"
    rm "$installed/lib/libjuolgesot.a"
    says_why "$at" "the archive is not there: \`rt lib\` in the repository's crates/capi makes"
    rm -rf "$at"
    echo "a C program and a cargo project outside of the repository: linked and run"
}

# says_why FOLDER SENTENCE [ARCHIVE]: the project in the folder is not built, and this is said.
says_why() {
    if (
        [ $# = 2 ] || export JUOLGESOT_ARCHIVE=$3
        cargo_in "$1/project" "$1/cargo" build >"$1/said" 2>&1
    ); then
        echo "built without an archive" >&2
        return 1
    fi
    grep -qF "juolgesot: $2" "$1/said" || { cat "$1/said" >&2; return 1; }
}

# build_c MAKER: the C program over the header, linked with the archive or with the model behind the same functions.
build_c() {
    local library=$ARCHIVE/libcapi.a
    if [ "$1" = model ]; then
        cargo_host build --release -p juolgesot-model-c
        library=$OUT/cargo/${CARGO_FLAGS[1]:+${CARGO_FLAGS[1]}/}release/libmodel_c.a
    fi
    "$CC" -std=c99 -O1 -Wall -Wextra -Werror -o "$OUT/guarded" "$HOST/c/guarded.c" "$library" -lpthread -ldl -lm
}
