#!/usr/bin/env bash
# Makes the AIGER files of stored/ anew: make.sh DIR. Needs yosys and berkeley-abc (host/check --tools installs both).
# DIR/NAME.aig are files that are read; DIR/refused/NAME.aig have start values, which are refusal 18.
set -euo pipefail
designs=$(dirname "$(realpath "$0")")/designs.v
out=$1
mkdir -p "$out/refused"
work=$(mktemp -d)
trap 'rm -rf "$work"' EXIT

# synthesised TOP WORDS..: gates and plain registers of a module, then these commands.
synthesised() {
    local top=$1
    shift
    yosys -q -p "read_verilog $designs; synth -flatten -top $top; dffunmap; aigmap; opt_clean; $*"
}

# Written by yosys. -zinit: registers start with 0, those that would start with 1 standing inverted.
for top in adder8 multiplier8 divider12 rotator32 wires counter16 bloom; do
    synthesised $top "write_aiger -zinit -symbols $out/$top.aig"
done

# Written by abc, some of it made smaller there before. zero: registers start with 0.
by_abc() {
    local top=$1 name=$2 commands=$3
    synthesised "$top" "write_blif $work/$top.blif"
    berkeley-abc -q "read_blif $work/$top.blif; strash; $commands" >"$work/log"
    [ -s "$out/$name.aig" ] || {
        cat "$work/log" >&2
        return 1
    }
}
for top in adder64 multiplier24 ones64 sorter4; do
    by_abc $top $top "dc2; dc2; write_aiger -s $out/$top.aig"
done
by_abc crc32 crc32 "zero; write_aiger -s $out/crc32.aig"
by_abc counter16 counter16_abc "zero; dc2; write_aiger -s $out/counter16_abc.aig"

# Start values: two literals on a register's line; seven numbers in the header.
synthesised starts "write_aiger $out/refused/starts.aig"
by_abc starts refused/starts_abc "write_aiger $out/refused/starts_abc.aig"

# What wrote them.
{
    yosys -V
    berkeley-abc -q version | tail -1
} >"$out/versions.txt"
