# Sourced by host/check: the report is opened by a browser and the waves by GTKWave, as a user does, and looked at.

# look: needs a display for GTKWave, which Xvfb lends.
look() {
    local at=$OUT/look
    rm -rf "$at"
    mkdir -p "$at"
    command -v chromium >/dev/null || install_packages chromium
    command -v gtkwave >/dev/null || install_packages gtkwave
    command -v xvfb-run >/dev/null || install_packages xvfb xauth
    command -v python3 >/dev/null || install_packages python3
    verb replay --filter enable --lookups 4000 --vcd "$at/waves.vcd" --report "$at/report.html" >"$at/said"
    look_at_report "$at"
    look_at_waves "$at"
}

# look_at_report FOLDER: the page as the browser has it says what the replay printed, and its picture shows both curves.
look_at_report() {
    local browser=(chromium --headless --no-sandbox --disable-gpu --hide-scrollbars --window-size=1000,1500)
    timeout 120 "${browser[@]}" --dump-dom "file://$1/report.html" >"$1/page" 2>"$1/browser.log"
    grep -q "<td[^>]*>$(said_of 'false maybe' "$1/said")</td>" "$1/page"
    timeout 120 "${browser[@]}" --screenshot="$1/report.png" "file://$1/report.html" >>"$1/browser.log" 2>&1
    # What is seen: the blue line (seen), the red one (expected), each a hundred dots at least.
    "$HOST/colours" "$1/report.png" 0b66c3 d1495b | while read -r colour dots; do
        echo "report: $dots dots of colour $colour"
        [ "$dots" -ge 100 ]
    done
}

# look_at_waves FOLDER: GTKWave reads the file and lists the waves that it declares.
look_at_waves() {
    local declared shown
    cat >"$1/list.tcl" <<'TCL'
set count [ gtkwave::getNumFacs ]
for {set i 0} {$i < $count} {incr i} { puts "wave [ gtkwave::getFacName $i ]" }
flush stdout
exit
TCL
    timeout 120 xvfb-run -a gtkwave "$1/waves.vcd" -S "$1/list.tcl" >"$1/shown" 2>"$1/gtkwave.log" || true
    declared=$(grep -c '^\$var' "$1/waves.vcd")
    shown=$(grep -c '^wave ' "$1/shown")
    echo "waves: $declared declared, $shown in GTKWave"
    [ "$declared" -gt 0 ] && [ "$declared" = "$shown" ]
}
