# SPDX-License-Identifier: BSD-3-Clause
# What ./evsched and the gate share: how the program and the library are proved and built, where what was built stands, and of what
# sources it is. To be read by bash (`. c/build.sh`), with `top` the top of this checkout.
work_of_a_build="an hour or two of processor time"
# What was compiled unproved, and of what sources; in a checkout that can't be written it is kept with the user's other caches.
kept=$top/out
mkdir -p "$kept" 2>/dev/null && [ -w "$kept" ] || kept=${XDG_CACHE_HOME:-${HOME:-/tmp}/.cache}/evsched
tried=$kept/unproved/evsched

say() { echo "evsched: $*" >&2; }

fail() {
    say "$*"
    exit 1
}

find_kit() {
    command -v rt >/dev/null || fail "the command rt isn't in the path, so these sources can be neither built nor run"
    kit=$(dirname "$(dirname "$(readlink -f "$(command -v rt)")")")
}

# Prints the lines of crates.txt for a crate and all that it stands on, which stands above it there; the crate comes first.
needed() {
    sed 's/#.*//; /^ *$/d' "$top/crates.txt" | tac | awk -F: -v crate="$1" 'BEGIN { needed[crate] }
        { split($1, name, " ") } name[1] in needed { print; split($2, uses, " "); for (i in uses) needed[uses[i]] }'
}

# Prints a sum of a crate's sources, of those that it stands on, and of the kit, where rt is in the path.
sum_of() {
    local lines name
    lines=$(needed "$1")
    cd "$top" && {
        echo "$lines" | cat - HANDLES
        for name in $(sed 's/[ :].*//' <<<"$lines"); do
            find "crates/$name" -path "crates/$name/out" -prune -o -type f \( -name '*.rt' -o -name '*.antt' \) -print
        done | LC_ALL=C sort | xargs -d '\n' sha256sum
    } | sha256sum | cut -c 1-64
    ! command -v rt >/dev/null || cat "$(dirname "$(dirname "$(readlink -f "$(command -v rt)")")")/KIT-ID"
}

# Prints what tells whether a file is still the one that was built.
mark_of() { stat -L -c '%i %s %.9Y' "$1"; }

made_of() { [ "$1" = evsched ] && echo "$top/crates/evsched/out/evsched" || echo "$top/crates/event_c/out/libevent_c.a"; }

# Notes of what sources a crate's file was proved and built; is_proved says whether they are still those.
note_proved() { { mark_of "$(made_of "$1")" && echo "$2"; } >"$(made_of "$1").proved"; }

is_proved() {
    local file
    file=$(made_of "$1")
    # (without rt no line tells the kit, and the one of the build counts)
    [ -f "$file" ] && [ -f "$file.proved" ] && [[ $(cat "$file.proved") == "$(mark_of "$file" && sum_of "$1")"* ]]
}

# Stops what is under way, and removes its folder.
stop() {
    [ -z "$job" ] || kill -- "-$job" 2>/dev/null
    rm -rf "$room"
}

# Makes a folder, on the same disk where that can be, and runs a command in a process group of its own, with its output in a file there.
begin() {
    job='' room=$(mktemp -d "$top/.git/evsched.XXXXXX" 2>/dev/null || mktemp -d) || fail "no folder can be made"
    trap stop EXIT
    trap 'exit 129' HUP
    trap 'exit 130' INT
    trap 'exit 143' TERM
    set -m
    "$@" </dev/null >"$room/log" 2>&1 &
    set +m
    job=$!
}

fail_of() {
    tail -n 20 "$room/log" >&2
    cp "$room/log" "$kept/log" 2>/dev/null
    fail "$1: these were the last lines of $kept/log"
}

# Proves a crate and those below it by rt ci, side by side, in a tree that has only these and no must-fail edits, and builds it. rt ci takes
# what any of its runs on this machine proved, and keeps for the gate what it proves here.
prove_apart() {
    local crate=$1 name part
    mkdir "$room/.git" && needed "$crate" | tac >"$room/crates.txt" && cp "$top/HANDLES" "$room/" || return 1
    for name in $(sed 's/[ :].*//' "$room/crates.txt"); do
        mkdir -p "$room/crates/$name" || return 1
        for part in src specs proofs c stdin stdout args status data; do
            [ ! -e "$top/crates/$name/$part" ] || cp -r "$top/crates/$name/$part" "$room/crates/$name/" || return 1
        done
    done
    cd "$room" && PYTHONUNBUFFERED=1 rt ci && { [ "$crate" != event_c ] || "$top/c/over_proved" "$room"; }
}

# Has a crate proved and built where it isn't, and puts it where the gate has it.
prove() {
    local crate=$1 sum made count
    ! is_proved "$crate" || return 0
    find_kit
    sum=$(sum_of "$crate") count=$(needed "$crate" | wc -l) made=$(made_of "$crate")
    say "proving $count crates, in at most $work_of_a_build; what was proved on this machine is taken"
    begin prove_apart "$crate"
    tail -f -n +1 -s 1 --pid="$job" "$room/log" 2>/dev/null | awk -v of="$count" '$1 == "rt:" && / (proved|is kept: .*)$/ && !/: its tests/ {
        print "evsched: " ++n " of " of ": " $2 ($3 == "is" ? " was proved before" : " is proved") "; " of - n " left"; fflush() }' >&2 &
    wait "$job" || fail_of "it can't be built"
    wait
    job=''
    mkdir -p "$(dirname "$made")" && mv -f "$room/${made#"$top/"}" "$made" && note_proved "$crate" "$sum" || fail "$made can't be written"
    stop
    is_proved "$crate" || fail "something has changed during the build: run this again"
}

# Compiles the sources unproved. rt try keeps no program, so it is run of a kit made of links, whose linker leaves one in the folder.
try_apart() {
    local at=$room/kit
    mkdir -p "$at/bin" "$at/toolchain/bin"
    ln -s "$kit"/* "$at/" 2>/dev/null
    ln -s "$kit"/bin/* "$at/bin/" && ln -s "$kit/toolchain/lib" "$at/toolchain/" && ln -s "$kit"/toolchain/bin/* "$at/toolchain/bin/" || return 1
    # shellcheck disable=SC2016
    rm "$at/bin/rt" "$at/bin/rtlib.py" "$at/toolchain/bin/ld.lld" && cp "$kit/bin/rt" "$kit/bin/rtlib.py" "$at/bin/" \
        && printf '#!/bin/bash\n%q "$@" || exit\nuntil [ "$1" = -o ]; do shift; done\ncp "$2" %q\n' "$kit/toolchain/bin/ld.lld" \
            "$room/program" >"$at/toolchain/bin/ld.lld" && chmod +x "$at/toolchain/bin/ld.lld" || return 1
    cd "$top/crates/evsched" && "$at/bin/rt" try -- --version && [ -x "$room/program" ]
}

# Has the sources compiled unproved where they aren't.
compile_unproved() {
    local sum
    sum=$(sum_of evsched)
    [ ! -x "$tried" ] || [ "$(cat "$tried.sum")" != "$sum" ] || return 0
    find_kit
    say "compiling the sources unproved, which takes a minute or two and serves until they change; ./evsched build makes the proved program"
    begin try_apart
    wait "$job" || fail_of "the sources can't be compiled"
    job=''
    mkdir -p "$(dirname "$tried")" && mv -f "$room/program" "$tried" && echo "$sum" >"$tried.sum" || fail "$tried can't be written"
    stop
}
