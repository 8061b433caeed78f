# What the benches share: the programs that are found, their runs, and what came out. Sourced from the top of the repository, with `program` set if
# a built gcplay is given. It wants g++, and says of each peer that isn't there that it was left out.

folder=${TMPDIR:-/tmp}/bench.$$
mkdir "$folder"
trap 'rm -rf "$folder"' EXIT

# gcplay, proved and built if none was given.
find_program() {
    [ -n "$program" ] || (cd crates/gcplay && rt run >/dev/null 2>&1)
    program=${program:-crates/gcplay/out/gcplay}
    printf 'gcplay;%s\n' "$program" >"$folder/programs"
}

# A peer in C++: its name, its file, and the library that it wants.
build_peer() {
    # shellcheck disable=SC2086
    if g++ -std=c++20 -O2 -pthread -o "$folder/$1" "$2" ${3:-} 2>/dev/null; then
        printf '%s;%s\n' "$1" "$folder/$1" >>"$folder/programs"
    else
        echo "$1 left out: $2 can't be built here"
    fi
}

# Boehm's collector in its default mode, and the same program incremental.
build_boehm() {
    build_peer boehm bench/peers/boehm.cpp -lgc
    [ -x "$folder/boehm" ] || return 0
    printf '#!/bin/sh\nGC_ENABLE_INCREMENTAL=1 exec %s "$@"\n' "$folder/boehm" >"$folder/incremental"
    chmod +x "$folder/incremental"
    printf 'incremental;%s\n' "$folder/incremental" >>"$folder/programs"
}

build_go() {
    if command -v go >/dev/null 2>&1 && go build -o "$folder/go" bench/peers/play.go 2>/dev/null; then
        printf 'go;%s\n' "$folder/go" >>"$folder/programs"
    else
        echo 'go left out: bench/peers/play.go is built where there is Go'
    fi
}

# A program of its own name that starts Java with what was compiled. It measures its last play by itself, and is told first where to write that.
build_java() {
    if command -v javac >/dev/null 2>&1 && javac -d "$folder" bench/peers/Plain.java 2>/dev/null; then
        printf '#!/bin/sh\nexec java -cp %s Plain "$@"\n' "$folder" >"$folder/java"
        chmod +x "$folder/java"
        printf 'java;%s\n' "$folder/java" >>"$folder/programs"
    else
        echo 'java left out: bench/peers/Plain.java is compiled where there is a JDK'
    fi
}

build_floor() {
    g++ -std=c++20 -O2 -o "$folder/measure" bench/measure.cpp
    build_peer floor bench/floor/play.cpp
}

build_peers() {
    build_floor
    build_peer plain bench/peers/plain.cpp
    build_boehm
    build_go
    build_java
}

# One run: a program's name and its file, a script, and the words of the command. What it took is added to the file of that program, script and words;
# its text has to be that of all others that played the script.
once() {
    name=$1 file=$2 script=$3
    shift 3
    told=$folder/$name.$script.$(echo "$*" | tr -d ' ')
    case $name in
        java) "$file" "$told" run "$@" <"$folder/$script" >"$folder/text" ;;
        *) "$folder/measure" "$told" "$file" run "$@" <"$folder/$script" >"$folder/text" ;;
    esac
    [ -f "$folder/$script.text" ] || cp "$folder/text" "$folder/$script.text"
    cmp "$folder/text" "$folder/$script.text"
}

# All programs, or those that are named, in turns, so many times: `in_turns RUNS NAMES SCRIPT WORDS...`.
in_turns() {
    left=$1 names=$2
    shift 2
    while [ "$left" -gt 0 ]; do
        while IFS=';' read -r each path; do
            case " $names " in *" $each "*) once "$each" "$path" "$@" ;; esac
        done <"$folder/programs"
        left=$((left - 1))
    done
}

# The middle one of a column of what a program took: microseconds by the clock (1) or of all processors (2), or kilobytes (3).
median() {
    column=$1 name=$2 script=$3
    shift 3
    sort -n -k "$column" "$folder/$name.$script.$(echo "$*" | tr -d ' ')" | awk -v column="$column" '{ found[NR] = $column } END { print found[int((NR + 1) / 2)] }'
}
