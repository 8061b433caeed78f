# How ./check runs its parts: which is begun, how each ended, and what all came to. It uses the folder work.
passed=0 failed=0 status=0 tried="" left_out="" is_listed=

# count NAME STATUS PASSED FAILED: takes note of what was tried, how it ended and what it counts for; of the first status that isn't 0 besides.
count() {
    tried="$tried, $1"
    passed=$((passed + $3)) failed=$((failed + $4))
    [ $status -ne 0 ] || status=$2
    [ "$2" -eq 0 ] && echo "passed: $1, $(($(date +%s) - began)) s" || echo "FAILED: $1, status $2, $(($(date +%s) - began)) s"
}

# begin NAME: says that a part begins; false if parts are only listed.
begin() {
    if [ -n "$is_listed" ]; then
        echo "    $1"
        return 1
    fi
    echo "begun: $1"
    began=$(date +%s) found=0
}

# part NAME COMMAND..: tries a part. Of what it wrote it shows the end if it failed, and which of its own parts it left out.
part() {
    begin "$1" || return 0
    name=$1
    shift
    "$@" >"$work/log" 2>&1 || found=$?
    count "$name" $found $((found == 0)) $((found != 0))
    [ $found -eq 0 ] || tail -n 40 "$work/log" | sed 's/^/    | /'
    left_out="$left_out$(sed -n "s|^== no |, of $name: no |p" "$work/log" | tr -d '\n')"
}

# needs THINGS NAME COMMAND..: tries a part if all of these are there, each a file or a command of the shell.
needs() {
    for thing in $1; do
        if [ -z "$is_listed" ] && [ ! -e "$thing" ] && ! command -v "$thing" >"$work/found"; then
            left_out="$left_out, $2 (no $(basename "$thing"))"
            echo "left out: $2, since there is no $(basename "$thing")"
            return
        fi
    done
    shift
    part "$@"
}

end_parts() {
    echo "tried: ${tried#, }"
    echo "left out: ${left_out#, }"
    echo "$passed passed, $failed failed"
}

# Compares the documents with the repository: whatever it says is a difference.
documents() {
    sh docs/check.sh >"$work/differs" 2>&1 || { cat "$work/differs" && return 1; }
}

# The files of the repository as a clone has them, with nothing built.
clean_copy() {
    mkdir "$work/clone" && git ls-files -z | tar -c --null -T - | tar -x -C "$work/clone"
}
