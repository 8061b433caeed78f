# What has to be there for which script; scripts read this file and call `want NAME..`. Where something isn't there it says what it is, and ends the script.
# The kit's folder is /opt/rattle, or the one that KIT names.
want() {
    missing=0
    for needed in "$@"; do
        is_there "$needed" && continue
        missing=1
        echo "$(basename "$0"): $needed isn't there: it is $(what_is "$needed")" >&2
    done
    [ $missing -eq 0 ] || exit 1
}

# Says what isn't there, and goes on.
lacking() {
    for needed in "$@"; do
        is_there "$needed" || echo "$(basename "$0"): $needed isn't there, so what needs it is left out: it is $(what_is "$needed")" >&2
    done
}

is_there() {
    if [ "$1" = kit ]; then [ -x "${KIT:-/opt/rattle}/bin/rt" ]; else command -v "$1" >/dev/null 2>&1; fi
}

what_is() {
    case $1 in
        kit) echo "Rattle's compiler and prover, looked for in ${KIT:-/opt/rattle}: name its folder by KIT (README.md says which kit this is proved with)" ;;
        rt) echo "the kit's command: put the folder bin of the kit into PATH" ;;
        python3) echo "Python, 3.9 or later (Debian: python3)" ;;
        cc) echo "a compiler for C (Debian: gcc)" ;;
        ar | nm | objcopy) echo "a tool for archives (Debian: binutils)" ;;
        pkg-config) echo "what tells a compiler where a library is (Debian: pkg-config)" ;;
        git) echo "what keeps the repository's history (Debian: git)" ;;
        chromium) echo "a browser (Debian: chromium)" ;;
        cargo) echo "Rust, 1.65 or later (Debian: cargo)" ;;
        *) echo "a command that is run here" ;;
    esac
}
