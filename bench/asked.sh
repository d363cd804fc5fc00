# Sourced by the benches that are shell scripts, with their words.
#
# --help puts the comment at the head of the bench. --program FILE names the program that is timed, as `program`; without
# it `program` is empty, and `built` makes it the built one of this checkout, which is built first where that is needed,
# since no build is to be timed. What else is asked for stays in `words`.
program=
words=()
while [ $# -gt 0 ]; do
    case $1 in
    --help)
        sed -n '2,/^[^#]/s/^# \{0,1\}//p' "$0"
        exit 0
        ;;
    --program)
        [ -x "${2:-}" ] || { echo "$0: --program wants the file of a program" >&2; exit 2; }
        program=$(realpath -- "$2")
        shift
        ;;
    -*)
        echo "$0: there is no $1; --help says what there is" >&2
        exit 2
        ;;
    *) words+=("$1") ;;
    esac
    shift
done

built() {
    if [ -z "$program" ]; then
        local top
        top=$(cd "$(dirname "$0")/../.." && pwd)
        "$top/cutroom" --version
        program=$top/crates/cutroom/out/cutroom
    fi
}
