# Sourced by the tests of the examples, after c.sh: `work` is a folder of the test's own, and `example` the program under test.
# says EXIT ARGUMENTS: runs the example in that folder; standard input is what it must write to standard output and standard error, with no path to
# the folder in it, and EXIT is how it must end. `seen` counts.
work=$(mktemp -d)
trap 'rm -rf "$work"' EXIT
root=$PWD seen=0
says() {
    wanted=$1
    shift
    cat >"$work/.wanted"
    status=0
    (cd "$work" && "$root/tests/kit/run" "$root/$programs/$example" "$@") >"$work/.seen" 2>&1 || status=$?
    sed "s|$work/||g" "$work/.seen" >"$work/.short"
    [ "$status" -eq "$wanted" ] || { echo "$0: exit $status, not $wanted, for: $example $*"; cat "$work/.seen"; exit 1; }
    diff "$work/.wanted" "$work/.short" || { echo "$0: that is the difference for: $example $*"; exit 1; }
    seen=$((seen + 1))
}

# lost ARGUMENTS: the same where nothing can be written to standard output; it must say so and exit with 2.
lost() {
    [ -c /dev/full ] || { echo "$0: left out, for there is no /dev/full: lost output of $example"; return; }
    status=0
    (cd "$work" && "$root/tests/kit/run" "$root/$programs/$example" "$@") >/dev/full 2>"$work/.seen" || status=$?
    [ "$status" -eq 2 ] && grep -q ': output was lost: No space left on device$' "$work/.seen" ||
        { echo "$0: exit $status, or nothing said, where output is lost, for: $example $*"; cat "$work/.seen"; exit 1; }
    seen=$((seen + 1))
}

# record KIND COUNT BYTE: a record in the escapes of printf, with BYTE as its byte 8.
record() { printf '\\%03o\\000\\%03o\\000\\000\\000\\000\\000\\%03o\\000\\000\\000\\000\\000\\000\\000' "$1" "$2" "$3"; }
