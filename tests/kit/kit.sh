# Sourced: where the kit's tools are, by its command rt.
command -v rt >/dev/null || { echo "$0: the kit's command rt is not in PATH"; exit 1; }
kit=$(dirname "$(dirname "$(readlink -f "$(command -v rt)")")")
tools=$kit/toolchain
[ -x "$tools/bin/clang" ] || { echo "$0: the kit has no C compiler at $tools/bin/clang"; exit 1; }
