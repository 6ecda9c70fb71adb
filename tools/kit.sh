# Sourced: "$kit" is the folder of Rattle's kit, "$kit_clang" its compiler's back end.
if ! command -v rt > /dev/null; then
    echo "Rattle's command rt is missing" >&2
    exit 1
fi
kit=$(cd "$(dirname "$(readlink -f "$(command -v rt)")")/.." && pwd -P)
kit_clang=$kit/toolchain/bin/clang
