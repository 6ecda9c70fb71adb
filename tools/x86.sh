# Sourced: `"$cc"` builds x86-64 programs and `"${runner[@]}"` runs them, natively or, on Arm, emulated; both need the
# commands "${compiler[@]}". The library's archive is for x86-64 only.
. "$(dirname "${BASH_SOURCE[0]}")/need.sh"

case $(uname -m) in
x86_64)
    machine="x86-64, native"
    cc=gcc
    compiler=("$cc")
    runner=()
    ;;
aarch64)
    machine="aarch64: built for x86-64 and emulated"
    cc=x86_64-linux-gnu-gcc
    compiler=("$cc" qemu-x86_64)
    runner=(qemu-x86_64 -L /usr/x86_64-linux-gnu)
    ;;
*)
    echo "x86-64 programs cannot be run on $(uname -m)" >&2
    exit 1
    ;;
esac
