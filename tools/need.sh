# Sourced: `need COMMAND..` sees that these commands are there. If some are missing, it prints the one command that
# installs them, and fails. Only ./check and ./draw, which set FELDRIME_INSTALL, have it run by root at once.
packages_of() {  # packages_of COMMAND: of Debian
    case $1 in
    gcc) echo gcc libc6-dev ;;
    x86_64-linux-gnu-gcc) echo gcc-x86-64-linux-gnu libc6-dev-amd64-cross ;;
    x86_64-linux-gnu-g++) echo g++-x86-64-linux-gnu ;;
    objdump | nm) echo binutils ;;
    x86_64-linux-gnu-*) echo binutils-x86-64-linux-gnu ;;
    qemu-x86_64) echo qemu-user ;;
    pnmtopng) echo netpbm ;;
    *) echo "$1" ;;
    esac
}

need() {
    local name missing=() packages=()
    for name in "$@"; do
        if ! command -v "$name" > /dev/null; then
            missing+=("$name")
            packages+=($(packages_of "$name"))
        fi
    done
    if [ ${#missing[@]} -eq 0 ]; then
        return
    fi
    local install=(apt-get install --no-install-recommends "${packages[@]}")
    if [ -z "${FELDRIME_INSTALL:-}" ] || [ "$(id -u)" -ne 0 ]; then
        echo "missing: ${missing[*]}. To install, as root: ${install[*]}" >&2
        return 1
    fi
    echo "missing: ${missing[*]}. Installing: ${packages[*]}" >&2
    apt-get update -q >&2
    "${install[@]}" -y -q >&2
}
