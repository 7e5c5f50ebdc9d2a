# What the scripts share. Each runs from the repository's root, and says what it does and how long it took.
set -euo pipefail
cd "$(dirname "${BASH_SOURCE[0]}")/.."

timed() {
    local what=$1 start=$SECONDS
    shift
    if ! "$@"; then
        echo "FAILED: $what"
        exit 1
    fi
    echo "ok: $what ($((SECONDS - start)) s)"
}

# Gets a command from Debian's packages where the machine lacks it, and says so. Where it cannot be got, says which
# package is missing, and stops.
need() { # COMMAND PACKAGE
    command -v "$1" > /dev/null && return
    echo "the command $1 is missing: getting it from Debian's package $2"
    get "$2" && command -v "$1" > /dev/null && return
    echo "FAILED: the package $2, which has the command $1, is missing and could not be got: install it" >&2
    exit 1
}

get() { # PACKAGE
    command -v apt-get > /dev/null || { echo 'there is no apt-get' >&2; return 1; }
    [[ $EUID == 0 ]] || { echo 'only root may install packages' >&2; return 1; }
    apt-get update -qq > /dev/null && DEBIAN_FRONTEND=noninteractive apt-get install -y -qq "$1" > /dev/null
}
