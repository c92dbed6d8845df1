# Sourced by the commands: what they need on a fresh machine.
if ! command -v rt >/dev/null; then
    echo "rt is not on the PATH: install the Rattle kit named in README.md" >&2
    exit 1
fi
if ! command -v cargo >/dev/null; then
    apt-get update -qq
    # Debian 12 has a Rust that is new enough under this name alone.
    apt-get install -y -qq cargo-web || apt-get install -y -qq cargo
fi
export CARGO_TARGET_DIR="$PWD/target/peer"

# The place of a proved program, which is built where it is not there yet. It is built by running it on nothing.
program() {
    if ! [ -x "crates/$1/out/$1" ]; then
        (cd "crates/$1" && rt run) < /dev/null > /dev/null
    fi
    echo "$PWD/crates/$1/out/$1"
}
