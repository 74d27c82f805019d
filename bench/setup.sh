# Read by the scripts beside it. Goes to the repository's root and sets `library`: the folder of the libbdre.a to link, which is the one that
# BDRE_LIBRARY names, else where bench/library writes the proved library, which is then done first.
if [ -n "${BDRE_LIBRARY:-}" ]; then
    library=$(cd "$BDRE_LIBRARY" && pwd)
    cd "$(dirname "${BASH_SOURCE[0]}")/.."
else
    cd "$(dirname "${BASH_SOURCE[0]}")/.."
    bench/library bdre >&2
    library=$PWD/target/bench
fi

# build PROFILE PROGRAM...: into target/bench/PROFILE
build() {
    local profile=$1
    shift
    (cd bench && BDRE_LIBRARY=$library cargo build --quiet --profile "$profile" --offline --locked --target-dir ../target/bench "${@/#/--bin=}")
}
