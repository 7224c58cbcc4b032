# Builds and runs the comparison of one form, `flat` or `scoped`, which the script that reads this names in $form; $@ is what that script was asked for.
set -euo pipefail
cd "$(dirname "$0")/.."
. compare/build.sh

need_source
gather sheets extracts
cp bindings/paddlecrook.rs "$build"
bindings/build

# NAME: the driver, with the source as it is in the build's folder
driver() {
    compile "$1" -L target/bindings
}

# Times are measured without the tests of 23.
compared() {
    count_held
    driver extracts
    "$out/extracts" "$form" "$@"
}

measured() {
    driver measures
    "$out/measures" "$form" --bench
}

case ${1:-} in
--bench) measured ;;
--*) compared "$1" ;;
*)
    measured
    compared "${1:-300000}" "${2:-5000}"
    ;;
esac
