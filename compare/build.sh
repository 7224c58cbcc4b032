# What the scripts of this folder share; they read it from the repository's root.

source=${ARAEL_SRC:-../shared/docs/src}/arael-sym/src
out=$PWD/target/compare
mkdir -p "$out"

# ends well where the source isn't at hand
need_source() {
    if [ ! -f "$source/cse.rs" ] || [ ! -f "$source/fmt.rs" ]; then
        echo "compare: skipped, no cse.rs and fmt.rs in $source (ARAEL_SRC names the folder above arael-sym)"
        exit 0
    fi
    source=$(realpath "$source")
}

# FOLDER...: all Rust files stand in one folder, since `mod` looks for them beside main.rs: this folder's, the source's unchanged, and those of the
# folders named, in place of others of the same name. They are copies, since the gate refuses links.
gather() {
    build=$out/build
    rm -rf "$build"
    mkdir -p "$build"
    cp compare/*.rs "$build"
    [ ! -f "$source/cse.rs" ] || cp "$source/cse.rs" "$source/fmt.rs" "$build"
    for folder; do
        cp "compare/$folder"/*.rs "$build"
    done
}

# PROGRAM [OPTION...]: the program, with further options for rustc
compile() {
    local program=$1
    shift
    rustc -O --edition 2024 "$@" -o "$out/$program" "$build/main.rs"
}

# PROGRAM: the program, linked with the functions that capi exports
link() {
    bindings/build
    compile "$1" -L target/bindings -l static=paddlecrook
}

# The source in the build's folder with three lines more, one of them in place of a comment, which test what a scope is
# given, holds and states (extracts/held.rs); they do nothing in the flat form.
count_held() {
    local fuse='    open.fuse(\&results, \&intermediates, rounds, \&groups);'
    rm "$build/cse.rs"
    sed -e 's|^    let mut results = exprs\.to_vec();$|&\n    let open = crate::held::open(scoped, *counter, exprs);|' \
        -e 's|^    // Post-pass: extract common divisors as reciprocals\.$|    let rounds = lets.len();|' \
        -e "s|^    for (switch, n_arms, has_default, members) in groups {\$|$fuse\n&|" \
        "$source/cse.rs" >"$build/cse.rs"
    if [ "$(grep -cE '^    (let open = |let rounds = |open\.fuse)' "$build/cse.rs")" -ne 3 ]; then
        echo 'compare: cse.rs has no place for the tests of 23'
        exit 1
    fi
}

# Stored cases are two files of a folder: stdin, which a program is run on, and stdout, which it has to write.

# FOLDER COMMAND...: the command makes the two files anew, in the folder that it is given as its last word
renew() {
    local folder=$1
    shift
    rm -rf "${out:?}/anew/$folder"
    mkdir -p "$out/anew/$folder"
    "$@" "$out/anew/$folder"
}

# FOLDER: what was made anew becomes what is stored
store() {
    mkdir -p "$1"
    cp "$out/anew/$1/stdin" "$out/anew/$1/stdout" "$1"
}

# FOLDER WORDS: fails with the words unless what was made anew is what is stored
hold() {
    local file
    for file in stdin stdout; do
        cmp "$out/anew/$1/$file" "$1/$file" || { echo "$1/$file $2" >&2; exit 1; }
    done
}
