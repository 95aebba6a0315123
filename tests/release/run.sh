#!/usr/bin/env bash
# Makes the release twice, compares the bytes, and uses its contents with nothing else installed.
#
#   tests/release/run.sh
#
# The last line printed is 'N passed, M failed'.
set -u
here=$(dirname "$(realpath "$0")")/../..
work=$(mktemp -d)
trap 'rm -rf "$work"' EXIT
passed=0
failed=0

# A release names its commit. In an export of the sources, or in another user's clone, git does not reveal it.
git -C "$here" rev-parse HEAD >"$work/commit" 2>&1 || {
    echo "left out: a release, since git tells no commit here: $(head -n 1 "$work/commit")"
    echo '0 passed, 0 failed'
    exit 0
}

# Counts a check: its name, and the command that must exit with 0.
try() {
    local what=$1
    shift
    if "$@" >"$work/said" 2>&1; then
        passed=$((passed + 1))
        echo "ok: $what"
    else
        failed=$((failed + 1))
        echo "FAILED: $what"
        cat "$work/said"
    fi
}

unpacked() {
    tar -C "$work" -xzf "$work"/one/pmpmon-*.tar.gz && mv "$work"/pmpmon-* "$work/there"
}

# Makes the first plan of the README with only the program and the examples of the tar file.
plans() {
    [ "$("$work/there/bin/pmpmon" plan "$work/there/share/doc/pmpmon/examples/first-run.map" | head -n 1)" = 'entries 1' ]
}

names_its_commit() {
    grep -q "^commit $(git -C "$here" rev-parse HEAD)" "$work/one/BUILD" && grep -q '^kit rattle-kit' "$work/one/BUILD" &&
        cmp "$work/one/BUILD" "$work/there/share/doc/pmpmon/BUILD"
}

# ldd says so of a program that needs no loader.
is_static() {
    ldd "$work"/one/pmpmon-*-static 2>&1 | grep -q 'not a dynamic executable'
}

# Prints the answers of a program without an environment, and the sum of the certificate that it writes.
answers() {
    local map=$work/there/share/doc/pmpmon/examples/example-host.map
    env -i "$1" plan "$map" "$work/certificate" && env -i "$1" check "$map" "$work/certificate" && cksum <"$work/certificate" &&
        env -i "$1" --version
}

answers_alike() {
    answers "$work"/one/pmpmon-*-static >"$work/static-answers" && answers "$work/there/bin/pmpmon" | diff - "$work/static-answers"
}

# Each link of its documents, except those to the web and within a document, leads to a file of the tar file.
links_lead() {
    local file target wrong=0
    while IFS= read -r file; do
        while IFS= read -r target; do
            [ -e "$(dirname "$file")/$target" ] || {
                echo "$file: $target"
                wrong=1
            }
        done < <(grep -o ']([^)#]*' "$file" | cut -c 3- | grep -v '^$\|^http')
    done < <(find "$work/there/share/doc/pmpmon" -name '*.md')
    [ "$wrong" = 0 ]
}

within() {
    "$here/release" "$here/tried-release" 2>&1 | grep -q 'within the clone' && [ ! -e "$here/tried-release" ]
}

try 'a folder within the clone is refused' within
try 'a release' "$here/release" "$work/one"
try 'a second one' "$here/release" "$work/two"
try 'its name has the version alone' sh -c "ls '$work/one' | grep -qx 'pmpmon-[0-9.]*.tar.gz'"
try 'both are the same bytes' diff -r "$work/one" "$work/two"
try 'the sums are right' sh -c "cd '$work/one' && sha256sum -c SHA256SUMS"
try 'the tar file can be unpacked' unpacked
try 'its program plans its example' plans
try 'BUILD names commit and kit' names_its_commit
if [ -f "$(gcc -print-file-name=libc.a)" ]; then
    try 'the static program needs no loader' is_static
    try 'the static program answers as the other one' answers_alike
else
    echo 'left out: the static program (no static C library for gcc here)'
fi
try 'the links of its documents lead somewhere' links_lead
if command -v dpkg-deb >/dev/null; then
    try 'the package has the program' sh -c "dpkg-deb -c '$work'/one/pmpmon_*.deb | grep -q ' ./usr/bin/pmpmon$'"
else
    echo 'left out: the Debian package (no dpkg-deb here)'
fi
echo "$passed passed, $failed failed"
[ "$failed" = 0 ]
