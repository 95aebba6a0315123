#!/usr/bin/env bash
# Checks the scripts of this repository: shell scripts with shellcheck, Python scripts with ruff or pyflakes.
#
#   tests/scripts/run.sh
#
# Scripts that need rt are also run without it. Missing tools are reported and skipped. The last line is 'N passed, M failed'. On Debian:
#   apt-get install --no-install-recommends shellcheck python3-pyflakes
set -u
cd "$(dirname "$(realpath "$0")")/../.." || exit 1
passed=0
failed=0
# (an export of the sources, or another user's clone)
git ls-files >/dev/null 2>&1 || {
    echo 'left out: the scripts, since git tells no files here'
    echo '0 passed, 0 failed'
    exit 0
}
shell=()
python=()
while read -r file; do
    # (a script is recognized by its first line)
    IFS= read -r first <"$file" || continue
    case $first in
        '#!'*python*) python+=("$file") ;;
        '#!'*sh) shell+=("$file") ;;
        *) case $file in *.py) python+=("$file") ;; esac ;;
    esac
done < <(git ls-files | grep -v '\.\(svg\|bin\|dtb\)$')

# Runs a tool on files, and counts each.
over() {
    local tool=$1 file before=$failed
    shift
    for file in "$@"; do
        if $tool "$file"; then
            passed=$((passed + 1))
        else
            failed=$((failed + 1))
            echo "FAILED: $tool $file"
        fi
    done
    [ "$failed" != "$before" ] || echo "ok: $tool, of $# files"
}

if command -v shellcheck >/dev/null; then
    over 'shellcheck --severity=warning' "${shell[@]}"
else
    echo 'left out: shellcheck is not installed'
fi
if command -v ruff >/dev/null; then
    over 'ruff check --quiet' "${python[@]}"
elif /usr/bin/python3 -m pyflakes --version >/dev/null 2>&1; then
    over '/usr/bin/python3 -m pyflakes' "${python[@]}"
else
    echo 'left out: neither ruff nor pyflakes is installed'
fi

# Runs a script without rt on the PATH: one line reports that.
without_rt() {
    local said
    said=$(PATH=/usr/bin:/bin "$@" 2>&1)
    if [ $? = 70 ] && [ "$(wc -l <<<"$said")" = 1 ] && [[ $said == *"rt is not on the PATH"* ]]; then
        passed=$((passed + 1))
        echo "ok: $1 without rt"
    else
        failed=$((failed + 1))
        echo "FAILED: $1 without rt: $said"
    fi
}

if PATH=/usr/bin:/bin command -v rt >/dev/null; then
    echo 'left out: scripts without rt, which is in /usr/bin'
else
    for tool in library module_of module_unproved prove retarget static_program unproved unproved_program; do
        without_rt "tools/$tool" crates/pmpmon /dev/null
    done
fi
echo "$passed passed, $failed failed"
[ "$failed" = 0 ]
