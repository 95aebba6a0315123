#!/usr/bin/env bash
# Tests the program's files: standard input as `-`, absent files, full devices, certificates and their places; and the texts of help,
# the version and command-line errors.
#
#   tests/files/run.sh PROGRAM [--write]
#
# Each command that takes `-` must behave as with the file's name. A trace from a pipe is answered line by line while the pipe is open.
# An input that is absent or unreadable is 'cannot read' and status 3 for each command: nothing is printed, and no certificate is made.
# Output that a full device refuses is 'cannot write' and status 3. A certificate that is the map's file, through a link, or the file at
# standard input or output, is an error of the command line, and that file is unchanged. If a certificate's name is a link, the file is
# written where the link leads; the new file beside it is made in that folder, under the first free name, and has the old file's
# permissions. A pipe receives the certificate and stays a pipe.
# With `--hints always` the hints of `lint` for the first invalid file follow the error; by default they do so only if standard error is
# a terminal. Standard input has no hints. If a file cannot be opened or made, the hint states the reason. Names in messages have no
# control characters. A signal that ends the program leaves all answers so far in the file at standard output.
# Help, the version and command-line errors are those of tests/files/texts, which `--write` rewrites.
# The last line is 'N passed, M failed'; any failure makes the status 1.
set -u

here=$(cd "$(dirname "$0")" && pwd)
program=$(realpath "$1")
work=$(mktemp -d)
trap 'rm -rf "$work"' EXIT
cd "$work" || exit 1

passed=0
failed=0

note() {
    if [ "$1" = 0 ]; then
        passed=$((passed + 1))
        echo "ok: $2"
    else
        failed=$((failed + 1))
        echo "FAILED: $2: $(head -c 200 got.err)"
    fi
}

printf '0x80000000 0x8000000 rwx\n0x80000000 0x200000 none\n' >map
printf '0x80000000 0x800 rwx\n' >wrong
printf 'load s 8 0x80200000\nload s 8 0\n' >trace
printf '[monitor]\nbase = 0x80000000\nsize = 0x200000\n[[ram]]\nbase = 0x80000000\nsize = 0x8000000\n' >platform
"$program" plan map cert >registers 2>got.err || note 1 'plan'

# Runs the command with `-` for its word FILE and the file at standard input, and compares with the command with the
# file's name.
same() {
    local file=$1 status
    shift
    "$program" "${@/FILE/$file}" >want.out 2>want.err
    status=$?
    "$program" "${@/FILE/-}" <"$file" >got.out 2>got.err
    [ $? = "$status" ] && cmp -s got.out want.out && cmp -s got.err <(sed "s/^pmpmon: $file:/pmpmon: -:/" want.err)
    note $? "$* < $file"
}

for file in map wrong; do
    same $file plan FILE
    same $file plan FILE got.cert
    same $file show FILE
    same $file judge FILE trace
    same $file check FILE cert
    same $file audit FILE registers
done
for file in trace wrong; do
    same $file judge map FILE
    same $file run platform FILE
done
for file in cert wrong; do
    same $file check map FILE
done
for file in platform wrong; do
    same $file run FILE trace
    same $file lint --trace trace --platform FILE
done
for file in registers wrong; do
    same $file audit map FILE
    same $file show --registers FILE
    same $file judge --registers FILE trace
    same $file map FILE
done

# Keeps a pipe open: each whole line is answered before the program waits for the next one, even after a part of that
# one.
at_once() {
    local answers lines
    rm -f asked answered
    mkfifo asked answered
    timeout 60 "$program" "$@" <asked >answered 2>got.err &
    exec {lines}>asked {answers}<answered
    printf '# none\nload s 8 0x80200000\n' >&$lines
    read -r -t 30 -u $answers first
    printf 'load s 8 0\nload s 8 0x80' >&$lines
    read -r -t 30 -u $answers second
    printf '200008\n' >&$lines
    exec {lines}>&-
    read -r -t 30 -u $answers third
    exec {answers}<&-
    wait $!
    # shellcheck disable=SC2154 # (each call sets `want`)
    [ $? = 0 ] && [ "$first/$second/$third" = "$want" ] && [ ! -s got.err ]
    note $? "$* < a pipe that stays open"
}
want='1 ok/2 fault 5/3 ok' at_once judge map -
want='1 ok 0x0000000000000000/2 fault 5/3 ok 0x0000000000000000' at_once run platform -

# Checks the status, that nothing was printed, and the text on standard error.
ended() {
    local status=$1
    [ "$status" = "$2" ] && [ ! -s got.out ] && [ "$(cat got.err)" = "$3" ]
}

# Runs the command with an unreadable name for its word FILE.
no_file() {
    "$program" "${@/FILE/$name}" >got.out 2>got.err
    ended $? 3 "pmpmon: $name: cannot read" && ! compgen -G 'none.cert*' >/dev/null
    note $? "$* : $kind"
}

# Runs the command with --hints as given: status 2, and on standard error the line LINE and the hints of the lint LINT.
hints() {
    local line=$1 lint=$2
    shift 2
    "$program" $lint 2>/dev/null | sed 's/^/hint: /' >want.hints
    "$program" "$@" >got.out 2>got.err
    [ $? = 2 ] && [ -s want.hints ] && [ "$(cat got.err)" = "$(echo "$line"; cat want.hints)" ]
    note $? "$*"
}

# Runs the command, which must print no hints.
no_hints() {
    local line=$1
    shift
    "$program" "$@" >got.out 2>got.err
    [ $? = 2 ] && [ "$(cat got.err)" = "$line" ]
    note $? "$* : no hints"
}

printf '[monitor]\nbase = 0\n' >wrong.toml
unknown=': line 1 is not understood'
for words in 'plan wrong' 'show wrong' 'judge wrong trace' 'check wrong cert' 'audit wrong registers'; do
    hints "pmpmon: wrong$unknown" 'lint wrong' $words --hints always
    no_hints "pmpmon: wrong$unknown" $words --hints never
    no_hints "pmpmon: wrong$unknown" $words
done
hints "pmpmon: wrong$unknown" 'lint --registers wrong' audit map wrong --hints always
hints "pmpmon: wrong$unknown" 'lint --registers wrong' map wrong --hints always
hints "pmpmon: wrong$unknown" 'lint --trace wrong' judge map wrong --hints always
hints "pmpmon: wrong$unknown" 'lint --trace wrong --platform platform' run platform wrong --hints always
hints 'pmpmon: wrong.toml: not a platform' 'lint wrong.toml' run wrong.toml trace --hints always
no_hints "pmpmon: -$unknown" plan - --hints always <wrong
# Runs the command with these words, and checks the status and the lines on standard error.
told() {
    local status=$1 lines=$2
    shift 2
    timeout 20 "$program" "$@" </dev/null >got.out 2>got.err
    [ $? = "$status" ] && [ "$(cat got.err)" = "$lines" ]
    note $? "$* : $lines"
}
few='needs 2 entries, at most 1'
told 2 "pmpmon: needs 2 entries
hint: map: $few" plan map --at-most 1 --hints always
told 2 "pmpmon: needs 2 entries
hint: map: $few" show map --at-most 1 --hints always
told 2 "pmpmon: needs 2 entries
hint: map: $few" plan map --first 15 --format asm --hints always
told 0 'hint: map: needs 2 entries, 1 are there: no configuration words' plan map --first 15 --hints always
told 0 'hint: map: needs 2 entries, 1 are there: no configuration words' plan map --first 15 --format json --hints always
told 0 '' plan map --first 15 --hints never
told 0 '' plan map --first 15
told 0 '' plan map --first 14 --hints always
mkfifo fifo.map
cat map >fifo.map &
told 0 '' plan fifo.map --first 15 --hints always
wait
rm fifo.map
if [ -n "$(command -v script)" ]; then
    script -qec "'$program' plan wrong" /dev/null </dev/null | tr -d '\r' >got.err
    [ "$(cat got.err)" = "$(echo "pmpmon: wrong$unknown"; "$program" lint wrong | sed 's/^/hint: /')" ]
    note $? 'hints on a terminal'
    script -qec "'$program' plan wrong --hints auto" /dev/null </dev/null | tr -d '\r' | cmp -s - got.err
    note $? 'hints on a terminal, as --hints auto'
    script -qec "'$program' plan wrong --hints never" /dev/null </dev/null | tr -d '\r' >got.err
    [ "$(cat got.err)" = "pmpmon: wrong$unknown" ]
    note $? 'no hints on a terminal with --hints never'
    # Hints depend on standard error, not on standard output or standard input.
    script -qec "'$program' plan wrong 2>got.err" /dev/null </dev/null >/dev/null
    [ "$(cat got.err)" = "pmpmon: wrong$unknown" ]
    note $? 'no hints in a file, where standard output is a terminal'
    script -qec "'$program' plan wrong >got.out" /dev/null </dev/null | tr -d '\r' >got.err
    [ ! -s got.out ] && [ "$(cat got.err)" = "$(echo "pmpmon: wrong$unknown"; "$program" lint wrong | sed 's/^/hint: /')" ]
    note $? 'hints on a terminal, where standard output is a file'
else
    echo 'left out: hints on a terminal, for script (util-linux) is not installed'
fi

mkdir inside
ln -s loop loop
long=$(printf 'n%.0s' {1..300})
for kind in 'absent' 'in an absent folder' 'a folder' 'under a plain file' 'a link to itself' 'a long name' 'no name'; do
    case $kind in
    absent) name=absent ;;
    'in an absent folder') name=absent/file ;;
    'a folder') name=inside ;;
    'under a plain file') name=map/file ;;
    'a link to itself') name=loop ;;
    'a long name') name=$long ;;
    'no name') name='' ;;
    esac
    no_file plan FILE
    no_file plan FILE none.cert
    for format in c asm json; do no_file plan FILE none.cert --format $format; done
    no_file show FILE
    no_file show --registers FILE
    no_file map FILE
    no_file platform FILE
    no_file lint FILE
    no_file judge FILE trace
    no_file judge --registers FILE trace
    no_file judge map FILE
    no_file check FILE cert
    no_file check map FILE
    no_file audit FILE registers
    no_file audit map FILE
    no_file run FILE trace
    no_file run platform FILE
    no_file run platform FILE --measure
done

# Runs the command with --hints always: the reason follows the error.
reason() {
    local name=$1 why=$2 trouble=$3
    shift 3
    "$program" "$@" --hints always >got.out 2>got.err
    ended $? 3 "pmpmon: $name: $trouble
hint: $name: $why"
    note $? "$* --hints always : $why"
}

for words in 'plan FILE' 'show FILE' 'check map FILE' 'run FILE trace' 'run platform FILE' 'lint FILE' 'audit map FILE'; do
    reason absent 'no such file or folder' 'cannot read' ${words/FILE/absent}
done
reason inside 'it is a folder' 'cannot read' plan inside
reason map/file 'its name goes through a file that is no folder' 'cannot read' plan map/file
reason loop 'too many links' 'cannot read' plan loop
reason $long 'the name is too long' 'cannot read' plan $long
reason inside 'it is a folder' 'cannot write' plan map inside
reason absent/cert 'no such file or folder' 'cannot write' plan map absent/cert
reason map/cert 'its name goes through a file that is no folder' 'cannot write' plan map map/cert
reason loop 'too many links' 'cannot write' plan map loop
reason $long 'the name is too long' 'cannot write' plan map $long
reason /dev/full 'no space left' 'cannot write' plan map /dev/full
"$program" plan map --hints always >/dev/full 2>got.err
[ $? = 3 ] && [ "$(cat got.err)" = "$(printf 'pmpmon: standard output: cannot write\nhint: standard output: no space left')" ]
note $? 'plan map --hints always >/dev/full : no space left'
[ -L loop ]
note $? 'a link to itself stays a link'

# A file that may not be read, unless the user may read everything.
cp map secret
chmod 000 secret
if [ ! -r secret ]; then
    kind='not readable' name=secret
    no_file plan FILE none.cert
    no_file check map FILE
    no_file run platform FILE
fi

# Standard output is a full device: each command that prints reports that, if its own status is below 2.
full() {
    "$program" "$@" >/dev/full 2>got.err
    [ $? = 3 ] && [ "$(cat got.err)" = 'pmpmon: standard output: cannot write' ]
    note $? "$* >/dev/full"
}

printf '0x80000000 0x1000 rwx\n0x80000000 0x1000 rwx\n' >idle
head -c 20 cert >"cut"
echo 'pmpcfg0 0' >zero
echo 'mseccfg 8' >smepmp
full plan map
full plan map full.cert
cmp -s full.cert cert
note $? 'the certificate stands where the plan could not be printed'
for format in c asm json; do full plan map --format $format; done
full show map
full judge map trace
full judge --registers zero trace
full judge --registers smepmp trace
full check map cert
full check map cut
full audit map registers
full audit map zero
full show --registers zero
full map registers
full lint wrong
full lint idle
full run platform trace
full --help
full --version
full plan --help
# A command that prints nothing loses nothing, and an error that was reported keeps its status.
: >empty
"$program" judge map empty >/dev/full 2>got.err
[ $? = 0 ] && [ ! -s got.err ]
note $? 'judge map empty >/dev/full'
printf 'load s 8 0x80200000\nno event\n' >stops
"$program" judge map stops >/dev/full 2>got.err
[ $? = 2 ] && [ "$(cat got.err)" = 'pmpmon: stops: line 2 is not understood' ]
note $? 'judge map stops >/dev/full'
# The answers before an error are printed, with the status of the error.
"$program" judge map stops >got.out 2>got.err
[ $? = 2 ] && [ "$(cat got.out)" = '1 ok' ]
note $? 'judge map stops: the answer before it'
# They are before it even if both go to one file.
"$program" judge map stops >got.err 2>&1
[ $? = 2 ] && [ "$(cat got.err)" = "$(printf '1 ok\npmpmon: stops: line 2 is not understood')" ]
note $? 'judge map stops, in one file'
"$program" run platform stops >got.err 2>&1
[ $? = 2 ] && [ "$(cat got.err)" = "$(printf '1 ok 0x0000000000000000\npmpmon: stops: line 2 is not understood')" ]
note $? 'run platform stops, in one file'
# A reader of the help that has gone, such as head, is not reported.
for words in '--help' '--version' 'plan --help'; do
    (sleep 0.2; "$program" $words 2>got.err; echo $? >got.out) | true
    [ "$(cat got.out)" = 3 ] && [ ! -s got.err ]
    note $? "$words to a reader that has gone"
done

# Standard error is a full device: the status is unchanged.
for words in '3 plan absent' '2 plan wrong' '2 plan' '3 check map absent'; do
    read -r status words <<<"$words"
    "$program" $words >got.out 2>/dev/full
    [ $? = "$status" ] && [ ! -s got.out ]
    note $? "$words 2>/dev/full"
done

# A pipe at the certificate's place.
mkfifo pipe
timeout 20 cat pipe >piped &
timeout 20 "$program" plan map pipe >got.out 2>got.err
[ $? = 0 ] && [ -p pipe ] && [ "$(echo pipe*)" = 'pipe piped' ] && cmp -s got.out registers
note $? 'plan map pipe, which stays a pipe'
[ -p pipe ] || : >pipe # its reader ends
wait $! && cmp -s piped cert
note $? 'the reader of the pipe has the certificate'

# A certificate of more than 3 MiB, too large for a map.
for ((i = 0; i < 4096; i++)); do echo "$((i << 44)) 4096 r"; done >many
"$program" plan many large >got.out 2>got.err && [ "$(stat -c %s large)" -gt 3145728 ]
note $? 'plan many large'
[ "$("$program" check many large 2>got.err)" = 'accepted 4096' ]
note $? 'check many large'
"$program" check large large >got.out 2>got.err
ended $? 2 'pmpmon: large: too large'
note $? 'check large large'

# A certificate that is the map's file.
cp map kept
ln -s map link
ln map other
for cert in link other; do
    "$program" plan map $cert >got.out 2>got.err
    [ $? = 2 ] && [ ! -s got.out ] && grep -q "take the place of the map 'map'" got.err && cmp -s map kept
    note $? "plan map $cert, the same file"
done

# Two files on two devices with the same inode number are not the same.
if [ -n "$(command -v unshare)" ] && unshare -m sh -c 'mkdir one two && mount -t tmpfs none one' 2>/dev/null; then
    unshare -m sh -c 'mount -t tmpfs none one && mount -t tmpfs none two && cp map one && echo old >two/cert && stat -c %i one/map two/cert &&
        "$0" plan one/map two/cert && cat two/cert >got.cert' "$program" >got.out 2>got.err
    [ $? = 0 ] && [ ! -s got.err ] && [ "$(head -n 2 got.out | uniq | wc -l)" = 1 ] && cmp -s got.cert cert
    note $? 'plan one/map two/cert, files of one number on two devices'
else
    echo 'left out: files of two devices, for want of mounts'
fi
rm -rf one two got.cert
"$program" plan - third <map >got.out 2>got.err && cmp -s third cert && ! compgen -G 'third.*' >/dev/null
note $? 'plan - third < map'

# A certificate is first written to a file with `.part` and a digit after its name.
mkdir folder
echo old >folder/place
chmod 640 folder/place
ln -s folder/place leads
echo taken >folder/place.part0
"$program" plan map leads >got.out 2>got.err && [ -L leads ] && cmp -s folder/place cert
note $? 'plan map leads, a link to a file in another folder'
[ "$(cat folder/place.part0)" = taken ] && [ "$(echo folder/* leads*)" = 'folder/place folder/place.part0 leads' ]
note $? 'a file that stands under a name beside the place stays, and none is left there'
[ "$(stat -c %a folder/place)" = 640 ]
note $? 'the permissions of the old certificate'
for digit in 1 2 3 4 5 6 7 8 9; do echo taken >folder/place.part$digit; done
echo old >folder/place
"$program" plan map folder/place >got.out 2>got.err
[ $? = 3 ] && [ ! -s got.out ] && [ "$(cat got.err)" = 'pmpmon: folder/place: cannot write' ] && [ "$(cat folder/place)" = old ] &&
    [ "$(cat folder/place.part*)" = "$(yes taken | head -10)" ]
note $? 'plan map folder/place, all names beside it taken'

reason folder/place 'its names beside it, .part0 to .part9, are taken' 'cannot write' plan map folder/place

# A name that cannot be extended: the file beside it has a short name in its folder.
mkdir long
for name in "$(printf 'c%.0s' {1..250})" "$(printf 'c%.0s' {1..255})"; do
    echo old >long/$name
    "$program" plan map long/$name >got.out 2>got.err
    [ $? = 0 ] && [ ! -s got.err ] && cmp -s long/$name cert && [ "$(ls long | wc -l)" = 1 ]
    note $? "plan map, a certificate whose name has ${#name} bytes"
    for digit in 0 1 2 3 4 5 6 7 8 9; do echo taken >long/pmpmon.part$digit; done
    echo old >long/$name
    "$program" plan map long/$name >got.out 2>got.err
    [ $? = 3 ] && [ ! -s got.out ] && [ "$(cat long/$name)" = old ] && [ "$(cat long/pmpmon.part*)" = "$(yes taken | head -10)" ]
    note $? 'the same where all short names are taken'
    rm -r long/*
done

# A dangling link: its target is made, through further links and in their folders.
ln -s folder/next dangling
ln -s made folder/next
"$program" plan map dangling >got.out 2>got.err
[ $? = 0 ] && [ -L dangling ] && [ -L folder/next ] && cmp -s folder/made cert && [ ! -e folder/made.part0 ]
note $? 'plan map dangling, a link to a link to what is not there'
ln -s absent/place nowhere
reason nowhere 'no such file or folder' 'cannot write' plan map nowhere

# A certificate at standard output or input.
refused() {
    local text=$1 status=$2
    [ "$status" = 2 ] && [ "$(head -n 1 got.err)" = "error: $text" ]
}
cp cert kept
"$program" plan map kept >>kept 2>got.err
refused 'the certificate would take the place of the file at standard output' $? && cmp -s kept cert
note $? 'plan map kept >>kept'
cp map kept
for words in 'plan - kept' 'plan map kept'; do
    "$program" $words <kept >got.out 2>got.err
    refused 'the certificate would take the place of the file at standard input' $? && [ ! -s got.out ] && cmp -s kept map
    note $? "$words <kept"
done
"$program" plan map /dev/null >/dev/null 2>got.err
[ $? = 0 ] && [ ! -s got.err ]
note $? 'plan map /dev/null >/dev/null'
"$program" plan map /dev/stdout 2>got.err | cat >got.out
[ ! -s got.err ] && [ "$(stat -c %s got.out)" = "$(cat registers cert | wc -c)" ]
note $? 'plan map /dev/stdout, a pipe'

# A folder that accepts no new file: an existing file is overwritten in place, and no file is made.
if [ "$(id -u)" = 0 ] && [ -n "$(command -v setpriv)" ]; then
    open=$(mktemp -d)
    cp "$program" map "$open"
    mkdir "$open/kept"
    head -c 100000 /dev/zero >"$open/kept/file"
    chmod 666 "$open/kept/file"
    chmod 755 "$open" "$open/kept"
    nobody() {
        (cd "$open" && setpriv --reuid=65534 --regid=65534 --clear-groups "./$(basename "$program")" "$@" --hints always) >got.out 2>got.err
    }
    nobody plan map kept/file
    [ $? = 0 ] && [ ! -s got.err ] && cmp -s "$open/kept/file" cert && [ "$(ls "$open/kept")" = file ]
    note $? 'plan map kept/file, a longer file in a folder that takes no new one'
    nobody plan map kept/other
    ended $? 3 "pmpmon: kept/other: cannot write
hint: kept/other: no permission"
    note $? 'plan map kept/other, in the same folder'
    chmod 600 "$open/map"
    nobody plan map
    ended $? 3 "pmpmon: map: cannot read
hint: map: no permission"
    note $? 'plan of a map that may not be read'
    rm -r "$open"
fi

# Names with control characters: messages contain only the ends of their lines.
odd=$'a\nb\e[31m'
"$program" plan "$odd" --hints always >got.out 2>got.err
ended $? 3 'pmpmon: a\x0ab\x1b[31m: cannot read
hint: a\x0ab\x1b[31m: no such file or folder'
note $? 'a name with a line end and an escape'
cp wrong "$odd"
"$program" lint "$odd" >got.out 2>got.err
[ $? = 1 ] && [ "$(cat got.out)" = "$("$program" lint wrong | sed 's/^wrong:/a\\x0ab\\x1b[31m:/')" ]
note $? 'lint of a file of that name'
"$program" plan "$odd" --hints always >got.out 2>got.err
[ $? = 2 ] && [ "$(cat got.err)" = "$(echo "pmpmon: a\\x0ab\\x1b[31m$unknown"; sed 's/^/hint: /' <("$program" lint "$odd"))" ]
note $? 'the hints of a file of that name'
cp map "$odd"
"$program" plan "$odd" --format json >got.out 2>got.err
[ $? = 0 ] && python3 -c 'import json, sys; sys.exit(json.load(open("got.out"))["map"] != sys.argv[1])' "$odd"
note $? 'the name of that map in JSON'
"$program" plan map --entries "$odd" >got.out 2>got.err
[ $? = 2 ] && [ "$(head -n 1 got.err)" = "error: invalid value 'a\\x0ab\\x1b[31m' for '--entries <16|64>'" ]
note $? 'a value of an option with those'
"$program" plan $'ma\np\xff\xfe' >got.out 2>got.err
ended $? 2 "error: the command line: word 2 is no UTF-8 from its byte 5 on: 'ma\\x0ap\\xff\\xfe'"
note $? 'a word that is no UTF-8'

# The file has the given name, not the one that messages display.
mkdir odd
(cd odd && "$program" plan ../map $'c\te' >../got.out 2>../got.err)
[ $? = 0 ] && [ ! -s got.err ] && [ "$(ls --quoting-style=escape odd)" = 'c\te' ] && cmp -s odd/$'c\te' cert
note $? 'a certificate whose name has a control character'
rm -r odd

# Control characters beyond ASCII, U+0080 to U+009F, are escaped too; JSON contains the actual name.
odd=$'a\xc2\x9b31m\xc2\xa0'
"$program" plan "$odd" >got.out 2>got.err
ended $? 3 $'pmpmon: a\\xc2\\x9b31m\xc2\xa0: cannot read'
note $? 'a name with a control character beyond ASCII'
odd=$(printf '%b' "$(printf '\\x%02x' {1..46} {48..127})")$'"\\\xc2\x80\xc2\x9b\xc2\x9f'
cp map "$odd"
"$program" plan "$odd" --format json >got.out 2>got.err
[ $? = 0 ] && python3 -c 'import json, sys; sys.exit(json.load(open("got.out"))["map"] != sys.argv[1])' "$odd"
note $? 'a name with all control characters in JSON'

# A certificate is a new file with the permissions of the old one, owned by the user who runs the program; other names
# of the old file keep the old contents.
echo old >fixed
ln fixed fixed.other
chmod 444 fixed
[ "$(id -u)" = 0 ] && chown 65534 fixed
"$program" plan map fixed >got.out 2>got.err
[ $? = 0 ] && cmp -s fixed cert && [ "$(stat -c '%a %u' fixed)" = "444 $(id -u)" ] && [ "$(cat fixed.other)" = old ]
note $? 'plan map fixed, a file of another user that may not be written'

# A signal that ends the program leaves the answers to everything that was read, in a file too.
for ((i = 0; i < 20000; i++)); do echo 'load s 8 0x80200000'; done >many
"$program" run platform many >want.answers
killed() {
    local i status lines
    rm -f asked
    mkfifo asked
    python3 -c 'import os, signal, sys
signal.signal(signal.SIGINT, signal.SIG_DFL)
os.execv(sys.argv[1], sys.argv[1:])' "$program" run platform - <asked >answers 2>got.err &
    exec {lines}>asked
    cat many >&$lines
    for ((i = 0; i < 300; i++)); do
        cmp -s answers want.answers && break
        sleep 0.1
    done
    kill -"$1" $!
    wait $! 2>/dev/null
    status=$?
    exec {lines}>&-
    [ "$status" -gt 128 ] && cmp -s answers want.answers
    note $? "run platform - >answers, ended by $1"
}
killed INT
killed TERM

# The program's own texts: each line of words, its output, its messages, and its status.
texts() {
    local line words status
    while IFS= read -r line; do
        eval "words=($line)"
        echo "\$ pmpmon $line"
        "$program" "${words[@]}" >got.out 2>got.err
        status=$?
        # (an unproved build claims no proof)
        sed 's/^Not proved yet: /Proved: /' got.out
        sed 's/^/2: /' got.err
        echo "status $status"
    done <<'END'
--help
--version
-V
help
run --help
plan --help
judge --help
check --help
show --help
audit --help
map --help
lint --help
measure --help
platform --help

other
--other
run
run platform
plan
judge map
check map
show
audit map
map
lint
lint map map
plan map --entries 17
show map --entries many
judge map trace --entries ''
plan map --at-most few
show map --at-most -1
plan map --name 9th
plan map --format xml
plan map --hints maybe
plan map --xlen 128
plan map map
judge - -
audit - -
run - -
check - -
lint --trace - --platform -
plan map -
platform
platform board --monitor 0 1
run platform trace --measured
END
}
texts >got.texts
[ "${2:-}" = --write ] && cp got.texts "$here/texts"
diff "$here/texts" got.texts >got.err
note $? 'help, the version and the faults of command lines, against tests/files/texts'
# Each command has its help under three words.
for name in run plan judge check show audit map lint measure platform; do
    "$program" $name --help >want.out
    for words in "$name -h" "help $name"; do
        "$program" $words >got.out 2>got.err && cmp -s got.out want.out && [ ! -s got.err ]
        note $? "$words"
    done
done
# The version is that of CHANGELOG.md's first heading.
told=$("$program" --version | sed -n '1s/^pmpmon \([0-9.]*\) .*/\1/p')
[ -n "$told" ] && [ "$told" = "$(sed -n 's/^## \([0-9.]*\), .*/\1/p' "$here/../../CHANGELOG.md" | head -n 1)" ]
note $? "the version, against CHANGELOG.md"

echo "$passed passed, $failed failed"
[ "$failed" = 0 ]
