#!/usr/bin/env bash
# Tries the built program propedit: its commands, options, exit statuses and messages, and files that are edited in place.
# It prints how many checks passed, and stops with status 1 at the first that fails.
#
#     tests/try_propedit.sh crates/propedit/out/propedit
#
# Run as root, it also tries files and folders of another user, and a mount point. With a JDK, it has Java read what -a
# and convert write. With strace, it tries what is synced and calls of the system that fail, with setfacl access control
# lists, with python3 a terminal and the peak memory.
set -u
[ $# = 1 ] && [ -x "$1" ] || { echo "usage: try_propedit.sh PROGRAM" >&2; exit 2; }
work=$(mktemp -d)
trap 'chmod -R u+w "$work"; rm -rf "$work"' EXIT
cp "$1" "$work/propedit"
chmod 755 "$work" "$work/propedit"
mkdir "$work/files"
cd "$work/files" || exit 2
printf '' >../input
count=0
command=

fail() {
    printf 'try_propedit.sh: line %s: %s\n' "${BASH_LINENO[-2]}" "$command" >&2
    printf '%s\n' "$1" >&2
    exit 1
}

# Sets what standard input and the file app.properties hold. Texts are as printf's %b has them.
given() {
    printf '%b' "$1" >../input
    rm -f app.properties
    printf '%b' "$1" >app.properties
}

# Runs the program with these arguments.
run() {
    command="propedit $*"
    ../propedit "$@" <../input >../output 2>../errors
    status=$?
}

# The last run ended with this status, and printed exactly this on standard output, and this on standard error.
gives() {
    [ "$status" = "$1" ] || fail "status $status, not $1: $(cat ../errors)"
    printf '%b' "$2" | cmp -s - ../output || fail "standard output: $(cat -A ../output)"
    printf '%b' "$3" | cmp -s - ../errors || fail "standard error: $(cat -A ../errors)"
    count=$((count + 1))
}

# The arguments after the first two are wrong, which the first line on standard error says in these words. After an
# empty line comes this usage.
is_refused() {
    local words=$1 usage=$2
    shift 2
    run "$@"
    [ "$status" = 2 ] || fail "status $status, not 2"
    [ ! -s ../output ] || fail "standard output: $(cat -A ../output)"
    printf '%s\n\n%s\n%s\n' "propedit: $words" "$usage" "For more information, try 'propedit --help'." |
        cmp -s - ../errors || fail "standard error: $(cat -A ../errors)"
    count=$((count + 1))
}

# The file holds exactly this text.
holds() {
    printf '%b' "$2" | cmp -s - "$1" || fail "$1 holds $(cat -A "$1")"
    count=$((count + 1))
}

# Something is as it should be.
is() {
    [ "$1" = "$2" ] || fail "it is '$1', not '$2'"
    count=$((count + 1))
}

# No file is left beside those that were edited.
leaves_nothing() {
    [ -z "$(find . -name '*.propedit')" ] || fail "left: $(find . -name '*.propedit')"
    count=$((count + 1))
}

# Help and version.

run --help
gives 0 "$(cat ../output)\n" ''
cp ../output ../usage
for words in 'Usage: propedit COMMAND [OPTION ..] [ARGUMENT ..]' '  get KEY ..  ' '  list [PREFIX]  ' '  comment KEY  ' '  check [FILE ..]  ' '  diff OLD NEW  ' \
    '  set KEY VALUE  ' '  remove KEY  ' '  rename OLD NEW  ' '  set-comment KEY TEXT ' '  merge FILE  ' '  convert ENCODING  ' '  help [COMMAND]  ' '-f, --file FILE' '-i, --in-place FILE' '--create' '-e, --encoding NAME' \
    '-d, --default VALUE' '-z, --null' '-v, --values' '-a, --ascii' '-x, --existing' '--with-comment' '--known' '--base FILE' '--pairs' '--ignore KIND' '-q, --quiet' '-v, --verbose' '-r, --readable' '-h, --help' '-V, --version' 'utf-8 (default)' iso-8859-1 \
    'Options come before or after the command, but before its first argument' "comes after '--'" 'standard input' \
    'Status: 0'; do
    grep -qF -- "$words" ../usage || fail "the usage lacks: $words"
    count=$((count + 1))
done
is "$(awk 'length > 80' ../usage)" ''
run -h
gives 0 "$(cat ../usage)\n" ''
run --version
gives 0 'propedit 1.28.0\n' ''
run -V
gives 0 'propedit 1.28.0\n' ''
run -f nowhere --help get
gives 0 "$(cat ../usage)\n" ''
run help
gives 0 "$(cat ../usage)\n" ''
# The page of a command has the options that it has a use for.
while read -r name options; do
    run help "$name"
    gives 0 "$(sed 's/\\/&&/g' ../output)\n" ''
    cp ../output ../page
    is "$(grep -o '^  \(-.,\|   \) --[a-z-]*' ../page | sed 's/.*--//' | tr '\n' ' ')" "$options help version "
    is "$(grep -c "^  \(printf .* | \)\?propedit $name" ../page) $(grep -c "^Usage: propedit $name " ../page) $(grep -c '^Status: 0 .*error\.$' ../page)" '2 1 1'
    is "$(awk 'length > 80' ../page)" ''
    for words in "$name --help" "$name -h" "-f nowhere $name --help a" "help -- $name"; do
        run $words
        gives 0 "$(sed 's/\\/&&/g' ../page)\n" ''
    done
done <<'end'
get file encoding default null
list file encoding null values json
comment file encoding
check file encoding json ascii base pairs ignore quiet
diff encoding json
set file in-place create encoding ascii existing with-comment verbose
remove file in-place create encoding ascii existing with-comment verbose
rename file in-place create encoding ascii existing with-comment verbose
set-comment file in-place create encoding ascii existing with-comment verbose
merge file in-place create encoding null ascii existing known verbose
convert file in-place encoding readable
end
run help help
gives 0 "$(cat ../output)\n" ''
is "$(head -n 3 ../output)" $'Prints the commands, or the page of one of them\n\nUsage: propedit help [COMMAND]'
run help remove
is "$(tail -n 2 ../output)" $'Status: 0 done; 1 no pair has a KEY, and -x is given; 2 an error.\nThe option -a requires a \'set\', \'rename\' or \'set-comment\'.'
run get -V
gives 0 'propedit 1.28.0\n' ''

# Each option, short and long.

given 'a = 1\n\xe9 = 2\n'
for option in '-f app.properties' '-fapp.properties' '--file app.properties' '--file=app.properties'; do
    run -e windows-1252 $option get a
    gives 0 '1\n' ''
done
for option in '-e latin1' '-elatin1' '--encoding ISO-8859-1' '--encoding=Windows-1252'; do
    run $option get é
    gives 0 '2\n' ''
done
run -e ' Latin1 ' get a
gives 0 '1\n' ''
for option in '-d 3' '-d3' '--default 3' '--default=3'; do
    run -e l1 $option get absent
    gives 0 '3\n' ''
done
for option in -z --null; do
    run -e l1 $option get a
    gives 0 '1\0' ''
done
run -ze l1 get a
gives 0 '1\0' ''
for option in '-i app.properties' '-iapp.properties' '--in-place app.properties' '--in-place=app.properties'; do
    given 'a = 1\n'
    run $option set a 2
    gives 0 '' ''
    holds app.properties 'a = 2\n'
done

# get

given '# the front door\nport : 80\nhost=a\nport = 8080\nempty\npath = C\\:\\\\users\\\n   \\u0061\\tb\n = none\n'
run get port
gives 0 '8080\n' ''
run get host
gives 0 'a\n' ''
run get empty
gives 0 '\n' ''
run get path
gives 0 'C:\\users''a\tb\n' ''
run get ''
gives 0 'none\n' ''
run get absent
gives 1 '' ''
run -d 7 get absent
gives 0 '7\n' ''
run -d 7 get port
gives 0 '8080\n' ''
run -d '' get absent
gives 0 '\n' ''
run -d -z get absent
gives 0 '-z\n' ''
run -z get port
gives 0 '8080\0' ''
run -z -d 'a b' get absent
gives 0 'a b\0' ''
run -f app.properties get port
gives 0 '8080\n' ''
run -f - get port
gives 0 '8080\n' ''
given '-d = 1\nget = 2\n-- = 3\n'
run get -- -d
gives 0 '1\n' ''
run get -- --
gives 0 '3\n' ''
run -f app.properties get get
gives 0 '2\n' ''
run get -- --help
gives 1 '' ''
run get get absent -- -d get
gives 1 '2\n1\n2\n' ''
run get get absent -d get
gives 1 '2\n1\n2\n' ''
run get -d 7 -- --help
gives 0 '7\n' ''
run get -f app.properties -z -- -d
gives 0 '1\0' ''
run -z -d x get get absent
gives 0 '2\0x\0' ''

# comment

given '# head\n\n# the user\n#\n!  of C:\\users\\u12\nuser = app\nhost=a\n'
run comment user
gives 0 'the user\n\n of C:\\users\\u12\n' ''
run comment -f app.properties user
gives 0 'the user\n\n of C:\\users\\u12\n' ''
run comment host
gives 0 '' ''
run comment -- port
gives 1 '' ''
run comment app.properties
gives 1 '' "propedit: no pair has the key 'app.properties'; a file is named by -f\n"
run comment -f app.properties app.properties
gives 1 '' "propedit: no pair has the key 'app.properties'; a file is named by -f\n"
given '# one\nport = \\u12\n'
run comment port
gives 2 '' 'propedit: standard input:2: Malformed \\uxxxx encoding: not enough digits.\n'
given '\0#\0a'
run -e utf-16be comment a
gives 2 '' "propedit: standard input: this command does not support UTF-16; propedit convert utf-8 converts it\n"

# list

given 'b = 1\na.x = 2\n# c = 3\nb = 4\na.y : 5\n\\u0061.x = 6\nno value\n'
run list
gives 0 'b\na.x\na.y\nno\n' ''
run list a.
gives 0 'a.x\na.y\n' ''
run list ''
gives 0 'b\na.x\na.y\nno\n' ''
run list c
gives 1 '' "propedit: no key begins with 'c'; a file is named by -f\n"
run list a.x.
gives 1 '' "propedit: no key begins with 'a.x.'; a file is named by -f\n"
run -f app.properties list c
gives 1 '' ''
run -f - list c
gives 1 '' ''
run -z list a.
gives 0 'a.x\0a.y\0' ''
run -f app.properties list b
gives 0 'b\n' ''
run -v list
gives 0 'b=4\na.x=6\na.y=5\nno=value\n' ''
run --values list a.
gives 0 'a.x=6\na.y=5\n' ''
run -zv -f app.properties list a.
gives 0 'a.x\00006\0a.y\00005\0' ''
run -v list c
gives 1 '' "propedit: no key begins with 'c'; a file is named by -f\n"
run --json list
gives 0 '{"b":"4","a.x":"6","a.y":"5","no":"value"}\n' ''
run list --json -f app.properties a.
gives 0 '{"a.x":"6","a.y":"5"}\n' ''
run --json list c
gives 1 '{}\n' "propedit: no key begins with 'c'; a file is named by -f\n"
command='propedit -z list | while read'
is "$(../propedit -f app.properties -z list | while IFS= read -r -d '' key; do echo "($key)"; done)" $'(b)\n(a.x)\n(a.y)\n(no)'
run list -z
gives 0 'b\0a.x\0a.y\0no\0' ''
run list -v
gives 0 'b=4\na.x=6\na.y=5\nno=value\n' ''
run -z list -f app.properties -v a.y
gives 0 'a.y\00005\0' ''
run list -- -v
gives 1 '' "propedit: no key begins with '-v'; a file is named by -f\n"
run -f app.properties list -v -- -v
gives 1 '' ''
given ''
run list
gives 0 '' ''
run get a
gives 1 '' ''

# Files that are taken for a KEY or a PREFIX

given 'port = 80\n'
mkdir folder
run get port app.properties
gives 1 '80\n' "propedit: no pair has the key 'app.properties'; a file is named by -f\n"
run list app.properties
gives 1 '' "propedit: no key begins with 'app.properties'; a file is named by -f\n"
run get port folder nowhere
gives 1 '80\n' ''
run -f app.properties get port app.properties
gives 1 '80\n' "propedit: no pair has the key 'app.properties'; a file is named by -f\n"
run -f - get port app.properties
gives 1 '80\n' ''
is_refused "the KEY 'app.properties' is the name of a file; '-f app.properties' reads it, and '-f -' standard input" \
    'Usage: propedit get [OPTION ..] KEY ..' -d 8080 get port app.properties
run -d 8080 get app.properties port
gives 0 '8080\n80\n' "propedit: no pair has the key 'app.properties'; a file is named by -f\n"
run -d 8080 get port folder
gives 0 '80\n8080\n' ''
run -d 8080 -f - get port app.properties
gives 0 '80\n8080\n' ''
printf 'app.properties = 1\n' >../input
run get app.properties
gives 0 '1\n' ''
rmdir folder

# Standard input that is a terminal

if command -v python3 >../trace; then
    # Runs the program in a terminal, in which `port = 80` and the end of the input are typed. All that it prints is one text.
    in_terminal() {
        command="propedit $* (in a terminal)"
        python3 -c 'import os, pty, sys
pid, terminal = pty.fork()
if pid == 0:
    os.execv(sys.argv[1], sys.argv[1:])
os.write(terminal, b"port = 80\n\4")
printed = b""
try:
    while more := os.read(terminal, 4096):
        printed += more
except OSError:  # the terminal was closed
    pass
sys.stdout.buffer.write(printed.replace(b"\r", b"").replace(b"port = 80\n", b"", 1))
sys.exit(os.waitstatus_to_exitcode(os.waitpid(pid, 0)[1]))' ../propedit "$@" >../output 2>../errors
        status=$?
    }
    reading="propedit: reading standard input; '-f FILE' reads a file"
    in_terminal get port
    gives 0 "$reading\n80\n" ''
    in_terminal check
    gives 0 "$reading\n" ''
    in_terminal set port 8080
    gives 0 "$reading\nport = 8080\n" ''
    in_terminal list app.properties
    gives 1 "$reading\npropedit: no key begins with 'app.properties'; a file is named by -f\n" ''
    in_terminal -f - get port
    gives 0 '80\n' ''
    in_terminal check -
    gives 0 '' ''
else
    echo 'not tried, since python3 is not at hand: standard input that is a terminal' >&2
fi

# check

given '# all is well\na = 1\nb = \\u00e9\n'
run check
gives 0 '' ''
run -f app.properties check
gives 0 '' ''
given 'a = 1\n# C:\\users\nb = \\u12\na = 2\nc = \xff\n\xfe = d\n\\u0061 = 3\n'
run check
gives 1 'standard input:2: Malformed \\uxxxx encoding: not hex. (in a comment, which Java and propedit pass over)
standard input:3: Malformed \\uxxxx encoding: not enough digits.
standard input:4: repeats the key \x27a\x27 of line 1
standard input:5: not UTF-8; if it is in windows-1252 or Latin-1, -e windows-1252 reads it
standard input:6: not UTF-8
standard input:7: repeats the key \x27a\x27 of line 1
' ''
run -f app.properties -e windows-1252 check
gives 1 'app.properties:2: Malformed \\uxxxx encoding: not hex. (in a comment, which Java and propedit pass over)
app.properties:3: Malformed \\uxxxx encoding: not enough digits.
app.properties:4: repeats the key \x27a\x27 of line 1
app.properties:7: repeats the key \x27a\x27 of line 1
' ''
given '\xe9=1\n\xe8=1\n'
run -f app.properties check
gives 1 'app.properties:1: not UTF-8; if it is in windows-1252 or Latin-1, -e windows-1252 reads it\napp.properties:2: not UTF-8\n' ''
printf 'a=1\na=2\n' >one.properties
printf 'b=1\n' >two.properties
run check one.properties two.properties app.properties
gives 1 'one.properties:2: repeats the key \x27a\x27 of line 1\napp.properties:1: not UTF-8; if it is in windows-1252 or Latin-1, -e windows-1252 reads it\napp.properties:2: not UTF-8\n' ''
run check two.properties two.properties two.properties
gives 0 '' ''
run -e latin1 check app.properties one.properties
gives 1 'one.properties:2: repeats the key \x27a\x27 of line 1\n' ''
run check one.properties nowhere two.properties
gives 2 'one.properties:2: repeats the key \x27a\x27 of line 1\n' 'propedit: nowhere: No such file or directory\n'
printf '# \xc3\xa9\nb=1\n' >two.properties
for option in -a --ascii; do
    run $option check one.properties two.properties app.properties
    gives 1 'one.properties:2: repeats the key \x27a\x27 of line 1
two.properties:1: has a non-ASCII character
app.properties:1: not UTF-8; if it is in windows-1252 or Latin-1, -e windows-1252 reads it
app.properties:2: not UTF-8
' ''
done
run -a -f two.properties check
gives 1 'two.properties:1: has a non-ASCII character\n' ''
run -a -e latin1 check app.properties
gives 1 'app.properties:1: has a non-ASCII character\napp.properties:2: has a non-ASCII character\n' ''
run -e latin1 check two.properties app.properties
gives 1 'two.properties:1: looks like UTF-8; without -e it is read as UTF-8\n' ''
# With -q, the status tells. What isn't read is said.
for words in '-q check' 'check -q' '--quiet check' 'check --quiet'; do
    run $words one.properties two.properties
    gives 1 '' ''
    run $words two.properties
    gives 0 '' ''
    run $words two.properties nowhere one.properties
    gives 2 '' 'propedit: nowhere: No such file or directory\n'
done
run check -qa two.properties
gives 1 '' ''
run check -q
gives 1 '' ''
run check -q -e latin1
gives 0 '' ''
run -i two.properties convert ascii
run -a check two.properties
gives 0 '' ''
# With --pairs, malformed escapes in comments are left out, of each file.
printf '# C:\\users\na=\\u12\n' >one.properties
printf '! C:\\users\nb=1\n' >two.properties
run check --pairs two.properties
gives 0 '' ''
run --pairs check two.properties one.properties
gives 1 'one.properties:2: Malformed \\uxxxx encoding: not enough digits.\n' ''
run check --pairs -q two.properties two.properties
gives 0 '' ''
run check --pairs -q two.properties one.properties
gives 1 '' ''
run check -q two.properties
gives 1 '' ''
# With --ignore, findings of these kinds are left out, of each file, and don't count.
printf '\xef\xbb\xbfa=1\nc=2\nk=\\ \nb=\\u12\n' >three.properties
mark='three.properties:1: begins with a byte order mark, which Java reads as part of a key\n'
blank='three.properties:3: ends in a backslash and a blank, so the next line does not continue it\n'
short='three.properties:4: Malformed \\uxxxx encoding: not enough digits.\n'
run check three.properties
gives 1 "$mark$blank$short" ''
run check --ignore byte-order-mark three.properties
gives 1 "$blank$short" ''
run --ignore=blank-after-backslash,byte-order-mark check two.properties three.properties
gives 1 "two.properties:1: Malformed \\\\uxxxx encoding: not hex. (in a comment, which Java and propedit pass over)\n$short" ''
run check -q --pairs --ignore u-feff,repeated-key two.properties
gives 0 '' ''
printf 'a=1\na=2\nk=\\ \n' >three.properties
run check --ignore repeated-key -f three.properties
gives 1 "$blank" ''
run check --ignore blank-after-backslash,repeated-key -f three.properties
gives 0 '' ''
run check -q --ignore repeated-key -f three.properties
gives 1 '' ''
run --json check --ignore repeated-key -f three.properties
gives 1 '{"file":"three.properties","line":3,"kind":"blank-after-backslash","message":"ends in a backslash and a blank, so the next line does not continue it"}\n' ''
rm three.properties
# With --json, each finding is an object. Statuses are the same.
printf 'a=1\na=2\n' >one.properties
object='{"file":"one.properties","line":2,"kind":"repeated-key","key":"a","first":1,"message":"repeats the key \x27a\x27 of line 1"}\n'
other='{"file":"two.properties","line":1,"kind":"malformed-escape","in_comment":true,"message":"Malformed \\\\uxxxx encoding: not hex. (in a comment, which Java and propedit pass over)"}\n'
run check --json one.properties two.properties
gives 1 "$object$other" ''
run --json check --pairs -f two.properties
gives 0 '' ''
run check --json -q one.properties
gives 1 '' ''
cp one.properties ../input
run check --json -
gives 1 "${object//one.properties/standard input}" ''
run --json check
gives 1 "${object//one.properties/standard input}" ''
run check --json one.properties nowhere
gives 2 "$object" 'propedit: nowhere: No such file or directory\n'
rm one.properties two.properties

# check --base

printf 'title=Home\nprice=5\na\\ key=1\nabout=About\nprice=6\n' >base.properties
printf 'contact=Contact\nprice=7\ntitle=Start\nprice=8\na\\tkey=1\n' >one.properties
printf 'a\\ key=\nabout=\nprice=\ntitle=\n# C:\\users\n' >two.properties
own='base.properties:5: repeats the key \x27price\x27 of line 2\n'
repeats='one.properties:4: repeats the key \x27price\x27 of line 2\n'
keys='one.properties: key \x27a key\x27 is missing (base.properties:3)
one.properties: key \x27about\x27 is missing (base.properties:4)
one.properties:1: key \x27contact\x27 is not in base.properties
one.properties:5: key \x27a\\u{9}key\x27 is not in base.properties
'
comment='two.properties:5: Malformed \\uxxxx encoding: not hex. (in a comment, which Java and propedit pass over)\n'
run check --base base.properties one.properties
gives 1 "$own$repeats$keys" ''
# The base is checked once, also where it is one of the files.
run check --base base.properties base.properties one.properties base.properties
gives 1 "$own$repeats$keys" ''
run check --base base.properties -f base.properties
gives 1 "$own" ''
run --base=base.properties check -- two.properties one.properties
gives 1 "$own$comment$repeats$keys" ''
run check --pairs --base base.properties -f one.properties
gives 1 "$own$repeats$keys" ''
run check -q --base base.properties one.properties
gives 1 '' ''
run check --ignore repeated-key,surplus-key --base base.properties one.properties
gives 1 "$(head -2 <<<"$keys")\n" ''
run check --ignore missing-key --base base.properties one.properties
gives 1 "$own$repeats$(tail -n +3 <<<"$keys")\n" ''
run check --ignore missing-key,surplus-key,repeated-key --base base.properties one.properties
gives 0 '' ''
objects='{"file":"base.properties","line":5,"kind":"repeated-key","key":"price","first":2,"message":"repeats the key \x27price\x27 of line 2"}\n'
objects+="${objects/base.properties\",\"line\":5/one.properties\",\"line\":4}"
objects+='{"file":"one.properties","kind":"missing-key","key":"a key","base":"base.properties","base_line":3,"message":"key \x27a key\x27 is missing (base.properties:3)"}
{"file":"one.properties","kind":"missing-key","key":"about","base":"base.properties","base_line":4,"message":"key \x27about\x27 is missing (base.properties:4)"}
{"file":"one.properties","line":1,"kind":"surplus-key","key":"contact","base":"base.properties","message":"key \x27contact\x27 is not in base.properties"}
{"file":"one.properties","line":5,"kind":"surplus-key","key":"a\\tkey","base":"base.properties","message":"key \x27a\\\\u{9}key\x27 is not in base.properties"}
'
run --json check --base base.properties one.properties
gives 1 "$objects" ''
# Repeated keys count once, and which of their lines is named doesn't depend on their values.
sed -i 5d base.properties
run check --pairs --base base.properties two.properties base.properties
gives 0 '' ''
run check --base base.properties two.properties
gives 1 "$comment" ''
# A key beside a malformed value is there, and if a line is ill-formed, keys with U+FFFD aren't compared.
printf 'title=1\nprice=\\u12\na\\ key=\xe9\nabout=\n\xe8=1\nnew=1\n' >one.properties
run check --base base.properties one.properties
gives 1 'one.properties:2: Malformed \\uxxxx encoding: not enough digits.
one.properties:3: not UTF-8; if it is in windows-1252 or Latin-1, -e windows-1252 reads it
one.properties:5: not UTF-8
one.properties:6: key \x27new\x27 is not in base.properties
' ''
run check -e latin1 --base base.properties one.properties
gives 1 'one.properties:2: Malformed \\uxxxx encoding: not enough digits.
one.properties:5: key \x27\xc3\xa8\x27 is not in base.properties
one.properties:6: key \x27new\x27 is not in base.properties
' ''
# Standard input is the base or a file.
cp base.properties ../input
run check --base - two.properties
gives 1 "$comment" ''
run check --pairs --base two.properties - base.properties
gives 0 '' ''
run check -f - --pairs --base two.properties
gives 0 '' ''
# Without its base no file is checked.
run check --base nowhere one.properties
gives 2 '' 'propedit: nowhere: No such file or directory\n'
run check --base base.properties nowhere two.properties
gives 2 "$comment" 'propedit: nowhere: No such file or directory\n'
run check --base $'\xe9' one.properties
gives 2 '' 'propedit: \\xe9: this name is not UTF-8\n'
run check --base base.properties $'\xe9' two.properties
gives 2 "$comment" 'propedit: \\xe9: this name is not UTF-8\n'
run check --base=$'\xe9' one.properties
gives 2 '' 'propedit: \\xe9: this name is not UTF-8\n'
run -f$'\xe9' check --base base.properties
gives 2 '' 'propedit: \\xe9: this name is not UTF-8\n'
command='propedit check --base base.properties >base.properties'
../propedit check --base base.properties two.properties >>base.properties 2>../errors
is "$? $(cat ../errors)" '2 propedit: base.properties: is also standard output'
checks='Usage: propedit check [OPTION ..] [FILE ..]'
is_refused "'check --base FILE' requires a FILE to check; '-' is standard input" "$checks" check --base base.properties
is_refused "at most one file of 'check' can be standard input, '-'; './-' names a file" "$checks" check --base - one.properties -
is_refused "at most one file of 'check' can be standard input, '-'; './-' names a file" "$checks" check --base - -f -
is_refused "at most one file of 'check' can be standard input, '-'; './-' names a file" "$checks" check --base base.properties - one.properties -
is_refused "unexpected '--base': options of 'check' come before the first argument" "$checks" check one.properties --base base.properties
is_refused "the option '-f FILE' cannot be used with 'check FILE ..'" "$checks" -f one.properties --base base.properties check two.properties
is_refused "the option '--base FILE' requires a FILE" "$checks" check --base= two.properties
is_refused "the option '--base FILE' cannot be used with 'list'" 'Usage: propedit list [OPTION ..] [PREFIX]' --base base.properties list
rm base.properties one.properties two.properties

# diff

printf '# c\nport = 80\nhost=a\npath=b\nport = 81\n' >old.properties
printf 'port: 8080\r\nname = x\\ty\r\nhost = \\u0061\r\n' >new.properties
differs='old.properties:5: -port=81\nnew.properties:1: +port=8080\nold.properties:4: -path=b\nnew.properties:2: +name=x\\ty\n'
run diff old.properties new.properties
gives 1 "$differs" ''
run diff -- old.properties new.properties
gives 1 "$differs" ''
run diff old.properties old.properties
gives 0 '' ''
cp new.properties ../input
run diff old.properties -
gives 1 "${differs//new.properties/standard input}" ''
run diff - new.properties
gives 0 '' ''
objects='{"key":"port","old":{"line":5,"value":"81"},"new":{"line":1,"value":"8080"}}\n'
objects+='{"key":"path","old":{"line":4,"value":"b"}}\n{"key":"name","new":{"line":2,"value":"x\\ty"}}\n'
run --json diff old.properties new.properties
gives 1 "$objects" ''
run diff --json old.properties old.properties
gives 0 '' ''
# What the new file has is input of other commands.
command='sed | propedit'
is "$(../propedit diff old.properties new.properties | sed -n 's/^[^+]*: +//p' | ../propedit -v list)" $'port=8080\nname=x\ty'
run diff nowhere gone
gives 2 '' 'propedit: nowhere: No such file or directory\n'
run diff old.properties gone
gives 2 '' 'propedit: gone: No such file or directory\n'
run diff gone -
gives 2 '' 'propedit: gone: No such file or directory\n'
mkdir folder
run diff old.properties folder
gives 2 '' 'propedit: folder: Is a directory\n'
rmdir folder
printf 'a=\xe9\n' >one.properties
printf 'a=\\u12\n' >two.properties
run diff one.properties two.properties
gives 2 '' 'propedit: one.properties:1: not UTF-8; if it is in windows-1252 or Latin-1, -e windows-1252 reads it\n'
run -e latin1 diff one.properties two.properties
gives 2 '' 'propedit: two.properties:1: Malformed \\uxxxx encoding: not enough digits.\n'
printf 'a=\\u00e9\n' >two.properties
run -e latin1 diff one.properties two.properties
gives 0 '' ''
command='propedit diff >two.properties'
../propedit diff one.properties two.properties >>two.properties 2>../errors
is "$? $(cat ../errors)" '2 propedit: two.properties: is also standard output'
is_refused "'diff' requires two files: OLD NEW" 'Usage: propedit diff [OPTION ..] OLD NEW' diff old.properties
is_refused "at most one file of 'diff' can be standard input, '-'; './-' names a file" 'Usage: propedit diff [OPTION ..] OLD NEW' diff - -
rm old.properties new.properties one.properties two.properties

# set and remove

given '# ports\r\nport : 80\r\n\r\n  host = a\r\n! end'
run set port 8080
gives 0 '# ports\r\nport : 8080\r\n\r\n  host = a\r\n! end' ''
run remove host
gives 0 '# ports\r\nport : 80\r\n\r\n! end' ''
run set name 'a b'
gives 0 '# ports\r\nport : 80\r\n\r\n  host = a\r\n! end\r\nname = a b\r\n' ''
run set port 1 remove host set port 2 set host b
gives 0 '# ports\r\nport : 2\r\n\r\n! end\r\nhost : b\r\n' ''
run remove absent
gives 0 '# ports\r\nport : 80\r\n\r\n  host = a\r\n! end' ''
run -f app.properties set port 8080
gives 0 '# ports\r\nport : 8080\r\n\r\n  host = a\r\n! end' ''
holds app.properties '# ports\r\nport : 80\r\n\r\n  host = a\r\n! end'
# With -x, a key that no pair has is refused.
run -x set port 8080 remove absent
gives 1 '' "propedit: standard input: no pair has the key 'absent'\n"
run -x set port 8080 remove host
gives 0 '# ports\r\nport : 8080\r\n\r\n! end' ''
run remove -x -i app.properties prot
gives 1 '' "propedit: app.properties: no pair has the key 'prot'\n"
run --existing set port 8080 set prot 1 set hots b
gives 1 '' "propedit: standard input: no pair has the key 'prot'\n"
run -x -i app.properties set port 8080 set prot 1
gives 1 '' "propedit: app.properties: no pair has the key 'prot'\n"
holds app.properties '# ports\r\nport : 80\r\n\r\n  host = a\r\n! end'
run -x -i app.properties set port 80
gives 0 '' ''
run set -x -i app.properties port 8080
gives 0 '' ''
holds app.properties '# ports\r\nport : 8080\r\n\r\n  host = a\r\n! end'
run remove --in-place=app.properties port set host b
gives 0 '' ''
holds app.properties '# ports\r\n\r\n  host = b\r\n! end'
# With -v, a line says what changed.
run remove -v -i app.properties host set name a set mode b set port 1
gives 0 '' 'app.properties: 0 pairs changed, 3 added, 1 removed\n'
run -v set -i app.properties name c set mode b set port 2
gives 0 '' 'app.properties: 2 pairs changed, 0 added, 0 removed\n'
run set --verbose -i app.properties name c
gives 0 '' 'app.properties: unchanged\n'
run remove -vi app.properties name remove mode remove port set host b
gives 0 '' 'app.properties: 0 pairs changed, 1 added, 3 removed\n'
run set -vi $'b\n.properties' --create a 1
gives 0 '' 'b\\u{a}.properties: 0 pairs changed, 1 added, 0 removed\n'
rm $'b\n.properties'
printf '# ports\r\n\r\n  host = b\r\n! end' >app.properties
run set -xv -i app.properties prot 1
gives 1 '' "propedit: app.properties: no pair has the key 'prot'\n"
# With --with-comment, remove takes the comment lines above a pair, but none beyond a blank line.
printf '# head\n\n# the port\n! of the door\nport = 80\n# name\nname : a\nport=81\n' >app.properties
run -i app.properties remove -x --with-comment port set name b
gives 0 '' ''
holds app.properties '# head\n\n# name\nname : b\n'
run -i app.properties --with-comment -x remove name remove port
gives 1 '' "propedit: app.properties: no pair has the key 'port'\n"
run --with-comment -i app.properties remove port
gives 0 '' ''
holds app.properties '# head\n\n# name\nname : b\n'
run -vi app.properties --with-comment rename name port remove port
gives 0 '' 'app.properties: 0 pairs changed, 0 added, 1 removed\n'
holds app.properties '# head\n\n'
run remove --with-comment --create -i new.properties a
gives 0 '' ''
is "$(ls new.properties 2>&1 | grep -c 'No such file')" 1
# set-comment sets the comment lines above the last pair with a key, and keeps all else.
printf '# head\n\n# the port\n! of the door\nport = 80\n' >app.properties
run -i app.properties set-comment port $'where it is\nheard\n'
gives 0 '' ''
holds app.properties '# head\n\n# where it is\n# heard\nport = 80\n'
run comment -f app.properties port
gives 0 'where it is\nheard\n' ''
run -vi app.properties set-comment port $'where it is\r\nheard'
gives 0 '' 'app.properties: unchanged\n'
run -i app.properties set name a set-comment name x set-comment host y
gives 1 '' "propedit: app.properties: no pair has the key 'host'\n"
holds app.properties '# head\n\n# where it is\n# heard\nport = 80\n'
run -vai app.properties set-comment port é set name a set-comment name x
gives 0 '' 'app.properties: 0 pairs changed, 1 added, 0 removed\n'
holds app.properties '# head\n\n# \\u00e9\nport = 80\n# x\nname = a\n'
run -i app.properties set-comment port '' set-comment name ''
gives 0 '' ''
holds app.properties '# head\n\nport = 80\nname = a\n'
# rename keeps all but the key, and changes nothing that it refuses.
printf '# of the user\r\n  login\\.user : me\\\r\n    too\r\nuser.id=7' >app.properties
run -v -i app.properties rename login.user user.name
gives 0 '' 'app.properties: 0 pairs changed, 1 added, 1 removed\n'
holds app.properties '# of the user\r\n  user.name : me\\\r\n    too\r\nuser.id=7'
run -i app.properties rename login.user user.name
gives 1 '' "propedit: app.properties: no pair has the key 'login.user'\n"
run -i app.properties rename user.name user.id
gives 1 '' "propedit: app.properties:4: the key 'user.id' is there already\n"
run -v rename -i app.properties user.id user.id
gives 0 '' 'app.properties: unchanged\n'
run -i app.properties set x 1 rename user.id id rename absent a
gives 1 '' "propedit: app.properties: no pair has the key 'absent'\n"
holds app.properties '# of the user\r\n  user.name : me\\\r\n    too\r\nuser.id=7'
run -ai app.properties set x 1 rename user.id ż remove user.name rename x user.id
gives 0 '' ''
holds app.properties '# of the user\r\n\\u017c=7\r\nuser.id=1\r\n'
run rename -i new.properties --create a b
gives 1 '' "propedit: new.properties: no pair has the key 'a'\n"
is "$(ls new.properties 2>&1 | grep -c 'No such file')" 1
run set -i new.properties --create a 1 rename a b
gives 0 '' ''
holds new.properties 'b=1\n'
rm new.properties
printf '# ports\r\n\r\n  host = b\r\n! end' >app.properties
# Options after the command have their effect on files too.
run set -x -i app.properties prot 1
gives 1 '' "propedit: app.properties: no pair has the key 'prot'\n"
run remove -x -i app.properties prot set prot 1
gives 1 '' "propedit: app.properties: no pair has the key 'prot'\n"
holds app.properties '# ports\r\n\r\n  host = b\r\n! end'
run set -i new.properties a 1
gives 2 '' 'propedit: new.properties: No such file or directory\n'
run set --create -i new.properties a 1
gives 0 '' ''
holds new.properties 'a=1\n'
run set -i new.properties -a a é
gives 0 '' ''
holds new.properties 'a=\\u00e9\n'
run convert -r -i new.properties utf-8
gives 0 '' ''
holds new.properties 'a=é\n'
run check new.properties
gives 0 '' ''
run check -a new.properties
gives 1 'new.properties:1: has a non-ASCII character\n' ''
run convert -e latin1 -i new.properties utf-8
gives 0 '' ''
holds new.properties 'a=Ã©\n'
rm new.properties
given 'a = 1\n'
run set a -Xmx1g
gives 0 'a = -Xmx1g\n' ''
run set a 1 set -f -i
gives 0 'a = 1\n-f = -i\n' ''
run remove a
gives 0 '' ''
run set -- --file --help set -- -- -- remove --file
gives 0 'a = 1\n-- = --\n' ''
run set -- -- 1
gives 0 'a = 1\n-- = 1\n' ''
run set -- -f -i
gives 0 'a = 1\n-f = -i\n' ''
run set a --
gives 0 'a = --\n' ''
given '-- = 1\n'
run remove -- --
gives 0 '' ''
given 'a = 1\n'
run set set remove remove get
gives 0 'a = 1\nset = remove\n' ''

# The layout of a line that is set

given '# a\r\n  key    = old\r\nkey : older\r\nother=1'
run set key new
gives 0 '# a\r\n  key    = old\r\nkey : new\r\nother=1' ''
run remove key set key new
gives 0 '# a\r\nother=1\r\nkey=new\r\n' ''
given '# a\r\n  \\u006bey    = old\r\nother=1'
run set key 'http://a:1/?b=c d'
gives 0 '# a\r\n  \\u006bey    = http://a:1/?b=c d\r\nother=1' ''
run set key ' # a '
gives 0 '# a\r\n  \\u006bey    = \\ # a\\u0020\r\nother=1' ''
run set key ''
gives 0 '# a\r\n  \\u006bey    = \r\nother=1' ''
run set key 'C:\a'
gives 0 '# a\r\n  \\u006bey    = C:\\\\a\r\nother=1' ''
given 'a = 1 \\\n    2 \\\n    3\nb\\\n  c: d\n'
run set a '1 2'
gives 0 'a = 1 2\nb\\\n  c: d\n' ''
run set a '1 2 3'
gives 0 'a = 1 \\\n    2 \\\n    3\nb\\\n  c: d\n' ''
run set bc e
gives 0 'a = 1 \\\n    2 \\\n    3\nb\\\n  c: e\n' ''
given 'a 1\nb\n'
run set a =2 set b 2
gives 0 'a \\=2\nb=2\n' ''

# A new key has the separator of the last pair, and the last line ending.

given 'a = 1\r\nb:  2\r\n# c'
run set c 3 set d 4
gives 0 'a = 1\r\nb:  2\r\n# c\r\nc: 3\r\nd: 4\r\n' ''
given 'a\t1\r'
run set b 2
gives 0 'a\t1\rb\t2\r' ''
given '# a\n'
run set b 2
gives 0 '# a\nb=2\n' ''
given 'a: 1\\'
run set b 2
gives 0 'a: 1\\\n\nb: 2\n' ''

# Encodings

given 'host = a\n'
run set host żółw
gives 0 'host = żółw\n' ''
run -e utf-8 set host żółw
gives 0 'host = żółw\n' ''
run -e windows-1252 set host żółw
gives 0 'host = \\u017c\xf3\\u0142w\n' ''
given 'host = \xc5\xbc\xc3\xb3\xc5\x82w\n'
run get host
gives 0 'żółw\n' ''
given 'a = caf\xe9\n'
run -e windows-1252 get a
gives 0 'café\n' ''
given 'a\0=\0\xe9\0'
run -e utf-16le get a
gives 0 'é\n' ''
run -e utf-16le list
gives 0 'a\n' ''
run -e utf-16le check
gives 0 '' ''
run -e utf-16le set a 1
gives 2 '' 'propedit: standard input: this command does not support UTF-16; propedit convert utf-8 converts it\n'
given '\0a\0=\0\xe9'
run -e utf-16be get a
gives 0 'é\n' ''
run -e utf-16be -f app.properties remove a
gives 2 '' 'propedit: app.properties: this command does not support UTF-16; propedit convert utf-8 converts it\n'
given '\xff\xfea\0=\0\xe9\0'
run get a
gives 0 'é\n' ''
given 'a=\xc3\xa9'
for label in UTF-8 Utf8 unicode-1-1-utf-8; do
    run -e $label get a
    gives 0 'é\n' ''
done
given '\xef\xbb\xbfa=\xc3\xa9'
run -e windows-1252 get a
gives 0 'é\n' ''
run -e utf-16le set b 1
gives 0 '\xef\xbb\xbfa=\xc3\xa9\nb=1\n' ''

# ASCII only

given 'host = a\n# \xc5\xbc\n'
for option in -a --ascii; do
    run $option set host 'ż € é 🐞'
    gives 0 'host = \\u017c \\u20ac \\u00e9 \\ud83d\\udc1e\n# ż\n' ''
    run $option set 'żółw' 'č' remove host
    gives 0 '# ż\n\\u017c\\u00f3\\u0142w = \\u010d\n' ''
    run $option remove host set é =
    gives 0 '# ż\n\\u00e9==\n' ''
done
given '# \xe9\n\xe9 : \x80\n'
run -a -e windows-1252 set é 'ÿ €'
gives 0 '# \xe9\n\xe9 : \\u00ff \\u20ac\n' ''
run -ae windows-1252 set é €
gives 0 '# \xe9\n\xe9 : \x80\n' ''
run -a -i app.properties -e windows-1252 set ñ '"'
gives 0 '' ''
holds app.properties '# \xe9\n\xe9 : \x80\n\\u00f1 : "\n'

# Java reads the texts that were put in: from a stream, of which it takes each byte for a character, from a reader, and as
# a resource bundle.
cat >../Load.java <<'JAVA'
import java.io.InputStreamReader;
import java.io.PrintStream;
import java.util.Properties;
import java.util.PropertyResourceBundle;
import java.util.TreeSet;

class Load {
    public static void main(String[] arguments) throws Exception {
        Properties pairs = new Properties();
        switch (arguments[0]) {
            case "stream":
                pairs.load(System.in);
                break;
            case "reader":
                pairs.load(new InputStreamReader(System.in, "UTF-8"));
                break;
            default:
                PropertyResourceBundle bundle = new PropertyResourceBundle(System.in);
                for (String key : bundle.keySet()) {
                    pairs.setProperty(key, bundle.getString(key));
                }
        }
        PrintStream output = new PrintStream(System.out, false, "UTF-8");
        for (String key : new TreeSet<>(pairs.stringPropertyNames())) {
            output.print(key + "|" + pairs.getProperty(key) + "\n");
        }
        output.flush();
    }
}
JAVA
if javac -d .. ../Load.java 2>../errors; then
    given 'price  = 4\n'
    run -a set price ' 5 € \é 🐞 ' set 'żółw: #' $'\t=\x7f\xc2\x80\n' set 'ÿ' ''
    cp ../output ../edited
    for way in stream reader bundle; do
        cp ../edited ../input
        command="java Load $way"
        java -cp .. Load $way <../input >../output 2>../errors
        status=$?
        gives 0 'price| 5 € \\é 🐞 \nÿ|\nżółw: #|\t=\x7f\xc2\x80\n\n' ''
    done
else
    echo 'try_propedit.sh: no JDK: Java reads nothing' >&2
fi

# merge

given 'host : a\r\n# end'
printf 'port = 1\nhost = b\nport = 2\n' >other.properties
run merge other.properties
gives 0 'host : b\r\n# end\r\nport : 2\r\n' ''
run -f other.properties merge app.properties
gives 0 'port = 1\nhost = a\nport = 2\n' ''
run -f other.properties merge -
gives 0 'port = 1\nhost = a\nport = 2\n' ''
run -x -i app.properties merge other.properties
gives 1 '' "propedit: app.properties: no pair has the key 'port'\n"
holds app.properties 'host : a\r\n# end'
run --known -vi app.properties merge other.properties
gives 0 '' 'app.properties: 1 pair changed, 0 added, 0 removed\n'
holds app.properties 'host : b\r\n# end'
run merge -vi app.properties other.properties
gives 0 '' 'app.properties: 0 pairs changed, 1 added, 0 removed\n'
run merge -vi app.properties app.properties
gives 0 '' 'app.properties: unchanged\n'
run merge --create -i new.properties other.properties
gives 0 '' ''
holds new.properties 'port=2\nhost=b\n'
rm new.properties
run merge -- -.properties
gives 2 '' 'propedit: -.properties: No such file or directory\n'
run merge -i nowhere .
gives 2 '' 'propedit: .: Is a directory\n'
run merge -i nowhere other.properties
gives 2 '' 'propedit: nowhere: No such file or directory\n'
printf 'a = \\u12\n' >other.properties
run merge -i nowhere other.properties
gives 2 '' 'propedit: other.properties:1: Malformed \\uxxxx encoding: not enough digits.\n'
# What list prints is merged, and the values that a shell has.
given '\xc3\xa9 = \\u0041\\\n  \\tb\na = 1\n'
printf '' >other.properties
command='propedit list -vz | propedit merge -z -'
../propedit list -vz -f app.properties | ../propedit -zi other.properties merge - >../output 2>../errors
status=$?
gives 0 '' ''
holds other.properties 'é=A\\tb\na=1\n'
secret=$' C:\\tmp\n=#\'" '
command='printf .. | propedit merge -z -'
printf 'pass\0%s\0' "$secret" | ../propedit merge -z -i other.properties - >../output 2>../errors
status=$?
gives 0 '' ''
run -f other.properties get pass
is "$(cat ../output; echo .)" "$secret"$'\n.'
printf 'a\0' >../input
run merge -zi other.properties -
gives 2 '' 'propedit: standard input: the last key has no value; with -z, keys and values come by turns\n'
printf 'a\0001' >../input
run merge -zi other.properties -
gives 2 '' 'propedit: standard input: the last text has no zero byte after it; with -z, merge reads what list -v -z prints\n'
printf 'a\0\351\0' >../input
run -e latin1 merge -zi other.properties -
gives 2 '' 'propedit: standard input: not UTF-8; the texts that merge -z reads are in UTF-8\n'
rm other.properties
leaves_nothing

# Conversions

given '# caf\xe9\n k\xe9y : \x80 \\\\u00e9 \\\xe9\\\n   \\\\u3042\r\n\r'
for option in '-e windows-1252' '-elatin1' '--encoding=cp1252'; do
    run $option convert utf-8
    gives 0 '# café\n kéy : € \\\\u00e9 \\é\\\n   \\\\u3042\r\n\r' ''
    run $option -f app.properties convert ascii
    gives 0 '# caf\\u00e9\n k\\u00e9y : \\u20ac \\\\u00e9 \\u00e9\\\n   \\\\u3042\r\n\r' ''
    run $option convert -- windows-1252
    gives 0 '# caf\xe9\n k\xe9y : \x80 \\\\u00e9 \\\xe9\\\n   \\\\u3042\r\n\r' ''
done
for option in -r --readable; do
    given '# \\u00e9\nk\\u003d\\u00e9 = \\\\u20ac \\ud83d\\udc1e\n'
    run $option convert utf-8
    gives 0 '# é\nk\\u003dé = \\\\u20ac 🐞\n' ''
    run $option convert windows-1252
    gives 0 '# \xe9\nk\\u003d\xe9 = \\\\u20ac \\ud83d\\udc1e\n' ''
    run $option convert ascii
    gives 0 '# \\u00e9\nk\\u003d\\u00e9 = \\\\u20ac \\ud83d\\udc1e\n' ''
done

# To ASCII and back, in place. What is converted already isn't written.
given '# é\nk = 5 €\n'
run -i app.properties convert ascii
gives 0 '' ''
holds app.properties '# \\u00e9\nk = 5 \\u20ac\n'
inode=$(stat -c %i app.properties)
run -i app.properties convert ascii
gives 0 '' ''
is "$(stat -c %i app.properties)" "$inode"
run -r -i app.properties convert utf-8
gives 0 '' ''
holds app.properties '# é\nk = 5 €\n'
leaves_nothing
# With the encoding that it has no more, a file in UTF-8 is converted once more, and one in ASCII isn't.
for target in utf-8 ascii; do
    given 'k=\xe9\n'
    run -e windows-1252 -i app.properties convert $target
    run -e windows-1252 -i app.properties convert $target
    gives 0 '' ''
    [ $target = ascii ] && holds app.properties 'k=\\u00e9\n' || holds app.properties 'k=Ã©\n'
done
given '\xef\xbb\xbfa = 1\n'
run -i app.properties convert utf-8
gives 0 '' ''
holds app.properties 'a = 1\n'
given '\xff\xfea\0=\0\xe9\0'
run -i app.properties convert utf-8
gives 0 '' ''
holds app.properties 'a=é'

# A malformed escape stays; what is no text is refused, and the file stays.
given '# C:\\users é\n'
run -i app.properties convert ascii
gives 0 '' ''
holds app.properties '# C:\\users \\u00e9\n'
given 'a=1\nb=\xe9\n'
run -i app.properties convert ascii
gives 2 '' 'propedit: app.properties:2: not UTF-8; if it is in windows-1252 or Latin-1, -e windows-1252 reads it\n'
holds app.properties 'a=1\nb=\xe9\n'
given 'a\0\n\0\x3d\xd8\n\0b\0'
for words in 'convert utf-8' 'get a' list; do
    run -e utf-16le $words
    gives 2 '' 'propedit: standard input:2: not UTF-16\n'
done
run -e utf-16le check
gives 1 'standard input:2: not UTF-16\n' ''
run -e utf-16le -i app.properties convert utf-8
gives 2 '' 'propedit: app.properties:2: not UTF-16\n'
holds app.properties 'a\0\n\0\x3d\xd8\n\0b\0'
leaves_nothing

# Java reads the same pairs from each form as it can: ASCII as a stream too.
if [ -e ../Load.class ]; then
    given 'żółw = \\\xc3\xa9 5 € 🐞 \\\\u00e9 \\u0141\n# 🐞\nk\xc3\xa9y\\u003d : \\t|\n'
    java -cp .. Load reader <../input >../before
    run convert ascii
    gives 0 "$(cat ../output | sed 's/\\/\\\\/g')\n" ''
    cp ../output ../converted
    for way in stream reader bundle; do
        command="java Load $way, converted"
        java -cp .. Load $way <../converted >../after
        is "$(cat ../after)" "$(cat ../before)"
    done
    cp ../converted ../input
    run -r convert utf-8
    command='java Load reader, readable'
    java -cp .. Load reader <../output >../after
    is "$(cat ../after)" "$(cat ../before)"
fi

# What is not UTF-8, where that is in force

given 'a = 1\n# x\nb = caf\xe9\nc = \xff\n'
for line in 'get a' 'get absent' '-d 1 get absent' list 'list q' 'set a 2' 'remove absent'; do
    run $line
    gives 2 '' 'propedit: standard input:3: not UTF-8; if it is in windows-1252 or Latin-1, -e windows-1252 reads it\n'
    run -f app.properties $line
    gives 2 '' 'propedit: app.properties:3: not UTF-8; if it is in windows-1252 or Latin-1, -e windows-1252 reads it\n'
    run -e windows-1252 $line
    [ "$status" != 2 ] || fail "$(cat ../errors)"
    count=$((count + 1))
done
run check
gives 1 'standard input:3: not UTF-8; if it is in windows-1252 or Latin-1, -e windows-1252 reads it\nstandard input:4: not UTF-8\n' ''
run -e windows-1252 check
gives 0 '' ''
given '\xef\xbb\xbfa=\xe9'
run -e windows-1252 get a
gives 2 '' 'propedit: standard input:1: not UTF-8, though a byte order mark says so\n'
run check
gives 1 'standard input:1: begins with a byte order mark, which Java reads as part of a key\nstandard input:1: not UTF-8, though a byte order mark says so\n' ''

# UTF-16 whose byte order mark is missing, taken as UTF-8

zero='U+0000; if this is UTF-16, -e utf-16le or -e utf-16be reads it'
given '# x\n\0k\0=\00001\0\n\0'
for line in 'get k' 'get absent' '-d 1 get absent' list 'list q' 'set k 2' 'set k 2 remove a' 'remove absent'; do
    run $line
    gives 2 '' "propedit: standard input:2: $zero\n"
    run -f app.properties $line
    gives 2 '' "propedit: app.properties:2: $zero\n"
done
run -i app.properties set k 2
gives 2 '' "propedit: app.properties:2: $zero\n"
holds app.properties '# x\n\0k\0=\00001\0\n\0'
leaves_nothing
run -f app.properties check
gives 1 "app.properties:2: $zero\n" ''
given 'a=\xff\n\0\n'
run get a
gives 2 '' "propedit: standard input:2: $zero\n"
given 'k\0=\00001\0\n\0'
run check
gives 1 "standard input:1: $zero\n" ''
run -e utf-16le get k
gives 0 '1\n' ''
given '\0k\0=\00001\0\n'
run check
gives 1 "standard input:1: $zero\n" ''
run -e utf-16be get k
gives 0 '1\n' ''
given 'k=a\0b\n'
run -z -e windows-1252 get k
gives 0 'a\0b\0' ''
run -e windows-1252 set k c
gives 0 'k=c\n' ''
# Two files with byte order marks, one after the other
printf '\xef\xbb\xbfa=1\n' >one.properties
cat one.properties one.properties >two.properties
run check --pairs two.properties
gives 1 'two.properties:1: begins with a byte order mark, which Java reads as part of a key\ntwo.properties:2: has U+FEFF, a byte order mark that is not at the front\n' ''
rm one.properties two.properties
given '\xef\xbb\xbfk=a\0b\n'
run check
gives 1 'standard input:1: begins with a byte order mark, which Java reads as part of a key\n' ''
run set k c
gives 0 '\xef\xbb\xbfk=c\n' ''

# Malformed escapes

given 'a = 1\nb = \\uz\n'
for line in 'get a' list 'set a 2' 'remove a'; do
    run $line
    gives 2 '' 'propedit: standard input:2: Malformed \\uxxxx encoding: not enough digits.\n'
done
given '# C:\\users\nport = 80\n! \\u12\n'
run get port
gives 0 '80\n' ''
run list
gives 0 'port\n' ''
run set port 8080 remove none
gives 0 '# C:\\users\nport = 8080\n! \\u12\n' ''
run -i app.properties set port 8080
gives 0 '' ''
holds app.properties '# C:\\users\nport = 8080\n! \\u12\n'

given 'a = 1\n\n# C:\\users\nb = \\uz\n'
for line in 'get a' list 'set a 2' 'remove a'; do
    run -f app.properties $line
    gives 2 '' 'propedit: app.properties:4: Malformed \\uxxxx encoding: not enough digits.\n'
done
given 'a = \\ud800\n'
run get a
gives 2 '' 'propedit: standard input:1: Malformed \\uxxxx encoding: invalid character.\n'
given 'a = \\uz\nb = \xff\n'
run get a
gives 2 '' 'propedit: standard input:2: not UTF-8; if it is in windows-1252 or Latin-1, -e windows-1252 reads it\n'

# Wrong arguments: the message names the word, and the usage is that of the command that was meant.

given 'a = 1\n'
more='[EDIT ..]'
edits="Usage: propedit set [OPTION ..] KEY VALUE $more
       propedit remove [OPTION ..] KEY $more
       propedit rename [OPTION ..] OLD NEW $more
       propedit set-comment [OPTION ..] KEY TEXT $more"
all="Usage: propedit get [OPTION ..] KEY ..
       propedit list [OPTION ..] [PREFIX]
       propedit comment [OPTION ..] KEY
       propedit check [OPTION ..] [FILE ..]
       propedit diff [OPTION ..] OLD NEW
       propedit set [OPTION ..] KEY VALUE $more
       propedit remove [OPTION ..] KEY $more
       propedit rename [OPTION ..] OLD NEW $more
       propedit set-comment [OPTION ..] KEY TEXT $more
       propedit merge [OPTION ..] FILE
       propedit convert [OPTION ..] ENCODING
       propedit help [COMMAND]"
shape() {
    echo "Usage: $(grep -o "propedit $1 .*" <<<"$all")"
}
targets='utf-8, iso-8859-1, windows-1252 or ascii'
is_refused "'convert' requires an ENCODING: $targets" "$(shape convert)" convert
is_refused "cannot convert to 'utf-16le'; use $targets" "$(shape convert)" convert utf-16le
kinds='byte-order-mark, utf-32-mark, u-feff, non-ascii, read-otherwise, looks-like-utf-8, blank-after-backslash, backslash-at-end, repeated-key, missing-key, surplus-key'
for word in zero ill-formed; do
    is_refused "'$word' cannot be ignored: all other commands refuse such a file; use $kinds" "$(shape check)" check --ignore $word one.properties
done
required="all other commands but convert refuse such a file; '--pairs' passes over those in comments"
is_refused "'malformed-escape' cannot be ignored: $required" "$(shape check)" check --ignore u-feff,malformed-escape
is_refused "unknown kind 'malformed_escape'; 'malformed-escape' cannot be ignored: $required" "$(shape check)" \
    check --ignore malformed_escape
is_refused "unknown kind 'bom'; use $kinds" "$(shape check)" check --ignore bom
is_refused "unknown kind ''; use $kinds" "$(shape check)" check --ignore u-feff,
is_refused "unknown kind 'Repeated_Keys'; use $kinds" "$(shape check)" check --ignore Repeated_Keys
is_refused "unknown kind 'repeated'; did you mean 'repeated-key'?" "$(shape check)" check --ignore u-feff,repeated
is_refused "unknown kind 'U_FEFF'; did you mean 'u-feff'?" "$(shape check)" check --ignore=U_FEFF
is_refused "the option '--ignore KIND' requires a KIND" "$(shape check)" check --ignore=
is_refused "the option '--ignore KIND' is given twice" "$(shape check)" --ignore u-feff check --ignore u-feff
is_refused "the option '--ignore KIND' cannot be used with 'get'" "$(shape get)" --ignore u-feff get a
is_refused "cannot convert to 'latin1'; did you mean 'iso-8859-1'?" "$(shape convert)" convert latin1
is_refused "cannot convert to 'UTF_8'; did you mean 'utf-8'?" "$(shape convert)" convert UTF_8
is_refused "cannot convert to 'us-ascii'; did you mean 'ascii'?" "$(shape convert)" convert us-ascii
for option in -a '-d VALUE' -z --create; do
    is_refused "the option '$option' cannot be used with 'convert'" "$(shape convert)" -i app.properties ${option/VALUE/x} \
        convert utf-8
done
for words in 'get a' list check 'set a 1' 'remove a'; do
    is_refused "the option '-r' cannot be used with '${words%% *}'" "$(shape ${words%% *})" -r $words
done
is_refused 'no command' "$all"
is_refused 'no command' "$all" -f app.properties
is_refused "no command; the option '-e NAME' took 'get' as its value" "$(shape get)" -e get
is_refused "unexpected '--' before the command" "$all" --
is_refused "unexpected '--' before the command" "$(shape get)" -- get a
is_refused "unknown command 'gett'; did you mean 'get'?" "$(shape get)" gett a
is_refused "unknown command 'GET'; did you mean 'get'?" "$(shape get)" GET a
for word in edit replace change; do
    is_refused "unknown command '$word'; did you mean 'set'?" "$(shape set)" $word a 1
done
is_refused "unknown command 'HELP'; did you mean 'help'?" "$(shape help)" HELP
is_refused "unknown command 'gett'; did you mean 'get'?" "$(shape get)" help gett
is_refused "unexpected 'set': 'help' takes one argument" "$(shape help)" help get set
is_refused "the option '-f FILE' cannot be used with 'help'" "$(shape help)" -f app.properties help
is_refused "unknown command 'gett'; did you mean 'get'?" "$(shape get)" -d list gett a
is_refused "unknown command 'version'; did you mean '--version'?" "$all" version
for option in '-e NAME' '-d VALUE' '--file FILE'; do
    is_refused "unknown command 'k'; the option '$option' took 'get' as its value" "$(shape get)" ${option% *} get k
done
is_refused "unknown command 'utf-8'; a file is named as in '-f utf-8 get'" "$(shape get)" utf-8 get a
is_refused "unknown command 'port'" "$all" port
is_refused "unknown command '-'" "$all" -
is_refused "unknown command 'app.properties'; a file is named as in '-f app.properties get'" "$(shape get)" \
    app.properties get port
is_refused "unknown command 'get.properties'; a file is named as in '-f get.properties list'" "$(shape list)" \
    get.properties list
is_refused "unknown command 'app.properties'; a file is named as in '-i app.properties set'" "$(shape set)" \
    app.properties set port 1
for word in delete del rm unset; do
    is_refused "unknown command '$word'; did you mean 'remove'?" "$(shape remove)" -f app.properties $word port
    is_refused "unknown edit '$word'; did you mean 'remove'?" "$edits" set a 1 $word b
done
is_refused "'get' requires a KEY" "$(shape get)" get
is_refused "unexpected 'b': 'list' takes one argument; '-f FILE' names a file" "$(shape list)" list a b
first='options come before the first KEY'
dashes='that begins with a dash comes after '"'--'"
for option in -x -v -1 -Xmx1g --create ---; do
    is_refused "unknown option '$option' of 'get'; a key $dashes" "$(shape get)" get $option k
done
for words in 'set a 1' 'remove a'; do
    is_refused "unknown option '-z' of '${words%% *}'; a key $dashes" "$(shape ${words%% *})" ${words%% *} -z ${words#* }
done
for option in -zq -zx -z=1; do
    is_refused "unknown option in '$option' of 'get'; a key $dashes" "$(shape get)" get $option k
done
is_refused "unknown option '--fil' of 'get'; a key $dashes; did you mean '--file'?" "$(shape get)" get --fil=x k
is_refused "unknown option '--val' of 'get'; a key $dashes" "$(shape get)" get --val k
is_refused "unknown option '-i' of 'get'; a key $dashes; '-f FILE' reads a file" "$(shape get)" get -i app.properties k
is_refused "unknown option '-a' of 'list'; a prefix $dashes" "$(shape list)" list -a
is_refused "unknown option '-u' of 'check'; a file $dashes" "$(shape check)" -f app.properties check -u
is_refused "unknown option '-a' of 'convert'" "$(shape convert)" convert -a utf-8
is_refused "unknown option '-q' of 'help'" "$(shape help)" help -q
is_refused "unknown option '-q' of 'get'; a key $dashes" "$(shape get)" get -q a
is_refused "the option '--quiet' takes no value" "$(shape check)" check --quiet=1
is_refused "unexpected '-v': options of 'list' come before the first argument" "$(shape list)" list a -v
is_refused "unexpected '-i': options of 'convert' come before the first argument" "$(shape convert)" convert ascii -i app.properties
is_refused "the option '-z' is given twice" "$(shape get)" -z get -z k
is_refused "the option '--file FILE' is given twice" "$(shape get)" -f a get --file b k
is_refused "'get' requires a KEY; a key $dashes" "$(shape get)" get -d k
is_refused "'set' requires a KEY; a key $dashes" "$(shape set)" set -i app.properties
is_refused "'set a' requires a VALUE; a key $dashes" "$(shape set)" set -i app.properties a
is_refused "'set a' requires a VALUE" "$(shape set)" set -i app.properties -- a
is_refused "'set -x=1' requires a VALUE; did you mean 'set -- -x 1'?" "$(shape set)" set -- -x=1
is_refused "unknown command '--'" "$all" help -- --
is_refused "unexpected '-h': 'help' takes one argument" "$(shape help)" help get -h
is_refused "'set a=1 b=2': did you mean 'set a 1 set b 2'? For the key 'a=1', write 'set -- a=1 b=2'" "$(shape set)" \
    set -i app.properties a=1 b=2
run get k -z
gives 1 '' "propedit: no pair has the key '-z'; options come before the first KEY\n"
run check app.properties -z
gives 2 '' 'propedit: -z: No such file or directory\n'
run check -- -z
gives 2 '' 'propedit: -z: No such file or directory\n'
for words in set 'set --'; do
    is_refused "'set' requires a KEY" "$(shape set)" $words
done
for words in 'set a' 'set -- a' 'set a 1 set a'; do
    is_refused "'set a' requires a VALUE" "$(shape set)" $words
done
is_refused "'set port=8080' requires a VALUE; did you mean 'set port 8080'?" "$(shape set)" -i app.properties set port=8080
for words in remove 'remove --' 'set a 1 remove'; do
    is_refused "'remove' requires a KEY" "$(shape remove)" $words
done
for words in rename 'rename --' 'set a 1 rename'; do
    is_refused "'rename' requires a KEY" "$(shape rename)" $words
done
for words in 'rename a' 'rename -- a' 'set a 1 rename a'; do
    is_refused "'rename a' requires a new KEY" "$(shape rename)" $words
done
is_refused "'rename a' requires a new KEY; a key $dashes" "$(shape rename)" rename -x a
for word in mv move; do
    is_refused "unknown command '$word'; did you mean 'rename'?" "$(shape rename)" -f app.properties $word a b
    is_refused "unknown edit '$word'; did you mean 'rename'?" "$edits" set a 1 $word a b
done
for words in 'set-comment a' 'set-comment -- a' 'set a 1 set-comment a'; do
    is_refused "'set-comment a' requires a TEXT" "$(shape set-comment)" $words
done
is_refused "'set comment': did you mean 'set-comment'?" "$(shape set-comment)" set comment a b
is_refused "unknown option '--set' of 'comment'; a key $dashes; did you mean 'set-comment'?" "$(shape comment)" comment --set a b
is_refused "unknown option '--comment' of 'set'; a key $dashes; did you mean 'set-comment'?" "$(shape set)" set --comment a b
is_refused "unknown option '--comment' of 'remove'; a key $dashes; did you mean '--with-comment'?" "$(shape remove)" remove --comment a
is_refused "'merge' requires a FILE" 'Usage: propedit merge [OPTION ..] FILE' merge -x
is_refused "'merge -' reads standard input; '-f FILE' or '-i FILE' names the file to change" \
    'Usage: propedit merge [OPTION ..] FILE' merge -z -
is_refused "the option '-x' cannot be used with '--known'" 'Usage: propedit merge [OPTION ..] FILE' merge -x --known a

# KEY and VALUE that both look like NAME=TEXT are refused, unless -- comes before them.
for words in 'a=1 b=2' 'a=x b==x'; do
    set -- $words
    is_refused "'set $1 $2': did you mean 'set ${1/=/ } set ${2/=/ }'? For the key '$1', write 'set -- $1 $2'" "$(shape set)" \
        -i app.properties set $words
done
for words in 'a=1 b=2 c=3' 'a=1 b=2 set c 3'; do
    is_refused "'set a=1 b=2': did you mean 'set a 1 set b 2 set c 3'? For the key 'a=1', write 'set -- a=1 b=2 ..'" "$(shape set)" \
        -i app.properties set $words
done
is_refused "'set a= b=1 2': did you mean 'set a \"\" set b \"1 2\"'? For the key 'a=', write 'set -- a= \"b=1 2\"'" "$(shape set)" set a= 'b=1 2'
is_refused "'set a=' requires a VALUE; did you mean 'set a \"\"'?" "$(shape set)" set a=
run set -- a=1 b=2
gives 0 'a = 1\na\\=1 = b=2\n' ''
run set -f app.properties -- a=1 b=2
gives 0 'a = 1\na\\=1 = b=2\n' ''
run set a=1 b set a '=2' set '=c' b=2 set -- 'd e=' b=2
gives 0 'a = =2\na\\=1 = b\n\\=c = b=2\nd\\ e\\= = b=2\n' ''
run set -- -- 1 set -- set remove remove -- a
gives 0 '-- = 1\nset = remove\n' ''
edit="each edit begins with set, remove, rename or set-comment, $first, and a text of several words needs quotes"
is_refused "unknown edit 'get': $edit" "$edits" set a 1 get a
is_refused "unknown edit 'c': $edit" "$edits" rename a b c
for option in '-f FILE' '-i FILE' '-e NAME' '-d VALUE'; do
    is_refused "the option '$option' requires a ${option#* }" "$all" ${option% *}
done
is_refused "the option '--file FILE' requires a FILE" "$all" --file
is_refused "the option '-f FILE' requires a FILE" "$all" -f '' get a
is_refused "the option '--in-place FILE' requires a FILE" "$all" --create --in-place= set a 1
is_refused "the option '--null' takes no value" "$all" --null=1 list
is_refused "unknown option in '-u'" "$all" -u get a
is_refused "unknown option in '-zu'" "$all" -zu list
is_refused "unknown option '--fil'; did you mean '--file'?" "$all" --fil app.properties get a
labels='use utf-8, iso-8859-1, windows-1252, utf-16le or utf-16be'
is_refused "unknown encoding 'latin2'; $labels" "$(shape get)" -e latin2 get a
is_refused "unknown encoding 'latin-1'; did you mean 'latin1'?" "$(shape get)" -e latin-1 -f app.properties get port
is_refused "unknown encoding 'Latin_1'; did you mean 'latin1'?" "$(shape list)" -e Latin_1 list
is_refused "unknown encoding 'iso8859_1'; did you mean 'iso-8859-1'?" "$(shape check)" -e iso8859_1 check
is_refused "unknown encoding 'utf_8'; did you mean 'utf-8'?" "$(shape set)" -e utf_8 set a 1
is_refused "unknown encoding '--'; $labels" "$(shape get)" -e -- get a
# No label that means ASCII is taken, since each stands for windows-1252.
for label in ascii US-ASCII ANSI_X3.4-1968 us_ascii; do
    ascii="encoding '$label': ASCII is read as windows-1252; write '-e windows-1252' if that is meant, \
or '-a check' to find non-ASCII characters"
    is_refused "$ascii" "$(shape check)" -e $label check
    is_refused "$ascii" "$(shape check)" -e $label check app.properties
    is_refused "$ascii" "$(shape set)" -e $label -i app.properties set a 1
done
for option in -z '-e NAME' '-d VALUE' '-f FILE' '-i FILE' --create -a -x; do
    letter=${option% *}
    value=
    [ "$letter" = "$option" ] || value=utf-8
    is_refused "the option '$option' is given twice" "$all" $letter $value $letter $value get a
done
is_refused "the option '-z' is given twice" "$all" -zz list
is_refused "the option '--null' is given twice" "$all" -z --null list
is_refused "the option '-f FILE' cannot be used with '-i FILE'" "$(shape set)" -f a -i a set a 1
is_refused "the option '-f FILE' cannot be used with '-i FILE'" "$(shape set)" -i a -f a set a 1
is_refused "the option '-f FILE' cannot be used with 'check FILE ..'" "$(shape check)" \
    -f app.properties check app.properties
for words in 'set a 1' 'remove a'; do
    is_refused "the option '-v' requires '-i FILE'" "$(shape ${words%% *})" -v $words
done
for words in 'get a' list; do
    is_refused "the option '-a' cannot be used with '${words%% *}'" "$(shape ${words%% *})" -a $words
done
for words in 'remove a' 'remove a remove b'; do
    is_refused "the option '-a' requires a 'set', 'rename' or 'set-comment'" "$(shape remove)" -a $words
done
for words in 'set a 1' 'rename a b' 'set-comment a b' 'set a 1 rename a b'; do
    is_refused "the option '--with-comment' requires a 'remove'" "$(shape ${words%% *})" --with-comment $words
done
for words in 'get a' list 'set a 1' 'remove a'; do
    is_refused "the option '-q' cannot be used with '${words%% *}'" "$(shape ${words%% *})" -q $words
done
for words in 'get a' list check; do
    is_refused "the option '-x' cannot be used with '${words%% *}'" "$(shape ${words%% *})" -x $words
done
is_refused "the option '-x' cannot be used with '--create'" "$(shape set)" -x --create -i new.properties set a 1
file="requires a file, but '-' is standard input; './-' names a file"
for words in 'set a 1' 'remove a' 'convert ascii'; do
    is_refused "the option '-i FILE' $file" "$(shape ${words%% *})" -i - $words
done
for words in 'get a' list check; do
    is_refused "the option '-i FILE' cannot be used with '${words%% *}'; '-f FILE' reads a file" "$(shape ${words%% *})" \
        -i app.properties $words
    is_refused "the option '--create' cannot be used with '${words%% *}'" "$(shape ${words%% *})" --create $words
    is_refused "the option '--create' cannot be used with '${words%% *}'" "$(shape ${words%% *})" --create -f a $words
done
for words in list check 'set a 1' 'remove a'; do
    is_refused "the option '-d VALUE' cannot be used with '${words%% *}'" "$(shape ${words%% *})" -d 1 $words
done
for words in check 'set a 1' 'remove a'; do
    is_refused "the option '-z' cannot be used with '${words%% *}'" "$(shape ${words%% *})" -z $words
done
for words in 'set a 1' 'remove a'; do
    for options in --create '--create -f app.properties'; do
        is_refused "the option '--create' requires '-i FILE'" "$(shape ${words%% *})" $options $words
    done
done
holds app.properties 'a = 1\n'
# Control characters and bytes that are no characters are printed as escapes.
is_refused "unknown command '\u{1b}[2J\u{a}\u{85}é'" "$all" $'\e[2J\n\u0085é'
is_refused "'set \u{9}' requires a VALUE" "$(shape set)" set $'\t'
run -f $'no\twhere\n' get a
gives 2 '' 'propedit: no\\u{9}where\\u{a}: No such file or directory\n'
run -i $'no\twhere' set a 1
gives 2 '' 'propedit: no\\u{9}where: No such file or directory\n'
printf 'a\na\n' >$'two\nlines'
run check $'two\nlines'
gives 1 'two\\u{a}lines:2: repeats the key \x27a\x27 of line 1\n' ''
touch $'two\nlines.propedit'
run -i $'two\nlines' set b 1
gives 2 '' 'propedit: two\\u{a}lines: two\\u{a}lines.propedit exists: another run is at work, or was killed; if none is, remove it\n'
rm $'two\nlines' $'two\nlines.propedit'
is_refused "the argument 'éa\xff\u{a}\xc3' is not UTF-8" "$all" get $'éa\xff\n\xc3'
is_refused "the argument '\xe9' is not UTF-8" "$all" -f $'\xe9' check
is_refused "the argument '\xe9' is not UTF-8" "$all" -e $'\xe9' check app.properties
is_refused "the argument '--enc=\xe9' is not UTF-8" "$all" check --enc=$'\xe9' app.properties
is_refused "the argument '-q\xe9' is not UTF-8" "$all" check -q$'\xe9' app.properties
# A check of files goes on after such a name. The name - is that of standard input.
given 'a = 1\na = 2\n'
run check app.properties $'a\n\xe9' -
gives 2 'app.properties:2: repeats the key \x27a\x27 of line 1\nstandard input:2: repeats the key \x27a\x27 of line 1\n' \
    'propedit: a\\u{a}\\xe9: this name is not UTF-8\n'

# Files that can't be read, and standard streams that fail

run -f nowhere get a
gives 2 '' 'propedit: nowhere: No such file or directory\n'
run -f app.properties/a get a
gives 2 '' 'propedit: app.properties/a: Not a directory\n'
run -f . get a
gives 2 '' 'propedit: .: Is a directory\n'
command='propedit get a <&-'
../propedit get a <&- >../output 2>../errors
status=$?
gives 2 '' 'propedit: standard input: Bad file descriptor\n'
for line in 'get a' list 'set a 2' 'convert ascii' --help --version; do
    command="propedit $line >/dev/full"
    ../propedit $line <../input >/dev/full 2>../errors
    is "$? $(cat ../errors)" '2 propedit: standard output: No space left on device'
done
for line in 'get a' list 'set a 2' check 'convert ascii'; do
    command="propedit $line <."
    ../propedit $line <. >../output 2>../errors
    status=$?
    gives 2 '' 'propedit: standard input: Is a directory\n'
done
command='propedit list | head -c 1'
seq -f 'key%.0f = 1' 200000 | ../propedit list 2>../errors | head -c 1 >../output
status=${PIPESTATUS[1]}
# A pipe that nobody reads is no news, as for cat, but the output isn't whole.
gives 2 'k' ''
given 'a = 1\na = 2\n'
for line in 'get a' '-v list' check 'set a 2' 'convert ascii' --help 'check app.properties'; do
    command="propedit $line | true"
    { sleep 0.1; ../propedit $line <../input 2>../errors; echo $? >../ended; } | true
    is "$(cat ../ended) $(cat ../errors)" '2 '
done

# Standard output that is the file. A shell has emptied it for > before the program begins.
given 'a = 1\n'
ln -s app.properties link.properties
for name in app.properties link.properties; do
    for line in "-f $name get a" "-f $name list" "-f $name check" "-f $name set a 2" "-f $name convert ascii" "check $name" \
        "-i $name set a 2" "--create -i $name set b 2" "-f nowhere merge $name" "-zi nowhere merge $name"; do
        command="propedit $line >>app.properties"
        ../propedit $line >>app.properties 2>../errors
        is "$? $(cat ../errors)" "2 propedit: $name: is also standard output"
        holds app.properties 'a = 1\n'
    done
done
command='propedit set a 2 <app.properties 1<>app.properties'
../propedit set a 2 <app.properties 1<>app.properties 2>../errors
is "$? $(cat ../errors)" '2 propedit: standard input: is also standard output'
holds app.properties 'a = 1\n'
command='propedit check nowhere app.properties - >>app.properties'
../propedit check nowhere app.properties - <../input >>app.properties 2>../errors
is "$? $(cat ../errors)" $'2 propedit: nowhere: No such file or directory\npropedit: app.properties: is also standard output'
holds app.properties 'a = 1\n'
for line in '-f app.properties set b 2' '-i app.properties set b 2'; do
    command="propedit $line >app.properties"
    ../propedit $line >app.properties 2>../errors
    is "$? $(cat ../errors)" '2 propedit: app.properties: is also standard output'
    holds app.properties ''
done
command='propedit get a </dev/null >/dev/null'
../propedit get a </dev/null >/dev/null 2>../errors
is "$? $(cat ../errors)" '1 '
given 'a = 1\n'
command='propedit get a, which prints on another file'
../propedit -f app.properties get a >../output 2>../errors
status=$?
gives 0 '1\n' ''
rm link.properties
command='propedit check >/dev/full'
printf 'a = 1\na = 2\n' | ../propedit check >/dev/full 2>../errors
is "$? $(cat ../errors)" '2 propedit: standard output: No space left on device'
command='propedit get b >/dev/full'
../propedit get b <../input >/dev/full 2>../errors
is "$? $(cat ../errors)" '1 '
command='propedit get a 2>/dev/full'
printf 'a = \\uz' | ../propedit get a 2>/dev/full >../output
is "$? $(cat ../output)" '2 '

# In place

given '# ports\nport = 80\nhost = a\n'
run -i app.properties set port 8080 remove host
gives 0 '' ''
holds app.properties '# ports\nport = 8080\n'
leaves_nothing
run -e windows-1252 -i app.properties set -- -i ó
gives 0 '' ''
holds app.properties '# ports\nport = 8080\n-i = \xf3\n'
for mode in 600 640 664 4755; do
    given 'a = 1\n'
    chmod "$mode" app.properties
    run -i app.properties set a 2
    gives 0 '' ''
    is "$(stat -c %a app.properties)" "$mode"
done
given 'a = 1\n'
chmod 666 app.properties
(umask 077; ../propedit -i app.properties set a 2)
command='umask 077; propedit -i app.properties set a 2'
is "$(stat -c %a app.properties)" 666
given ''
run -i app.properties set a 1
gives 0 '' ''
holds app.properties 'a=1\n'

# Nothing is written where nothing changes.
given 'a : \\u0031\nb = 2\n'
before=$(stat -c '%i %y' app.properties)
for line in 'set a 1' 'remove absent' 'set b 3 set b 2'; do
    run -i app.properties $line
    gives 0 '' ''
    is "$(stat -c '%i %y' app.properties)" "$before"
done

# Nothing is written where an edit is refused.
given 'a=1\nb = \xff\n'
before=$(stat -c '%i %y' app.properties)
run -i app.properties set a 2
gives 2 '' 'propedit: app.properties:2: not UTF-8; if it is in windows-1252 or Latin-1, -e windows-1252 reads it\n'
is "$(stat -c '%i %y' app.properties)" "$before"
given 'a=1\nb = \\user\n'
run -i app.properties set a 2
gives 2 '' 'propedit: app.properties:2: Malformed \\uxxxx encoding: not enough digits.\n'
holds app.properties 'a=1\nb = \\user\n'
given 'a\0=\0'
run -e utf-16le -i app.properties set a 2
gives 2 '' 'propedit: app.properties: this command does not support UTF-16; propedit convert utf-8 converts it\n'
holds app.properties 'a\0=\0'
leaves_nothing

# The target of a symbolic link is edited.
given 'a = 1\n'
mkdir sub links
mv app.properties sub/real.properties
ln -s ../sub/real.properties links/one
ln -s one links/two
run -i links/two set a 2
gives 0 '' ''
holds sub/real.properties 'a = 2\n'
is "$(readlink links/one) $(readlink links/two)" '../sub/real.properties one'
leaves_nothing
ln -s nowhere links/broken
run -i links/broken set a 2
gives 2 '' 'propedit: links/broken: the target of this symbolic link is missing\n'
[ ! -e links/nowhere ] || fail 'the target of a link was made'

# A missing file is made where it is asked for.
rm -f app.properties
run -i app.properties --create remove a
gives 0 '' ''
[ ! -e app.properties ] || fail 'a file was made where nothing changes'
(umask 027; ../propedit --create -i app.properties set a 1 set b 2)
command='propedit --create -i app.properties set a 1 set b 2'
holds app.properties 'a=1\nb=2\n'
is "$(stat -c '%a %h' app.properties)" '640 1'
run --create -i app.properties set a 2
gives 0 '' ''
holds app.properties 'a=2\nb=2\n'
run --create -i links/broken set a 2
gives 2 '' 'propedit: links/broken: the target of this symbolic link is missing\n'
[ ! -e links/nowhere ] || fail 'the target of a link was made'
run --create -i nowhere/app.properties set a 2
gives 2 '' 'propedit: nowhere/app.properties: cannot create nowhere/app.properties.propedit: No such file or directory\n'
leaves_nothing

# Another name of the file keeps the old bytes.
given 'a = 1\n'
ln app.properties other.properties
run -i app.properties set a 2
gives 0 '' ''
holds other.properties 'a = 1\n'
holds app.properties 'a = 2\n'
rm other.properties

# What is no regular file, or isn't there.
run -i nowhere set a 2
gives 2 '' 'propedit: nowhere: No such file or directory\n'
run -i nowhere remove a
gives 2 '' 'propedit: nowhere: No such file or directory\n'
run -i sub set a 2
gives 2 '' 'propedit: sub: not a regular file\n'
run -i /dev/null set a 2
gives 2 '' 'propedit: /dev/null: not a regular file\n'
mkfifo pipe
run -i pipe set a 2
gives 2 '' 'propedit: pipe: not a regular file\n'

# A temporary file of another run is not written over.
given 'a = 1\n'
echo left >app.properties.propedit
held='app.properties.propedit exists: another run is at work, or was killed; if none is, remove it'
run -i app.properties set a 2
gives 2 '' "propedit: app.properties: $held\n"
holds app.properties 'a = 1\n'
holds app.properties.propedit 'left\n'
run -i app.properties set b 2
gives 2 '' "propedit: app.properties: $held\n"
rm app.properties.propedit
ln -s ../elsewhere app.properties.propedit
run -i app.properties set a 2
gives 2 '' "propedit: app.properties: $held\n"
[ ! -e ../elsewhere ] || fail 'a link was followed'
rm app.properties.propedit

# A file that can't grow: the new file is removed, and the old one stays.
given 'a = 1\n'
command='ulimit -f 1; propedit -i app.properties set a ..'
(trap '' XFSZ; ulimit -f 1; exec ../propedit -i app.properties set a "$(printf '%05000d' 0)") >../output 2>../errors
status=$?
gives 2 '' 'propedit: app.properties: cannot write app.properties.propedit: File too large\n'
holds app.properties 'a = 1\n'
leaves_nothing

# What is synced and in which order, and calls of the system that fail.
# Runs the program with these calls traced. The first word is what strace injects, if anything.
traced() {
    local injected=$1
    shift
    command="strace ${injected:+-e inject=$injected }propedit $*"
    strace -qq -y -a 1 -o ../trace -e "trace=fsync,rename,link,unlink${injected:+,${injected%%:*}}" \
        ${injected:+-e "inject=$injected"} \
        ../propedit "$@" <../input >../output 2>../errors
    status=$?
}

# The last run made exactly these calls. HERE is this folder.
calls() {
    sed -E "s|[0-9]+<([^>]*)>|\1|; s|$(pwd -P)|HERE|g" ../trace >../calls
    printf '%s\n' "$@" | cmp -s - ../calls || fail "it called: $(cat ../calls)"
    count=$((count + 1))
}

if strace -o ../trace true 2>../errors; then
    given 'a = 1\n'
    traced '' -i app.properties set a 2
    gives 0 '' ''
    calls 'fsync(HERE/app.properties.propedit) = 0' 'rename("app.properties.propedit", "app.properties") = 0' 'fsync(HERE) = 0'
    traced '' -i app.properties set a 2
    gives 0 '' ''
    is "$(cat ../trace)" ''
    traced '' -i sub/real.properties set a 3
    gives 0 '' ''
    calls 'fsync(HERE/sub/real.properties.propedit) = 0' \
        'rename("sub/real.properties.propedit", "sub/real.properties") = 0' 'fsync(HERE/sub) = 0'
    traced '' -i links/two set a 4
    gives 0 '' ''
    calls 'fsync(HERE/sub/real.properties.propedit) = 0' \
        'rename("HERE/sub/real.properties.propedit", "HERE/sub/real.properties") = 0' 'fsync(HERE/sub) = 0'
    traced '' --create -i made.properties set a 1
    gives 0 '' ''
    calls 'fsync(HERE/made.properties.propedit) = 0' 'link("made.properties.propedit", "made.properties") = 0' \
        'unlink("made.properties.propedit") = 0' 'fsync(HERE) = 0'
    holds made.properties 'a=1\n'

    # A folder that can't be synced: no error where the file system can't do so at all.
    traced fsync:error=EIO:when=2 -i app.properties set a 3
    gives 2 '' "propedit: app.properties: is replaced, but its folder can't be synced: Input/output error\n"
    holds app.properties 'a = 3\n'
    rm made.properties
    traced fsync:error=EIO:when=2 --create -i made.properties set a 1
    gives 2 '' "propedit: made.properties: is made, but its folder can't be synced: Input/output error\n"
    holds made.properties 'a=1\n'
    for error in EINVAL EOPNOTSUPP; do
        given 'a = 1\n'
        traced fsync:error=$error:when=2 -i app.properties set a 2
        gives 0 '' ''
        holds app.properties 'a = 2\n'
    done
    leaves_nothing

    # Before the new file has its name, nothing is touched.
    for error in EIO EINVAL; do
        traced fsync:error=$error:when=1 -i app.properties set a 3
        [ "$status" = 2 ] && grep -q ': cannot write app.properties.propedit: ' ../errors || fail "$(cat ../errors)"
        holds app.properties 'a = 2\n'
    done
    traced rename:error=EACCES -i app.properties set a 3
    gives 2 '' 'propedit: app.properties: cannot rename app.properties.propedit: Permission denied\n'
    holds app.properties 'a = 2\n'
    rm made.properties
    traced link:error=EPERM --create -i made.properties set a 1
    gives 2 '' 'propedit: made.properties: cannot make a hard link to made.properties.propedit: Operation not permitted\n'
    [ ! -e made.properties ] || fail 'a file was made though it has no hard link'
    leaves_nothing
    traced unlink:error=EIO --create -i made.properties set a 1
    gives 2 '' 'propedit: made.properties: is made; made.properties.propedit is left\n'
    holds made.properties 'a=1\n'
    rm made.properties made.properties.propedit

    # A look at the new file that fails says nothing about it: when it was made, before it gets its name, and after a
    # hard link. A file that is gone is no longer there to remove.
    traced statx:error=EIO:when=2 --create -i made.properties set a 1
    gives 2 '' 'propedit: made.properties: cannot access made.properties.propedit: Input/output error\n'
    traced statx:error=EIO:when=3 --create -i made.properties set a 1
    gives 2 '' 'propedit: made.properties: cannot access made.properties.propedit: Input/output error\n'
    [ ! -e made.properties ] || fail 'a file was made'
    leaves_nothing
    traced statx:error=EIO:when=3+ --create -i made.properties set a 1
    gives 2 '' "propedit: made.properties: cannot access made.properties.propedit: Input/output error; \
made.properties.propedit may be left\n"
    rm made.properties.propedit
    traced statx:error=EIO:when=4 --create -i made.properties set a 1
    gives 2 '' 'propedit: made.properties: is made; made.properties.propedit may be left\n'
    holds made.properties 'a=1\n'
    rm made.properties made.properties.propedit
    while read -r first words; do
        given 'a = 1\n'
        traced statx:error=EIO:when=$first+ -i app.properties set a 2
        gives 2 '' "propedit: app.properties: $words: Input/output error; app.properties.propedit may be left\n"
        holds app.properties 'a = 1\n'
        rm app.properties.propedit
    done <<'end'
7 cannot keep the mode
8 cannot be read again
9 cannot be read again
10 cannot access app.properties.propedit
end

    given 'a = 1\n'
    traced rename,unlink:error=EIO -i app.properties set a 2
    gives 2 '' "propedit: app.properties: cannot rename app.properties.propedit: Input/output error; \
app.properties.propedit is left\n"
    holds app.properties 'a = 1\n'
    rm app.properties.propedit

    # A mount point, as the system refuses one.
    busy='is a mount point or in use, so it cannot be replaced; edit a copy, and copy it back with cp'
    given 'a = 1\n'
    traced rename:error=EBUSY -i app.properties set a 2
    gives 2 '' "propedit: app.properties: $busy\n"
    holds app.properties 'a = 1\n'
    leaves_nothing

    # A file that another program makes before the new one gets its name.
    command='another program makes made.properties'
    strace -qq -o ../trace -e trace=link -e inject=link:delay_enter=1000000 \
        ../propedit --create -i made.properties set a 1 <../input >../output 2>../errors &
    while [ ! -e made.properties.propedit ] && kill -0 $! 2>../trace; do
        sleep 0.01
    done
    echo 'b = 3' >made.properties
    wait $!
    status=$?
    gives 2 '' 'propedit: made.properties: was made by another program meanwhile\n'
    holds made.properties 'b = 3\n'
    leaves_nothing
    rm made.properties
else
    echo 'not tried, since strace is not at hand: what is synced, and calls that fail' >&2
fi

# A mount point, and the cure that its message names.
given 'a = 1\n'
printf 'a = 1\n' >mounted
if unshare -m true 2>../trace; then
    command='propedit -i app.properties set a 2, where app.properties is a mount point'
    unshare -m sh -c 'mount --bind mounted app.properties || exit 3
        ../propedit -i app.properties set a 2 2>../errors && exit 4
        cp app.properties copy && ../propedit -i copy set a 2 && cp copy app.properties'
    is "$? $(cat ../errors)" \
        '0 propedit: app.properties: is a mount point or in use, so it cannot be replaced; edit a copy, and copy it back with cp'
    holds mounted 'a = 2\n'
    rm copy
else
    echo 'not tried, since unshare fails: a mount point' >&2
fi
rm mounted
leaves_nothing

# Access control lists, as the manual has them.
given 'a = 1\n'
chmod 600 app.properties
if setfacl -m u:12345:r app.properties 2>../errors; then
    before=$(getfacl -cn app.properties)
    is "$(grep '^group::' <<<"$before")" 'group::---'
    getfacl -p app.properties >../list
    run -i app.properties set a 2
    gives 0 '' ''
    is "$(getfacl -cn app.properties)" $'user::rw-\ngroup::r--\nother::---'
    setfacl --restore=../list
    is "$(getfacl -cn app.properties)" "$before"
    run -f app.properties set a 3
    cat ../output >app.properties
    is "$(getfacl -cn app.properties)" "$before"
    holds app.properties 'a = 3\n'
    mkdir shared
    printf 'a = 1\n' >shared/app.properties
    chmod 640 shared/app.properties
    setfacl -d -m u:12345:rwx shared
    before=$(getfacl -cn shared/app.properties)
    getfacl -p shared/app.properties >../list
    run -i shared/app.properties set a 2
    gives 0 '' ''
    grep -q '^user:12345:rwx.*#effective:r--$' <<<"$(getfacl -cn shared/app.properties)" || fail "$(getfacl shared/app.properties)"
    setfacl --restore=../list
    is "$(getfacl -cn shared/app.properties)" "$before"
else
    echo 'not tried, since setfacl fails: access control lists' >&2
fi

# An edit in place needs no more memory than one that is printed.
peak() {
    command="propedit $*"
    python3 -c 'import resource, subprocess, sys
subprocess.run(sys.argv[1:], stdout=subprocess.DEVNULL, check=True)
print(resource.getrusage(resource.RUSAGE_CHILDREN).ru_maxrss)' ../propedit "$@"
}
if command -v python3 >../trace; then
    seq -f 'some.key.%07.0f = a value of a pair' 1000000 >large.properties
    printed=$(peak -f large.properties set some.key.0000007 x)
    edited=$(peak -i large.properties set some.key.0000007 x)
    [ "$edited" -le $((printed + 2000)) ] || fail "in place $edited KB, printed $printed KB"
    count=$((count + 1))
    is "$(sed -n 7p large.properties)" 'some.key.0000007 = x'
    rm large.properties
else
    echo 'not tried, since python3 is not at hand: peak memory' >&2
fi

# As another user than root, who may write anywhere.
as_user() {
    command="propedit $*"
    if [ "$(id -u)" = 0 ]; then
        setpriv --reuid=65534 --regid=65534 --clear-groups ../propedit "$@" <../input >../output 2>../errors
    else
        ../propedit "$@" <../input >../output 2>../errors
    fi
    status=$?
}
if [ "$(id -u)" != 0 ] || setpriv --reuid=65534 --regid=65534 --clear-groups true; then
    mkdir shut
    printf 'a = 1\n' >shut/app.properties
    chmod 644 shut/app.properties
    chmod 555 shut
    as_user -i shut/app.properties set a 2
    gives 2 '' 'propedit: shut/app.properties: cannot create shut/app.properties.propedit: Permission denied\n'
    holds shut/app.properties 'a = 1\n'
    as_user -i shut/app.properties remove b
    gives 0 '' ''
    mkdir blind
    printf 'a = 1\n' >blind/app.properties
    [ "$(id -u)" != 0 ] || chown -R 65534:65534 blind
    chmod 333 blind
    as_user -i blind/app.properties set a 2
    chmod 755 blind
    gives 2 '' "propedit: blind/app.properties: is replaced, but its folder can't be synced: Permission denied\n"
    holds blind/app.properties 'a = 2\n'
    leaves_nothing
    given 'a = 1\n'
    chmod 000 app.properties
    as_user -i app.properties set a 2
    gives 2 '' 'propedit: app.properties: Permission denied\n'
    as_user -f app.properties get a
    gives 2 '' 'propedit: app.properties: Permission denied\n'
    rm -f app.properties
else
    echo 'not tried, since setpriv fails: a folder that cannot be written'
fi
if [ "$(id -u)" = 0 ] && setpriv --reuid=65534 --regid=65534 --clear-groups true; then
    mkdir open
    chmod 777 open
    printf 'a = 1\n' >open/app.properties
    chmod 666 open/app.properties
    as_user -i open/app.properties set a 2
    gives 2 '' 'propedit: open/app.properties: cannot keep the owner: Operation not permitted\n'
    holds open/app.properties 'a = 1\n'
    leaves_nothing
    chown 65534:12345 open/app.properties
    as_user -i open/app.properties set a 2
    gives 2 '' 'propedit: open/app.properties: cannot keep the group: Operation not permitted\n'
    holds open/app.properties 'a = 1\n'
    chmod 4755 open/app.properties
    run -i open/app.properties set a 2
    gives 0 '' ''
    is "$(stat -c '%u %g %a' open/app.properties)" '65534 12345 4755'
else
    echo 'not tried, since only root can: the owner of a file'
fi

echo "$count checks passed"
