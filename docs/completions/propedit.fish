# Completes propedit and propfilter in fish. Made by tools/completions.py.

# Prints the words that a command takes.
function __propedit_after
    switch $argv[1]
        case get
            string split ' ' 'KEY..'
        case list
            string split ' ' 'PREFIX'
        case comment
            string split ' ' 'KEY'
        case check
            string split ' ' 'FILE..'
        case diff
            string split ' ' 'FILE FILE'
        case set
            string split ' ' 'KEY VALUE EDIT'
        case remove
            string split ' ' 'KEY EDIT'
        case rename
            string split ' ' 'KEY VALUE EDIT'
        case set-comment
            string split ' ' 'KEY VALUE EDIT'
        case merge
            string split ' ' 'FILE'
        case convert
            string split ' ' 'ENCODING'
        case help
            string split ' ' 'TOPIC'
    end
end

# Whether the next word is one of these, or an OPTION of one of these commands. With no argument it prints the file and its
# encoding, a line each.
function __propedit_wants
    set -l wanted COMMAND
    # Options may come before the first word after a command: then it is `open`. At its front, `--` is dropped.
    set -l open 1
    set -l front
    set -l command
    set -l option
    set -l file ''
    set -l encoding utf-8
    for word in (commandline -opc)[2..]
        set -l value
        if set -q option[1]
            set value $word
        else if test -n "$open"; and string match -q -- '--*=*' $word
            set option (string split -m 1 = -- $word)
            set value $option[2]
        else if test -n "$open"; and contains -- $word -f --file -i --in-place -e --encoding -d --default --base --ignore
            set option $word
            continue
        else if test -n "$open"; and string match -q -- '--?*' $word
            continue
        else if test -n "$open"; and test "$word" != --; and string match -q -- '-?*' $word
            set -l parts (string match -r -- '^-[^fied]*([fied])(.*)' $word)
            or continue
            set option -$parts[2]
            test -n "$parts[3]"; or continue
            set value $parts[3]
        else if contains -- "$wanted[1]" COMMAND EDIT
            test -n "$command"; or set command $word
            set wanted (__propedit_after $word)
            set front 1
            continue
        else
            set open
            switch "$front$word/$wanted[1]"
                case '1--/*' '*..'
                case '*'
                    set -e wanted[1]
            end
            set front
            continue
        end
        switch $option[1]
            case -f --file -i --in-place --base
                set file $value
            case -e --encoding
                set encoding $value
        end
        set -e option
    end
    if test "$argv[1]" = OPTION
        test -n "$open"; and contains -- "$command" '' $argv[2..]
    else if set -q argv[1]
        contains -- "$wanted[1]" $argv
    else
        printf '%s\n' (string replace -r '^~/' ~/ -- $file) $encoding
    end
end

function __propedit_keys
    set -l named (__propedit_wants)
    test -f "$named[1]"; and propedit -z -f $named[1] -e $named[2] list 2>/dev/null </dev/null | string split0
end

complete -c propedit -f
complete -c propedit -n '__propedit_wants OPTION get list comment check set remove rename set-comment merge convert' -s f -l file -r -F -d 'Reads FILE instead of standard input'
complete -c propedit -n '__propedit_wants OPTION set remove rename set-comment merge convert' -s i -l in-place -r -F -d 'Changes FILE in place (edits, merge and convert)'
complete -c propedit -n '__propedit_wants OPTION set remove rename set-comment merge' -l create -d 'Makes the FILE of -i if it is missing'
complete -c propedit -n '__propedit_wants OPTION get list comment check diff set remove rename set-comment merge convert' -s e -l encoding -x -a 'utf-8 iso-8859-1 windows-1252 utf-16le utf-16be' -d 'utf-8 (default), iso-8859-1, windows-1252, utf-16le/be'
complete -c propedit -n '__propedit_wants OPTION get' -s d -l default -x -d 'What get prints if no pair has a KEY, with status 0'
complete -c propedit -n '__propedit_wants OPTION get list merge' -s z -l null -d 'A zero byte ends each text of get, list and merge\'s FILE'
complete -c propedit -n '__propedit_wants OPTION list' -s v -l values -d 'Has list print KEY=VALUE; with -z, KEY and VALUE'
complete -c propedit -n '__propedit_wants OPTION list check diff' -l json -d 'Has list, check and diff print JSON'
complete -c propedit -n '__propedit_wants OPTION check set remove rename set-comment merge' -s a -l ascii -d 'Has edits write only ASCII, and check report all else'
complete -c propedit -n '__propedit_wants OPTION set remove rename set-comment merge' -s x -l existing -d 'Refuses edits of a KEY that no pair has, with status 1'
complete -c propedit -n '__propedit_wants OPTION set remove rename set-comment' -l with-comment -d 'Has remove take the comment lines above a pair too'
complete -c propedit -n '__propedit_wants OPTION merge' -l known -d 'Has merge leave out keys that no pair has'
complete -c propedit -n '__propedit_wants OPTION check' -l base -r -F -d 'Has check compare the keys with those of FILE'
complete -c propedit -n '__propedit_wants OPTION check' -l pairs -d 'Has check pass over bad escapes in comments'
complete -c propedit -n '__propedit_wants OPTION check' -l ignore -x -a 'byte-order-mark utf-32-mark u-feff non-ascii read-otherwise looks-like-utf-8 blank-after-backslash backslash-at-end repeated-key missing-key surplus-key' -d 'Has check leave out findings of KIND[,KIND ..]'
complete -c propedit -n '__propedit_wants OPTION check' -s q -l quiet -d 'Has check print nothing: the status tells'
complete -c propedit -n '__propedit_wants OPTION set remove rename set-comment merge' -s v -l verbose -d 'With -i, says on standard error what changed'
complete -c propedit -n '__propedit_wants OPTION convert' -s r -l readable -d 'Has convert write characters in place of escapes'
complete -c propedit -n '__propedit_wants OPTION get list comment check diff set remove rename set-comment merge convert help' -s h -l help -d 'Prints this'
complete -c propedit -n '__propedit_wants OPTION get list comment check diff set remove rename set-comment merge convert help' -s V -l version -d 'Prints the version'
complete -c propedit -n '__propedit_wants COMMAND' -a get -d 'Prints the value of each key'
complete -c propedit -n '__propedit_wants COMMAND' -a list -d 'Prints each key once, or those that begin with PREFIX'
complete -c propedit -n '__propedit_wants COMMAND' -a comment -d 'Prints the comment lines directly above a KEY'
complete -c propedit -n '__propedit_wants COMMAND' -a check -d 'Reports ill-formed lines, bad escapes, repeated keys'
complete -c propedit -n '__propedit_wants COMMAND' -a diff -d 'Prints which values differ between two files'
complete -c propedit -n '__propedit_wants COMMAND' -a set -d 'Sets a value, keeps its line\'s layout; edits may follow'
complete -c propedit -n '__propedit_wants COMMAND' -a remove -d 'Removes a key; edits may follow'
complete -c propedit -n '__propedit_wants COMMAND' -a rename -d 'Renames a key where it stands; edits may follow'
complete -c propedit -n '__propedit_wants COMMAND' -a set-comment -d 'Sets the comment lines above a KEY; edits may follow'
complete -c propedit -n '__propedit_wants COMMAND' -a merge -d 'Sets each pair of FILE; \'-\' is standard input'
complete -c propedit -n '__propedit_wants COMMAND' -a convert -d 'Converts to utf-8, iso-8859-1, windows-1252 or ascii'
complete -c propedit -n '__propedit_wants COMMAND' -a help -d 'Prints the commands, or the page of one of them'
complete -c propedit -n '__propedit_wants EDIT' -a 'set remove rename set-comment'
complete -c propedit -n '__propedit_wants TOPIC' -a 'get list comment check diff set remove rename set-comment merge convert help'
complete -c propedit -n '__propedit_wants ENCODING' -a 'utf-8 iso-8859-1 windows-1252 ascii'
complete -c propedit -n '__propedit_wants KEY KEY.. PREFIX' -a '(__propedit_keys)'
complete -c propedit -n '__propedit_wants FILE FILE..' -F
complete -c propfilter -f
complete -c propfilter -n 'test (count (commandline -opc)) -eq 1' -a 'utf-8 windows-1252 utf-16le utf-16be'
complete -c propfilter -n 'test (count (commandline -opc)) -eq 2' -a ascii
