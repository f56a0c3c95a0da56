#!/usr/bin/env python3
"""Writes docs/completions/*, by which Bash, zsh and fish complete the words of propedit and propfilter.

    tools/completions.py            writes the files
    tools/completions.py --check    compares them, and ends with 1 if one is not what it would write

Commands, options and their words are those of the tables in propedit_arguments/src/command_line.rt, and kinds of findings
those of kinds.rt beside it. Keys are those of the file that the command line names, as `propedit list` prints them.
"""
import pathlib
import re
import sys

TOP = pathlib.Path(__file__).resolve().parent.parent
CODE = (TOP / "crates/propedit_arguments/src/command_line.rt").read_text()
FOLDER = TOP / "docs/completions"
# What a word or the value of an option may be called in the tables.
KINDS = {"KEY", "PREFIX", "VALUE", "FILE", "ENCODING", "NAME", "KIND", "TOPIC"}


def rows(kind):
    """The rows of a table, each with its texts by their names."""
    for body in re.findall(rf"^    {kind} \{{\n(.*?)^    \}},\n", CODE, re.M | re.S):
        texts = dict(re.findall(r'^        (\w+): "(.*)",$', body, re.M))
        letter = re.search(r"short: Some\('(.)'\)", body)
        is_edit = "EDIT_OPTIONS" in body
        options = re.findall(r"OptionName::(\w+)", EDIT_OPTIONS if is_edit else body)
        yield {**texts, "short": letter[1] if letter else "", "is_edit": is_edit, "options": options}


def words_after(row):
    """What comes after a command. Dots end a word that may come again, EDIT stands for a command that edits, and TOPIC for
    one that help is asked on. A new key is completed as little as a value, and so is a text."""
    words = row["words"].strip("[]").replace("COMMAND", "TOPIC")
    words = words.replace("OLD NEW", "KEY VALUE" if row["is_edit"] else "FILE FILE").replace("TEXT", "VALUE")
    if row["is_edit"]:
        return words + " EDIT"
    return words.replace(" ..", "..")


EDIT_OPTIONS = re.search(r"const EDIT_OPTIONS.*?\];", CODE, re.S)[0]
COMMANDS = list(rows("CommandRow"))
OPTIONS = list(rows("OptionRow"))
EDITS = " ".join(row["name"] for row in COMMANDS if row["is_edit"])
NAMES = next(row["help"] for row in OPTIONS if row["value"] == "NAME").replace("utf-16le/be", "utf-16le utf-16be")
ENCODINGS = " ".join(re.findall(r"(?:utf|windows|iso)-[\w-]+", NAMES))
# Those of propfilter.
FILTERS = ENCODINGS.replace("iso-8859-1 ", "")
TARGETS = " ".join(re.findall(r'\("([\w-]+)", Repertoire::', CODE))
FILTERED = "ascii"
FINDINGS = dict(re.findall(r'Kind::(\w+) => "([\w-]+)"', (TOP / "crates/properties_checking/src/kinds.rt").read_text()))
OPTIONAL = re.search(r"const OPTIONAL.*?\];", (TOP / "crates/propedit_arguments/src/kinds.rt").read_text(), re.S)[0]
IGNORED = " ".join(FINDINGS[kind] for kind in re.findall(r"Kind::(\w+)", OPTIONAL))


def is_of(option, command):
    """Whether an option may come after a command."""
    return option["options"][0] in command["options"] + ["Help", "Version"]


def names(kind=None, command=None):
    """The options whose value is of this kind, or those of any value, or all, or those of a command: by letter and by name."""
    for row in OPTIONS:
        if (kind is None or kind == row["value"] or kind == "ANY" and row["value"]) and (not command or is_of(row, command)):
            yield from ([f"-{row['short']}"] if row["short"] else []) + [f"--{row['long']}"]


BASH = r"""# Completes propedit and propfilter in Bash. Made by tools/completions.py.

# Sets `wanted` to the words that a command takes, and `own` to its options.
_propedit_after() {
    case $1 in
@AFTER@
    *) wanted= own= ;;
    esac
}

# Keeps the value of an option, if it is the name of the file or its encoding.
_propedit_option() {
    case $1 in
    @FILE_NAMES@) file=$2 ;;
    @ENCODING_NAMES@) encoding=$2 ;;
    esac
}

# Adds the keys of the file that begin with what is typed.
_propedit_keys() {
    local key
    file=${file//[\\\"\']/}
    file=${file/#\~\//$HOME/}
    [ -f "$file" ] && [[ $typed != *[\\\"\']* ]] || return
    while IFS= read -r -d '' key; do
        [[ -n $open && $key == -* ]] || COMPREPLY+=("$(printf %q "${key#"$head"}")")
    done < <(propedit -z -f "$file" ${encoding:+-e "$encoding"} list -- "$typed" 2>/dev/null </dev/null)
}

_propedit() {
    # Options may come before the first word after a command: then it is `open`. At its front, `--` is dropped.
    local wanted=COMMAND own='@OPTIONS@' open=1 front=
    local option= file= encoding= word before words=() at=-1
    # Bash splits words at equals signs and colons too. Here they are whole again, up to the cursor.
    local line=${COMP_LINE:0:COMP_POINT}
    for word in "${COMP_WORDS[@]:0:COMP_CWORD}" ''; do
        [[ $at -ge 0 && $line != [[:space:]]* ]] || at=$((at + 1))
        line=${line#"${line%%[![:space:]]*}"}
        words[at]+=$word
        line=${line#"$word"}
    done
    local typed=${words[at]}$line
    unset 'words[at]'
    for word in "${words[@]:1}"; do
        if [ -n "$option" ]; then
            _propedit_option "$option" "$word"
            option=
        elif [[ -n $open && $word == --*=* ]]; then
            _propedit_option "${word%%=*}" "${word#*=}"
        elif [[ -n $open && $word == -?* && $word != -- ]]; then
            case $word in
            @VALUE_NAMES@) option=$word ;;
            --*) ;;
            -*[@VALUE_LETTERS@]*)
                before=${word%%[@VALUE_LETTERS@]*}
                word=${word#"$before"}
                if [ -n "${word:1}" ]; then
                    _propedit_option "-${word::1}" "${word:1}"
                else
                    option=-$word
                fi
                ;;
            esac
        elif [[ $wanted == @(COMMAND|EDIT) ]]; then
            _propedit_after "$word"
            front=1
        else
            open=
            case $front$word/$wanted in
            1--/* | */*..) ;;
            */*' '*) wanted=${wanted#* } ;;
            *) wanted= ;;
            esac
            front=
        fi
    done
    # Readline replaces what follows the last equals sign or colon alone.
    local head=${typed%"${typed##*["${COMP_WORDBREAKS//[!=:]/}"$'\n']}"}
    local choices= prefix= hidden=()
    if [[ -z $option && -n $open && $typed == --*=* ]]; then
        option=${typed%%=*} typed=${typed#*=} prefix=$option=
    fi
    COMPREPLY=()
    [[ -n $option || -z $open || $typed != -* ]] || choices=$own wanted=
    case $option in
    @FILE_NAMES@) wanted=FILE ;;
    @ENCODING_NAMES@) choices='@ENCODINGS@' wanted= ;;
    @KIND_NAMES@)
        choices='@IGNORED@' wanted=
        prefix+=${typed%"${typed##*,}"} typed=${typed##*,}
        ;;
    ?*) wanted= ;;
    # A file that begins with a dash would be an option.
    *) [ -z "$open" ] || hidden=(-X '-*') ;;
    esac
    case ${wanted%% *} in
    COMMAND | TOPIC) choices='@COMMANDS@' ;;
    EDIT) choices='@EDITS@' ;;
    ENCODING) choices='@TARGETS@' ;;
    KEY | KEY.. | PREFIX)
        _propedit_keys
        return
        ;;
    FILE | FILE..)
        compopt -o filenames 2>/dev/null
        mapfile -t COMPREPLY < <(compgen -P "$prefix" -f "${hidden[@]}" -- "$typed")
        ;;
    esac
    [ -z "$choices" ] || mapfile -t COMPREPLY < <(compgen -P "$prefix" -W "$choices" -- "$typed")
    COMPREPLY=("${COMPREPLY[@]#"$head"}")
}

_propfilter() {
    local choices=
    case $COMP_CWORD in
    1) choices='@FILTERS@' ;;
    2) choices=@FILTERED@ ;;
    esac
    mapfile -t COMPREPLY < <(compgen -W "$choices" -- "${COMP_WORDS[COMP_CWORD]}")
}

complete -F _propedit propedit
complete -F _propfilter propfilter
"""

ZSH = r"""#compdef propedit propfilter
# Completes propedit and propfilter in zsh. Made by tools/completions.py.

# Adds the keys of the file that the options name.
_propedit_keys() {
    local file=${(Q)opt_args[-f]:-${(Q)opt_args[--file]:-${(Q)opt_args[-i]:-${(Q)opt_args[--in-place]}}}}
    local encoding=${(Q)opt_args[-e]:-${(Q)opt_args[--encoding]:-utf-8}}
    local -a keys
    file=${file/#\~\//$HOME/}
    [[ -f $file ]] || return 1
    keys=("${(0)"$(propedit -z -f "$file" -e "$encoding" list 2>/dev/null </dev/null)"}")
    compadd -a keys
}

_propedit_line() {
    local curcontext=$curcontext state state_descr line word
    local -a commands options wanted
    local -A opt_args after early
    commands=(
@DESCRIBED@
    )
    # The words that each command takes.
    after=(
@AFTER_PAIRS@
    )
    options=(
@ARGUMENTS@
    )
    _arguments -s -C -A '-*' $options '1:command:->command' '*::word:->after' && return
    case $state in
    command) _describe command commands ;;
    after)
        # Options may come after the command too, before its first word.
        wanted=(${=after[$words[1]]})
        early=("${(@kv)opt_args}")
        _arguments -s -S -C -A '-*' $options '*:::word:->word' && return
        opt_args=("${(@kv)early}" "${(@kv)opt_args}")
        ;;
    esac
    case $state in
    word)
        for word in "${(@)words[1,CURRENT-1]}"; do
            case $wanted[1] in
            EDIT) wanted=(${=after[$word]}) ;;
            *..) ;;
            *) shift wanted 2>/dev/null ;;
            esac
        done
        case $wanted[1] in
        EDIT) compadd @EDITS@ ;;
        TOPIC) _describe command commands ;;
        ENCODING) compadd @TARGETS@ ;;
        KEY | KEY.. | PREFIX) _propedit_keys ;;
        FILE | FILE..) _files ;;
        VALUE) _message value ;;
        *) _message 'no more words' ;;
        esac
        ;;
    esac
}

case $service in
propedit) _propedit_line ;;
propfilter) _arguments '1:encoding:(@FILTERS@)' '2:ascii:(@FILTERED@)' ;;
esac
"""

FISH = r"""# Completes propedit and propfilter in fish. Made by tools/completions.py.

# Prints the words that a command takes.
function __propedit_after
    switch $argv[1]
@CASES@
    end
end

# Whether the next word is one of these, or an OPTION of one of these commands. With no argument it prints the file and its
# encoding, a line each.
function __propedit_wants
    set -l wanted COMMAND
    # Options may come before the first word after a command: then it is `open`. At its front, `--` is dropped.
    set -l open 1
    set -l front
    set -l command
    set -l option
    set -l file ''
    set -l encoding utf-8
    for word in (commandline -opc)[2..]
        set -l value
        if set -q option[1]
            set value $word
        else if test -n "$open"; and string match -q -- '--*=*' $word
            set option (string split -m 1 = -- $word)
            set value $option[2]
        else if test -n "$open"; and contains -- $word @VALUE_WORDS@
            set option $word
            continue
        else if test -n "$open"; and string match -q -- '--?*' $word
            continue
        else if test -n "$open"; and test "$word" != --; and string match -q -- '-?*' $word
            set -l parts (string match -r -- '^-[^@VALUE_LETTERS@]*([@VALUE_LETTERS@])(.*)' $word)
            or continue
            set option -$parts[2]
            test -n "$parts[3]"; or continue
            set value $parts[3]
        else if contains -- "$wanted[1]" COMMAND EDIT
            test -n "$command"; or set command $word
            set wanted (__propedit_after $word)
            set front 1
            continue
        else
            set open
            switch "$front$word/$wanted[1]"
                case '1--/*' '*..'
                case '*'
                    set -e wanted[1]
            end
            set front
            continue
        end
        switch $option[1]
            case @FILE_WORDS@
                set file $value
            case @ENCODING_WORDS@
                set encoding $value
        end
        set -e option
    end
    if test "$argv[1]" = OPTION
        test -n "$open"; and contains -- "$command" '' $argv[2..]
    else if set -q argv[1]
        contains -- "$wanted[1]" $argv
    else
        printf '%s\n' (string replace -r '^~/' ~/ -- $file) $encoding
    end
end

function __propedit_keys
    set -l named (__propedit_wants)
    test -f "$named[1]"; and propedit -z -f $named[1] -e $named[2] list 2>/dev/null </dev/null | string split0
end

complete -c propedit -f
@LINES@
complete -c propedit -n '__propedit_wants EDIT' -a '@EDITS@'
complete -c propedit -n '__propedit_wants TOPIC' -a '@COMMANDS@'
complete -c propedit -n '__propedit_wants ENCODING' -a '@TARGETS@'
complete -c propedit -n '__propedit_wants KEY KEY.. PREFIX' -a '(__propedit_keys)'
complete -c propedit -n '__propedit_wants FILE FILE..' -F
complete -c propfilter -f
complete -c propfilter -n 'test (count (commandline -opc)) -eq 1' -a '@FILTERS@'
complete -c propfilter -n 'test (count (commandline -opc)) -eq 2' -a @FILTERED@
"""


def lines(made):
    return "\n".join(made)


def zsh_arguments():
    actions = {"FILE": ":file:_files", "NAME": f":encoding:({ENCODINGS})", "KIND": f":kind:_values -s , kind {IGNORED}",
               "VALUE": ":value:", "": ""}
    for row in OPTIONS:
        short, long, takes = row["short"], row["long"], bool(row["value"])
        others = "- *" if long in ("help", "version") else " ".join(filter(None, [short and f"-{short}", f"--{long}"]))
        others += {"file": " -i --in-place", "in-place": " -f --file"}.get(long, "")
        # A letter may be that of several options.
        of_letter = [other["help"] for other in OPTIONS if short and other["short"] == short]
        letter = {f"-{short}" + "+" * takes: "; ".join(of_letter)} if of_letter[:1] == [row["help"]] else {}
        for name, said in {**letter, f"--{long}" + "=" * takes: row["help"]}.items():
            said = re.sub(r"([\[\]:])", r"\\\1", said).replace("'", "'\\''")
            yield f"        '({others}){name}[{said}]{actions[row['value']]}'"


def fish_lines():
    takes = {"FILE": " -r -F", "NAME": f" -x -a '{ENCODINGS}'", "KIND": f" -x -a '{IGNORED}'", "VALUE": " -x", "": ""}
    said = lambda row: row["help"].replace("\\", "\\\\").replace("'", "\\'")
    when = "complete -c propedit -n '__propedit_wants COMMAND'"
    for row in OPTIONS:
        commands = " ".join(command["name"] for command in COMMANDS if is_of(row, command))
        when_open = f"complete -c propedit -n '__propedit_wants OPTION {commands}'"
        yield f"{when_open}{' -s ' * bool(row['short'])}{row['short']} -l {row['long']}{takes[row['value']]} -d '{said(row)}'"
    for row in COMMANDS:
        yield f"{when} -a {row['name']} -d '{said(row)}'"


def filled(template):
    shown = lambda row: row["help"].replace("'", "'\\''").replace(":", "\\:")
    parts = {
        "AFTER": lines(f"    {row['name']}) wanted='{words_after(row)}' own='{' '.join(names(None, row))}' ;;" for row in COMMANDS),
        "AFTER_PAIRS": lines(f"        {row['name']} '{words_after(row)}'" for row in COMMANDS),
        "CASES": lines(f"        case {row['name']}\n            string split ' ' '{words_after(row)}'" for row in COMMANDS),
        "DESCRIBED": lines(f"        '{row['name']}:{shown(row)}'" for row in COMMANDS),
        "ARGUMENTS": lines(zsh_arguments()),
        "LINES": lines(fish_lines()),
        "OPTIONS": " ".join(dict.fromkeys(names())),
        "COMMANDS": " ".join(row["name"] for row in COMMANDS),
        "FILE_NAMES": " | ".join(names("FILE")),
        "FILE_WORDS": " ".join(names("FILE")),
        "ENCODING_NAMES": " | ".join(names("NAME")),
        "ENCODING_WORDS": " ".join(names("NAME")),
        "KIND_NAMES": " | ".join(names("KIND")),
        "IGNORED": IGNORED,
        "VALUE_NAMES": " | ".join(names("ANY")),
        "VALUE_WORDS": " ".join(names("ANY")),
        "VALUE_LETTERS": "".join(row["short"] for row in OPTIONS if row["value"]),
        "EDITS": EDITS,
        "ENCODINGS": ENCODINGS,
        "FILTERS": FILTERS,
        "TARGETS": TARGETS,
        "FILTERED": FILTERED,
    }
    return re.sub("@([A-Z_]+)@", lambda found: parts[found[1]], template)


def main():
    kinds = {word.rstrip(".") for row in COMMANDS for word in words_after(row).split()} | {row["value"] for row in OPTIONS}
    unknown = kinds - KINDS - {"EDIT", ""}
    if unknown or not (COMMANDS and OPTIONS and EDITS and ENCODINGS and TARGETS):
        sys.exit(f"tools/completions.py: the tables in command_line.rt have another form, or other words: {sorted(unknown)}")
    status = 0
    for name, template in (("propedit.bash", BASH), ("_propedit", ZSH), ("propedit.fish", FISH)):
        target, text = FOLDER / name, filled(template)
        if "--check" not in sys.argv[1:]:
            FOLDER.mkdir(exist_ok=True)
            target.write_text(text)
        elif target.exists() and target.read_text() == text:
            print(f"docs/completions/{name} has the words of command_line.rt")
        else:
            print(f"docs/completions/{name} has not the words of command_line.rt: run tools/completions.py")
            status = 1
    return status


if __name__ == "__main__":
    sys.exit(main())
