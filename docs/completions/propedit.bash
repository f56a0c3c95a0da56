# Completes propedit and propfilter in Bash. Made by tools/completions.py.

# Sets `wanted` to the words that a command takes, and `own` to its options.
_propedit_after() {
    case $1 in
    get) wanted='KEY..' own='-f --file -e --encoding -d --default -z --null -h --help -V --version' ;;
    list) wanted='PREFIX' own='-f --file -e --encoding -z --null -v --values --json -h --help -V --version' ;;
    comment) wanted='KEY' own='-f --file -e --encoding -h --help -V --version' ;;
    check) wanted='FILE..' own='-f --file -e --encoding --json -a --ascii --base --pairs --ignore -q --quiet -h --help -V --version' ;;
    diff) wanted='FILE FILE' own='-e --encoding --json -h --help -V --version' ;;
    set) wanted='KEY VALUE EDIT' own='-f --file -i --in-place --create -e --encoding -a --ascii -x --existing --with-comment -v --verbose -h --help -V --version' ;;
    remove) wanted='KEY EDIT' own='-f --file -i --in-place --create -e --encoding -a --ascii -x --existing --with-comment -v --verbose -h --help -V --version' ;;
    rename) wanted='KEY VALUE EDIT' own='-f --file -i --in-place --create -e --encoding -a --ascii -x --existing --with-comment -v --verbose -h --help -V --version' ;;
    set-comment) wanted='KEY VALUE EDIT' own='-f --file -i --in-place --create -e --encoding -a --ascii -x --existing --with-comment -v --verbose -h --help -V --version' ;;
    merge) wanted='FILE' own='-f --file -i --in-place --create -e --encoding -z --null -a --ascii -x --existing --known -v --verbose -h --help -V --version' ;;
    convert) wanted='ENCODING' own='-f --file -i --in-place -e --encoding -r --readable -h --help -V --version' ;;
    help) wanted='TOPIC' own='-h --help -V --version' ;;
    *) wanted= own= ;;
    esac
}

# Keeps the value of an option, if it is the name of the file or its encoding.
_propedit_option() {
    case $1 in
    -f | --file | -i | --in-place | --base) file=$2 ;;
    -e | --encoding) encoding=$2 ;;
    esac
}

# Adds the keys of the file that begin with what is typed.
_propedit_keys() {
    local key
    file=${file//[\\\"\']/}
    file=${file/#\~\//$HOME/}
    [ -f "$file" ] && [[ $typed != *[\\\"\']* ]] || return
    while IFS= read -r -d '' key; do
        [[ -n $open && $key == -* ]] || COMPREPLY+=("$(printf %q "${key#"$head"}")")
    done < <(propedit -z -f "$file" ${encoding:+-e "$encoding"} list -- "$typed" 2>/dev/null </dev/null)
}

_propedit() {
    # Options may come before the first word after a command: then it is `open`. At its front, `--` is dropped.
    local wanted=COMMAND own='-f --file -i --in-place --create -e --encoding -d --default -z --null -v --values --json -a --ascii -x --existing --with-comment --known --base --pairs --ignore -q --quiet --verbose -r --readable -h --help -V --version' open=1 front=
    local option= file= encoding= word before words=() at=-1
    # Bash splits words at equals signs and colons too. Here they are whole again, up to the cursor.
    local line=${COMP_LINE:0:COMP_POINT}
    for word in "${COMP_WORDS[@]:0:COMP_CWORD}" ''; do
        [[ $at -ge 0 && $line != [[:space:]]* ]] || at=$((at + 1))
        line=${line#"${line%%[![:space:]]*}"}
        words[at]+=$word
        line=${line#"$word"}
    done
    local typed=${words[at]}$line
    unset 'words[at]'
    for word in "${words[@]:1}"; do
        if [ -n "$option" ]; then
            _propedit_option "$option" "$word"
            option=
        elif [[ -n $open && $word == --*=* ]]; then
            _propedit_option "${word%%=*}" "${word#*=}"
        elif [[ -n $open && $word == -?* && $word != -- ]]; then
            case $word in
            -f | --file | -i | --in-place | -e | --encoding | -d | --default | --base | --ignore) option=$word ;;
            --*) ;;
            -*[fied]*)
                before=${word%%[fied]*}
                word=${word#"$before"}
                if [ -n "${word:1}" ]; then
                    _propedit_option "-${word::1}" "${word:1}"
                else
                    option=-$word
                fi
                ;;
            esac
        elif [[ $wanted == @(COMMAND|EDIT) ]]; then
            _propedit_after "$word"
            front=1
        else
            open=
            case $front$word/$wanted in
            1--/* | */*..) ;;
            */*' '*) wanted=${wanted#* } ;;
            *) wanted= ;;
            esac
            front=
        fi
    done
    # Readline replaces what follows the last equals sign or colon alone.
    local head=${typed%"${typed##*["${COMP_WORDBREAKS//[!=:]/}"$'\n']}"}
    local choices= prefix= hidden=()
    if [[ -z $option && -n $open && $typed == --*=* ]]; then
        option=${typed%%=*} typed=${typed#*=} prefix=$option=
    fi
    COMPREPLY=()
    [[ -n $option || -z $open || $typed != -* ]] || choices=$own wanted=
    case $option in
    -f | --file | -i | --in-place | --base) wanted=FILE ;;
    -e | --encoding) choices='utf-8 iso-8859-1 windows-1252 utf-16le utf-16be' wanted= ;;
    --ignore)
        choices='byte-order-mark utf-32-mark u-feff non-ascii read-otherwise looks-like-utf-8 blank-after-backslash backslash-at-end repeated-key missing-key surplus-key' wanted=
        prefix+=${typed%"${typed##*,}"} typed=${typed##*,}
        ;;
    ?*) wanted= ;;
    # A file that begins with a dash would be an option.
    *) [ -z "$open" ] || hidden=(-X '-*') ;;
    esac
    case ${wanted%% *} in
    COMMAND | TOPIC) choices='get list comment check diff set remove rename set-comment merge convert help' ;;
    EDIT) choices='set remove rename set-comment' ;;
    ENCODING) choices='utf-8 iso-8859-1 windows-1252 ascii' ;;
    KEY | KEY.. | PREFIX)
        _propedit_keys
        return
        ;;
    FILE | FILE..)
        compopt -o filenames 2>/dev/null
        mapfile -t COMPREPLY < <(compgen -P "$prefix" -f "${hidden[@]}" -- "$typed")
        ;;
    esac
    [ -z "$choices" ] || mapfile -t COMPREPLY < <(compgen -P "$prefix" -W "$choices" -- "$typed")
    COMPREPLY=("${COMPREPLY[@]#"$head"}")
}

_propfilter() {
    local choices=
    case $COMP_CWORD in
    1) choices='utf-8 windows-1252 utf-16le utf-16be' ;;
    2) choices=ascii ;;
    esac
    mapfile -t COMPREPLY < <(compgen -W "$choices" -- "${COMP_WORDS[COMP_CWORD]}")
}

complete -F _propedit propedit
complete -F _propfilter propfilter
