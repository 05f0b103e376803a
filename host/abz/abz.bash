# Completion of abz for bash. What a command takes is asked of abz itself, so that nothing of it is said here again.

# The commands, one in a line.
_abz_commands() {
    "$1" --help 2>/dev/null | sed -n '/^Commands:/,/^$/s/^  \([a-z][a-z]*\) .*/\1/p' | uniq
}

# _abz_uics ABZ PACK: its UICs as people write them, 23,10.
_abz_uics() {
    [ -f "$2" ] || return
    "$1" info "$2" 2>/dev/null | sed -n 's/^\[0*\([0-7][0-7]*\),0*\([0-7][0-7]*\)\].*/\1,\2/p'
}

# _abz_files ABZ PACK CALLER: its files, those of the caller by name alone, others with their owner: FREQ.DAT[23,10].
_abz_files() {
    [ -f "$2" ] || return
    "$1" list "$2" 2>/dev/null | sed -n \
        -e 's/^\(......\)\.\(...\) [CL] [0-9]* \[0*\([0-7][0-7]*\),0*\([0-7][0-7]*\)\].*/\1.\2[\3,\4]/' -e 's/ //g' \
        -e 's/\.\[/[/' -e "s/\[${3//[][]/}\]\$//" -e '2,$p'
}

# _abz_offer LINES: those that begin with the word that is being typed. Outside of quotes brackets get a backslash.
_abz_offer() {
    local word=${COMP_WORDS[COMP_CWORD]} line
    while read -r line; do
        case $word in
        [\'\"]*) [[ $line == "${word:1}"* ]] || continue ;;
        *)
            [[ $line == "${word//\\/}"* ]] || continue
            line=${line//[/\\[} line=${line//]/\\]} ;;
        esac
        [ -n "$line" ] && COMPREPLY+=("$line")
    done <<<"$1"
}

# _abz_argument NAME: what can stand where a synopsis has this name.
_abz_argument() {
    local word=${COMP_WORDS[COMP_CWORD]#[\'\"]} option=
    case $1 in
    PACK | NEWPACK | HOSTFILE) option=-f ;;
    DIRECTORY) option=-d ;;
    CALLER) _abz_offer "$(_abz_uics "$abz" "$pack")" ;;
    FILE | OLD | FIRST | SECOND | PATTERN) _abz_offer "$(_abz_files "$abz" "$pack" "$caller")" ;;
    FORM) _abz_offer $'1\n2\n3' ;;
    MODE) _abz_offer $'update\noutput\nextension\ninput' ;;
    COMMAND) _abz_offer "$(_abz_commands "$abz")" ;;
    esac
    [ -n "$option" ] || return
    compopt -o filenames 2>/dev/null # bash then quotes what needs it
    mapfile -t -O "${#COMPREPLY[@]}" COMPREPLY < <(compgen "$option" -- "${word//\\/}")
}

# Takes a synopsis apart: options, what goes with them, and the names of arguments, one of which may be repeated.
_abz_read_synopsis() {
    local tokens token option=
    read -ra tokens <<<"$1"
    for token in "${tokens[@]}"; do
        case $token in
        '[--'*) option=${token//[][]/} options+=$'\n'$option && [[ $token == *']' ]] && option= ;;
        *)
            if [ -n "$option" ]; then
                value[$option]=${token%]} option=
            else
                [[ $token == *... ]] && repeated=${#names[@]}
                token=${token//./} names+=("${token//[][]/}")
            fi ;;
        esac
    done
}

_abz() {
    local abz=${COMP_WORDS[0]/#\~/$HOME} word=${COMP_WORDS[COMP_CWORD]} pack='' caller=''
    local synopsis='' options=--help line i first=2 count=0 repeated=99 names=() # 99: none
    local -A value=()
    COMPREPLY=()
    # --wait SECONDS stands before the command.
    if [ "$COMP_CWORD" -gt 2 ] && [ "${COMP_WORDS[1]}" == --wait ]; then
        COMP_WORDS=("$abz" "${COMP_WORDS[@]:3}") COMP_CWORD=$((COMP_CWORD - 2))
    fi
    if [ "$COMP_CWORD" -eq 1 ]; then
        _abz_offer "$(_abz_commands "$abz")"$'\n--help\n--wait'
        return
    fi
    # Of a command with several variants the second word says which it is.
    while read -r line; do
        if [[ $line != --* ]]; then
            synopsis=$line
        elif [ "$COMP_CWORD" -eq 2 ]; then
            options+=$'\n'${line%% *}
        elif [ "${line%% *}" == "${COMP_WORDS[2]}" ]; then
            synopsis=${line#* } first=3
        fi
    done < <("$abz" help "${COMP_WORDS[1]}" 2>/dev/null | sed -n 's/^usage: abz [a-z]* //p')
    _abz_read_synopsis "$synopsis"
    for ((i = first; i < COMP_CWORD; i++)); do
        if [ "$count" -eq 0 ] && [[ ${COMP_WORDS[i]} == --* ]]; then
            line=${value[${COMP_WORDS[i]}]-}
            [ -n "$line" ] && i=$((i + 1))
            if [ "$i" -eq "$COMP_CWORD" ]; then
                _abz_argument "$line"
                return
            fi
        else
            count=$((count + 1))
            line=${COMP_WORDS[i]//[\\\"\']/}
            [ "$count" -eq 1 ] && pack=${line/#\~/$HOME}
            [ "$count" -eq 2 ] && caller=$line
        fi
    done
    if [ "$count" -eq 0 ] && [[ $word == -* ]]; then
        _abz_offer "$options"
    elif [ "$count" -lt "$repeated" ]; then
        _abz_argument "${names[count]-}"
    else
        _abz_argument "${names[repeated]}"
        [ "$count" -gt "$repeated" ] && _abz_argument "${names[repeated + 1]-}"
    fi
}

complete -F _abz abz
