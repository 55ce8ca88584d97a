# Completion of aclck for bash: commands, their options, the values of options that have a few values, and the names of
# files after `<`, `>` and `2>`. tools/tables writes the lists of options and rights.

# The options of each command.
declare -gA _aclck_options=(
    [check-nfs]='--owner --group --user --mask --profile'
    [show-nfs]='--profile'
    [encode]='--profile'
    [child]='--kind --profile'
    [mode]='--profile'
    [table]='--bit --profile'
    [normalize]='--inherit --profile'
    [compare]='--profile'
    [show-posix]='--form'
    [check-posix]='--owner --group --user --groups --want'
    [calc-mask]=''
    [chmod]='--mode'
    [create]='--mode --umask --dir'
    [bridge]=''
)

# The names of the rights of both profiles, and of those that only the full profile has.
_aclck_rights='READ_DATA LIST_DIRECTORY WRITE_DATA ADD_FILE APPEND_DATA ADD_SUBDIRECTORY READ_NAMED_ATTRS
    WRITE_NAMED_ATTRS EXECUTE DELETE_CHILD READ_ATTRIBUTES WRITE_ATTRIBUTES DELETE READ_ACL WRITE_ACL WRITE_OWNER
    SYNCHRONIZE'
_aclck_full_rights='WRITE_RETENTION WRITE_RETENTION_HOLD'

# Prints the rights of the profile that the command line selects.
_aclck_known_rights() {
    printf '%s ' $_aclck_rights
    [[ " ${COMP_WORDS[*]} " == *' --profile '?('= ')'narrow '* ]] || printf '%s ' $_aclck_full_rights
}

# Offers the words of $1 that begin with $2.
_aclck_offer() {
    mapfile -t COMPREPLY < <(compgen -W "$1" -- "$2")
}

# Completes the last right of a list of rights with bars between them, and leaves out the rights before it. A bar
# outside of quotes has a backslash before it, which stays.
_aclck_complete_mask() {
    local typed=$1 before='' last=$1 right words=()
    if [[ $typed == *'|'* ]]; then
        before=${typed%'|'*}'|'
        last=${typed##*'|'}
    else
        words=(none)
    fi
    for right in $(_aclck_known_rights); do
        [[ "|${before//\\/}" == *"|$right|"* ]] || words+=("$right")
    done
    _aclck_offer "${words[*]}" "$last"
    COMPREPLY=("${COMPREPLY[@]/#/"$before"}")
    compopt -o nospace 2> /dev/null
}

# Returns whether a word is the sign of a redirection; bash makes it a word of its own.
_aclck_is_sign() {
    [[ $1 == @('<'|'>'|'>>'|'<>'|'>|') ]]
}

# Fills `words` with the words between the program and the word that is being typed, without redirections.
_aclck_words() {
    local place
    for ((place = 1; place < COMP_CWORD; place++)); do
        if _aclck_is_sign "${COMP_WORDS[place]}"; then
            ((place++))
        elif [[ ${COMP_WORDS[place]} != +([0-9]) ]] || ! _aclck_is_sign "${COMP_WORDS[place + 1]}"; then
            words+=("${COMP_WORDS[place]}")
        fi
    done
}

_aclck() {
    local current=$2 option=$3 command word words=() unused=() IFS=$' \t\n'
    COMPREPLY=()
    if _aclck_is_sign "${COMP_WORDS[COMP_CWORD]}" || _aclck_is_sign "${COMP_WORDS[COMP_CWORD - 1]}"; then
        compopt -o default 2> /dev/null
        return
    fi
    _aclck_words
    # Bash splits `--form=short` into three words.
    if [[ $current == = ]]; then
        current=''
        option=${COMP_WORDS[COMP_CWORD - 1]}
    elif [[ $option == = ]]; then
        option=${COMP_WORDS[COMP_CWORD - 2]}
    fi
    if ((${#words[@]} == 0)); then
        _aclck_offer "${!_aclck_options[*]}" "$current"
        return
    fi
    command=${words[0]}
    [[ -n ${_aclck_options[$command]+is} && " ${words[*]:1} " != *' -- '* ]] || return
    if [[ " ${_aclck_options[$command]} " == *" $option "* ]]; then
        case $option in
            --profile) _aclck_offer 'full narrow' "$current" ;;
            --kind) _aclck_offer 'file dir' "$current" ;;
            --form) _aclck_offer 'canonical shown short' "$current" ;;
            --bit) _aclck_offer "$(_aclck_known_rights)" "$current" ;;
            --mask) _aclck_complete_mask "$current" ;;
        esac
        [[ $option == --@(inherit|dir) ]] || return
    fi
    for word in ${_aclck_options[$command]}; do
        [[ " ${words[*]:1} " == *" $word "* ]] || unused+=("$word")
    done
    _aclck_offer "${unused[*]}" "$current"
}

complete -F _aclck aclck
