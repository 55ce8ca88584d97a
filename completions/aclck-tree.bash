# Completion of aclck-tree for bash: commands, options, the names of rights, and files. tools/tables writes the list of
# rights.

declare -gA _aclck_tree_options=(
    [scan]='-o --one-file-system --threads --attribute --host --quiet --from --lines --archive --root --shard --key'
    [merge]='-o'
    [info]='--csv --raw --json'
    [who]='--may --any --path --reach --obtain --people --passwd --group --getent --skip-system --each --domain --linux
        --draft --csv --raw --json'
    [may]='--may --any --path --reach --user --groups --getent --all --domain --linux --csv --raw --json'
    [why]='--user --groups --getent --may --obtain --domain --linux --csv --raw --json'
    [same]='--inherit --path --each --csv --raw --json'
    [diff]='--people --passwd --group --getent --skip-system --people-then --path --pair --each --domain --csv --raw
        --json'
    [policy]='--people --passwd --group --getent --skip-system --each --fix --judgements --domain --linux --draft --csv
        --raw --json'
    [load]='--dsn --as-superuser --people --passwd --group --getent --skip-system --domain --reach'
    [report]='-o --path --reach --policy --judgements --people --passwd --group --getent --skip-system --domain --linux
        --draft --csv --raw --json'
)

_aclck_tree_rights='READ_DATA LIST_DIRECTORY WRITE_DATA ADD_FILE APPEND_DATA ADD_SUBDIRECTORY READ_NAMED_ATTRS
    WRITE_NAMED_ATTRS EXECUTE DELETE_CHILD READ_ATTRIBUTES WRITE_ATTRIBUTES WRITE_RETENTION WRITE_RETENTION_HOLD DELETE
    READ_ACL WRITE_ACL WRITE_OWNER SYNCHRONIZE'

# Completes the last right of a list of rights with bars between them.
_aclck_tree_mask() {
    local typed=$1 before='' right
    [[ $typed != *'|'* ]] || before=${typed%'|'*}'|'
    COMPREPLY=()
    for right in $_aclck_tree_rights; do
        [[ $right != "${typed##*'|'}"* ]] || COMPREPLY+=("$before$right")
    done
    compopt -o nospace 2> /dev/null
}

_aclck_tree() {
    local current=$2 previous=$3 word=${COMP_WORDS[1]}
    COMPREPLY=()
    if ((COMP_CWORD == 1)); then
        mapfile -t COMPREPLY < <(compgen -W "${!_aclck_tree_options[*]} --help --version" -- "$current")
        return
    fi
    [[ -n ${_aclck_tree_options[$word]+is} ]] || return
    case $previous in
        --may) _aclck_tree_mask "$current"; return ;;
        --user) mapfile -t COMPREPLY < <(compgen -u -- "$current"); return ;;
        --groups) mapfile -t COMPREPLY < <(compgen -g -- "$current"); return ;;
        --threads | --attribute | --host | --shard | --domain | --path | --pair | --dsn) return ;;
    esac
    if [[ $current == -* ]]; then
        mapfile -t COMPREPLY < <(compgen -W "${_aclck_tree_options[$word]} --help" -- "$current")
    else
        compopt -o default 2> /dev/null  # bash itself offers files: a name can have several lines
    fi
}

complete -F _aclck_tree aclck-tree
