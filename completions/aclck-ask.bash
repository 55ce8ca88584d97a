# Completion of aclck-ask for bash: questions, options, forms, the names of rights, and files. tools/tables writes the
# list of rights.

_aclck_ask_shared='--form --file --directory --names --system --domain --json'

declare -gA _aclck_ask_options=(
    [at-most]=$_aclck_ask_shared
    [same]=$_aclck_ask_shared
    [holders]=$_aclck_ask_shared
    [needed]=$_aclck_ask_shared
    [restrict]="--inherit $_aclck_ask_shared"
    [who]="--people --owner --group $_aclck_ask_shared"
)

_aclck_ask_forms='xdr text nfs4-tools nfs-text nfs-text-ids nfs41 nfs41-ids posix posix-access posix-default
    posix-archive posix-archive-default posix-gnu-tar posix-gnu-tar-default'

_aclck_ask_rights='READ_DATA LIST_DIRECTORY WRITE_DATA ADD_FILE APPEND_DATA ADD_SUBDIRECTORY READ_NAMED_ATTRS
    WRITE_NAMED_ATTRS EXECUTE DELETE_CHILD READ_ATTRIBUTES WRITE_ATTRIBUTES WRITE_RETENTION WRITE_RETENTION_HOLD DELETE
    READ_ACL WRITE_ACL WRITE_OWNER SYNCHRONIZE'

_aclck_ask() {
    local current=$2 previous=$3 word=${COMP_WORDS[1]} offered='' IFS=$' \t\n'
    COMPREPLY=()
    if ((COMP_CWORD == 1)); then
        mapfile -t COMPREPLY < <(compgen -W "${!_aclck_ask_options[*]} --help --version" -- "$current")
        return
    fi
    [[ -n ${_aclck_ask_options[$word]+is} ]] || return
    case $previous in
        --form) offered=$_aclck_ask_forms ;;
        --owner) mapfile -t COMPREPLY < <(compgen -u -- "$current"); return ;;
        --group) mapfile -t COMPREPLY < <(compgen -g -- "$current"); return ;;
        --domain) return ;;
        holders | who) ((COMP_CWORD > 2)) || offered=$_aclck_ask_rights ;;
    esac
    [[ $current != -?* ]] || offered="${_aclck_ask_options[$word]} --help"
    if [[ -n $offered ]]; then
        mapfile -t COMPREPLY < <(compgen -W "$offered" -- "$current")
    else
        compopt -o default 2> /dev/null  # bash itself offers files: a name can have several lines
    fi
}

complete -F _aclck_ask aclck-ask
