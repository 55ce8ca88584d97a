# Completion of aclck-probe for bash: options, forms, and files.

_aclck_probe() {
    local current=$2 previous=$3 offered='' IFS=$' \t\n'
    COMPREPLY=()
    case $previous in
        --form)
            offered='xdr text nfs4-tools nfs-text nfs-text-ids nfs41 nfs41-ids posix posix-access posix-default'
            offered+=' posix-archive posix-archive-default posix-gnu-tar posix-gnu-tar-default' ;;
        --domain | --attribute | --most | --seconds | --server | --port) return ;;
    esac
    if [[ $current == -?* ]]; then
        offered='--questions --form --file --directory --names --system --domain --try --attribute --most --seconds'
        offered+=' --server --port --json --help --version'
    fi
    if [[ -n $offered ]]; then
        mapfile -t COMPREPLY < <(compgen -W "$offered" -- "$current")
    else
        compopt -o default 2> /dev/null  # bash itself offers files: a name can have several lines
    fi
}

complete -F _aclck_probe aclck-probe
