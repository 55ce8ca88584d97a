# Completion of aclck-form for bash: forms, options, and files.

_aclck_form() {
    local current=$2 previous=$3 IFS=$' \t\n'
    local forms='xdr text nfs4-tools nfs-text nfs-text-ids nfs41 nfs41-ids posix posix-access posix-default'
    forms+=' posix-archive posix-archive-default posix-gnu-tar posix-gnu-tar-default'
    local options='--file --directory --bridge --exact-only --mode --names --system --domain --flags --drop --leave-out --help --version'
    COMPREPLY=()
    case $previous in
        --names | '<' | '>' | '>>')
            compopt -o default 2> /dev/null  # bash itself offers files: a name can have several lines
            return ;;
        --drop) forms='flags access default' ;;
        --flags) forms='none AUTO_INHERIT PROTECTED DEFAULTED IS_TRIVIAL IS_DIR' ;;
        --mode | --domain) return ;;
    esac
    [[ $current != -* ]] || forms=$options
    mapfile -t COMPREPLY < <(compgen -W "$forms" -- "$current")
}

complete -F _aclck_form aclck-form
