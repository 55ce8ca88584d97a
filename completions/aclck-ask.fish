# Completion of aclck-ask for fish. tools/tables writes the list of rights.

set -l words at-most same holders needed restrict who
set -l rights READ_DATA LIST_DIRECTORY WRITE_DATA ADD_FILE APPEND_DATA ADD_SUBDIRECTORY READ_NAMED_ATTRS \
    WRITE_NAMED_ATTRS EXECUTE DELETE_CHILD READ_ATTRIBUTES WRITE_ATTRIBUTES WRITE_RETENTION WRITE_RETENTION_HOLD \
    DELETE READ_ACL WRITE_ACL WRITE_OWNER SYNCHRONIZE

set -l forms xdr text nfs4-tools nfs-text nfs-text-ids nfs41 nfs41-ids posix posix-access posix-default posix-archive \
    posix-archive-default posix-gnu-tar posix-gnu-tar-default

complete -c aclck-ask -n "not __fish_seen_subcommand_from $words" -f
complete -c aclck-ask -n "not __fish_seen_subcommand_from $words" -l version -d 'Show the version'
complete -c aclck-ask -l help -d 'Show help'
complete -c aclck-ask -n "not __fish_seen_subcommand_from $words" -a at-most \
    -d 'Whether a new list grants at most what an old one grants'
complete -c aclck-ask -n "not __fish_seen_subcommand_from $words" -a same -d 'Whether two lists grant the same'
complete -c aclck-ask -n "not __fish_seen_subcommand_from $words" -a holders -d 'Who has a right'
complete -c aclck-ask -n "not __fish_seen_subcommand_from $words" -a needed -d 'Which rights decide something'
complete -c aclck-ask -n "not __fish_seen_subcommand_from $words" -a restrict -d 'What a list keeps under a bound'
complete -c aclck-ask -n "not __fish_seen_subcommand_from $words" -a who -d 'Which people have a right'

complete -c aclck-ask -n '__fish_seen_subcommand_from holders who' -a "$rights"
complete -c aclck-ask -n '__fish_seen_subcommand_from at-most same holders needed restrict who' -l form -x -a "$forms" \
    -d 'The form of a list'
complete -c aclck-ask -n '__fish_seen_subcommand_from at-most same holders needed restrict who' -l file \
    -d 'It is the list of a file'
complete -c aclck-ask -n '__fish_seen_subcommand_from at-most same holders needed restrict who' -l directory \
    -d 'It is the list of a directory'
complete -c aclck-ask -n '__fish_seen_subcommand_from at-most same holders needed restrict who' -l names -r \
    -d 'Names and their ids'
complete -c aclck-ask -n '__fish_seen_subcommand_from at-most same holders needed restrict who' -l system \
    -d 'The names and ids of this system'
complete -c aclck-ask -n '__fish_seen_subcommand_from at-most same holders needed restrict who' -l domain -x \
    -d 'What follows @ in names'
complete -c aclck-ask -n '__fish_seen_subcommand_from at-most same holders needed restrict who' -l json \
    -d 'Write one JSON object'
complete -c aclck-ask -n '__fish_seen_subcommand_from restrict' -l inherit \
    -d 'Bound everything that will be created too'
complete -c aclck-ask -n '__fish_seen_subcommand_from who' -l people -r -d 'Who is asked about'
complete -c aclck-ask -n '__fish_seen_subcommand_from who' -l owner -x -a '(__fish_complete_users)' \
    -d 'The owner of the object'
complete -c aclck-ask -n '__fish_seen_subcommand_from who' -l group -x -a '(__fish_complete_groups)' \
    -d 'The owning group of the object'
