# Completion of aclck for fish. tools/tables writes the lists of commands, rights and options.

set -l words check-nfs show-nfs encode child mode table normalize compare show-posix check-posix calc-mask chmod \
    create bridge
set -l rights READ_DATA LIST_DIRECTORY WRITE_DATA ADD_FILE APPEND_DATA ADD_SUBDIRECTORY READ_NAMED_ATTRS \
    WRITE_NAMED_ATTRS EXECUTE DELETE_CHILD READ_ATTRIBUTES WRITE_ATTRIBUTES WRITE_RETENTION WRITE_RETENTION_HOLD \
    DELETE READ_ACL WRITE_ACL WRITE_OWNER SYNCHRONIZE

complete -c aclck -f
complete -c aclck -n "not __fish_seen_subcommand_from $words" -a check-nfs \
    -d 'Whether an NFSv4 list gets a user all rights of a mask'
complete -c aclck -n "not __fish_seen_subcommand_from $words" -a show-nfs -d 'The text of an NFSv4 list'
complete -c aclck -n "not __fish_seen_subcommand_from $words" -a encode -d 'The bytes of the NFSv4 list of a text'
complete -c aclck -n "not __fish_seen_subcommand_from $words" -a child -d 'The NFSv4 list of a new object'
complete -c aclck -n "not __fish_seen_subcommand_from $words" -a mode -d 'The mode of an NFSv4 list'
complete -c aclck -n "not __fish_seen_subcommand_from $words" -a table \
    -d 'The lines of the normal form about one right'
complete -c aclck -n "not __fish_seen_subcommand_from $words" -a normalize -d 'The normal form of an NFSv4 list'
complete -c aclck -n "not __fish_seen_subcommand_from $words" -a compare -d 'Whether two NFSv4 lists grant the same'
complete -c aclck -n "not __fish_seen_subcommand_from $words" -a show-posix -d 'The text of a POSIX ACL'
complete -c aclck -n "not __fish_seen_subcommand_from $words" -a check-posix \
    -d 'Whether a POSIX ACL gives a user all permissions'
complete -c aclck -n "not __fish_seen_subcommand_from $words" -a calc-mask \
    -d 'A POSIX ACL with a mask that limits no entry'
complete -c aclck -n "not __fish_seen_subcommand_from $words" -a chmod -d 'A POSIX ACL with another mode'
complete -c aclck -n "not __fish_seen_subcommand_from $words" -a create -d 'The POSIX ACL of a new object'
complete -c aclck -n "not __fish_seen_subcommand_from $words" -a bridge -d 'The NFSv4 list of a POSIX ACL'
complete -c aclck -n '__fish_seen_subcommand_from check-nfs check-posix' -l owner -x -d 'The owner of the object'
complete -c aclck -n '__fish_seen_subcommand_from check-nfs check-posix' -l group -x -d 'The group of the object'
complete -c aclck -n '__fish_seen_subcommand_from check-nfs check-posix' -l user -x -d 'Who asks'
complete -c aclck -n '__fish_seen_subcommand_from check-nfs' -l mask -x -a "none $rights" -d 'The rights'
complete -c aclck -n '__fish_seen_subcommand_from check-nfs show-nfs encode child mode table normalize compare' \
    -l profile -x -a 'full narrow' -d 'The rights and flags that are known'
complete -c aclck -n '__fish_seen_subcommand_from child' -l kind -x -a 'file dir' -d 'What is made'
complete -c aclck -n '__fish_seen_subcommand_from table' -l bit -x -a "$rights" -d 'The right'
complete -c aclck -n '__fish_seen_subcommand_from normalize' -l inherit -d 'Five normal forms'
complete -c aclck -n '__fish_seen_subcommand_from show-posix' -l form -x -a 'canonical shown short' \
    -d 'The form of the text'
complete -c aclck -n '__fish_seen_subcommand_from check-posix' -l groups -x -d 'Ids of groups'
complete -c aclck -n '__fish_seen_subcommand_from check-posix' -l want -x -d 'Some of rwx'
complete -c aclck -n '__fish_seen_subcommand_from chmod create' -l mode -x -d 'Octal digits'
complete -c aclck -n '__fish_seen_subcommand_from create' -l umask -x -d 'Octal digits'
complete -c aclck -n '__fish_seen_subcommand_from create' -l dir -d 'A directory'
