# Completion of aclck-tree for fish. tools/tables writes the list of rights.

set -l words scan merge info who may why same diff policy report load
set -l rights READ_DATA LIST_DIRECTORY WRITE_DATA ADD_FILE APPEND_DATA ADD_SUBDIRECTORY READ_NAMED_ATTRS \
    WRITE_NAMED_ATTRS EXECUTE DELETE_CHILD READ_ATTRIBUTES WRITE_ATTRIBUTES WRITE_RETENTION WRITE_RETENTION_HOLD \
    DELETE READ_ACL WRITE_ACL WRITE_OWNER SYNCHRONIZE

complete -c aclck-tree -n "not __fish_seen_subcommand_from $words" -f
complete -c aclck-tree -n "not __fish_seen_subcommand_from $words" -l version -d 'Show the version'
complete -c aclck-tree -l help -d 'Show help'
complete -c aclck-tree -n "not __fish_seen_subcommand_from $words" -a scan -d 'Read trees into a snapshot'
complete -c aclck-tree -n "not __fish_seen_subcommand_from $words" -a merge -d 'Join snapshots'
complete -c aclck-tree -n "not __fish_seen_subcommand_from $words" -a info -d 'What a snapshot has'
complete -c aclck-tree -n "not __fish_seen_subcommand_from $words" -a who -d 'Who may do something'
complete -c aclck-tree -n "not __fish_seen_subcommand_from $words" -a may -d 'On what one user may do something'
complete -c aclck-tree -n "not __fish_seen_subcommand_from $words" -a why -d 'Which ACE or entry decides'
complete -c aclck-tree -n "not __fish_seen_subcommand_from $words" -a same -d 'Which objects grant the same'
complete -c aclck-tree -n "not __fish_seen_subcommand_from $words" -a diff -d 'What changed, and for whom'
complete -c aclck-tree -n "not __fish_seen_subcommand_from $words" -a policy -d 'Whether a tree keeps a policy'
complete -c aclck-tree -n "not __fish_seen_subcommand_from $words" -a report -d 'Make a page of HTML'
complete -c aclck-tree -n "not __fish_seen_subcommand_from $words" -a load -d 'Put snapshots into a database'

complete -c aclck-tree -n '__fish_seen_subcommand_from scan merge report' -s o -r -d 'The file to make'
complete -c aclck-tree -n '__fish_seen_subcommand_from scan' -l one-file-system -d 'Do not go into others'
complete -c aclck-tree -n '__fish_seen_subcommand_from scan' -l quiet -d 'Report failures alone'
complete -c aclck-tree -n '__fish_seen_subcommand_from scan' -l from -r -d 'Read only the paths of a list'
complete -c aclck-tree -n '__fish_seen_subcommand_from scan' -l lines -d 'A line feed ends each path'
complete -c aclck-tree -n '__fish_seen_subcommand_from scan' -l archive -r -d 'Read this archive, and no tree'
complete -c aclck-tree -n '__fish_seen_subcommand_from scan' -l root -x -d 'The directory of the archive'
complete -c aclck-tree -n '__fish_seen_subcommand_from scan' -l shard -x -d 'Read only this shard, I/N'
complete -c aclck-tree -n '__fish_seen_subcommand_from scan' -l key -r -d 'The same for all shards'
complete -c aclck-tree -n '__fish_seen_subcommand_from scan' -l threads -x -d 'Reads at once'
complete -c aclck-tree -n '__fish_seen_subcommand_from scan' -l attribute -x -d 'Where NFSv4 lists are'
complete -c aclck-tree -n '__fish_seen_subcommand_from scan' -l host -x -d 'The name of this host'
complete -c aclck-tree -n '__fish_seen_subcommand_from who may why' -l may -x -a "$rights" -d 'What is asked'
complete -c aclck-tree -n '__fish_seen_subcommand_from who may' -l any -d 'Any of the rights'
complete -c aclck-tree -n '__fish_seen_subcommand_from who may same diff report' -l path -x -d 'Only these objects'
complete -c aclck-tree -n '__fish_seen_subcommand_from who may report load' -l reach \
    -d 'The directories above count too'
complete -c aclck-tree -n '__fish_seen_subcommand_from who why' -l obtain -d 'Also who could come to have it'
complete -c aclck-tree -n '__fish_seen_subcommand_from report' -l policy -r -d 'Rules that come first'
complete -c aclck-tree -n '__fish_seen_subcommand_from may why' -l user -x -a '(__fish_complete_users)' -d 'Who asks'
complete -c aclck-tree -n '__fish_seen_subcommand_from may why' -l groups -x -a '(__fish_complete_groups)' \
    -d 'The groups of the user'
complete -c aclck-tree -n '__fish_seen_subcommand_from may' -l all -d 'Also where it is denied'
complete -c aclck-tree -n '__fish_seen_subcommand_from who diff policy report load' -l people -r -d 'Who is asked about'
complete -c aclck-tree -n '__fish_seen_subcommand_from who diff policy report load' -l passwd -r \
    -d 'People of a passwd file'
complete -c aclck-tree -n '__fish_seen_subcommand_from who diff policy report load' -l group -r \
    -d 'Groups of a group file'
complete -c aclck-tree -n '__fish_seen_subcommand_from who diff policy report load' -l getent \
    -d 'The accounts of this system'
complete -c aclck-tree -n '__fish_seen_subcommand_from may why' -l getent -d 'The groups that this system knows'
complete -c aclck-tree -n '__fish_seen_subcommand_from who diff policy report load' -l skip-system \
    -d 'No accounts of the system'
complete -c aclck-tree -n '__fish_seen_subcommand_from diff' -l people-then -r -d 'Who is asked about in NEW'
complete -c aclck-tree -n '__fish_seen_subcommand_from who may why diff policy report load' -l domain -x \
    -d 'What follows @ in names'
complete -c aclck-tree -n '__fish_seen_subcommand_from who may why policy report' -l linux \
    -d 'Ask POSIX ACLs as Linux does'
complete -c aclck-tree -n '__fish_seen_subcommand_from who policy report' -l draft -d 'Ask POSIX ACLs as acl(5) says'
complete -c aclck-tree -n '__fish_seen_subcommand_from who same diff policy' -l each -d 'One line per object'
complete -c aclck-tree -n '__fish_seen_subcommand_from policy' -l fix -r -d 'Write mended lists here'
complete -c aclck-tree -n '__fish_seen_subcommand_from policy report' -l judgements -x -d 'How many may be made'
complete -c aclck-tree -n '__fish_seen_subcommand_from load' -l dsn -x -d 'The database'
complete -c aclck-tree -n '__fish_seen_subcommand_from load' -l as-superuser -d 'Load although the role is a superuser'
complete -c aclck-tree -n '__fish_seen_subcommand_from diff' -l pair -x -d 'These are one tree, OLD=NEW'
complete -c aclck-tree -n '__fish_seen_subcommand_from same' -l inherit -d 'What is made below counts too'
complete -c aclck-tree -n '__fish_seen_subcommand_from who may why same diff policy report info' -l csv \
    -d 'Write CSV'
complete -c aclck-tree -n '__fish_seen_subcommand_from who may why same diff policy report info' -l raw \
    -d 'With --csv, guard no cell'
complete -c aclck-tree -n '__fish_seen_subcommand_from who may why same diff policy report info' -l json \
    -d 'Write one JSON object per line'
