# Completion of aclck-probe for fish.

set -l forms xdr text nfs4-tools nfs-text nfs-text-ids nfs41 nfs41-ids posix posix-access posix-default posix-archive \
    posix-archive-default posix-gnu-tar posix-gnu-tar-default

complete -c aclck-probe -l questions -r -F -d 'Write the questions of a list'
complete -c aclck-probe -l form -x -a "$forms" -d 'The form of the list'
complete -c aclck-probe -l file -d 'It is the list of a file'
complete -c aclck-probe -l directory -d 'It is the list of a directory'
complete -c aclck-probe -l names -r -F -d 'Names and their ids'
complete -c aclck-probe -l system -d 'The names and ids of this system'
complete -c aclck-probe -l domain -x -d 'What follows @ in names'
complete -c aclck-probe -l try -x -a '(__fish_complete_directories)' -d 'Also try operations, on copies in this directory'
complete -c aclck-probe -l server -x -d 'Ask a server of NFSv4 about lists of this program'
complete -c aclck-probe -l port -x -d 'The port of the server'
complete -c aclck-probe -l attribute -x -d 'The attribute with NFSv4 lists'
complete -c aclck-probe -l most -x -d 'How many questions one list may have'
complete -c aclck-probe -l seconds -x -d 'How long one question may take'
complete -c aclck-probe -l json -d 'Write one JSON object for each object'
complete -c aclck-probe -l help -d 'Show help'
complete -c aclck-probe -l version -d 'Show the version'
