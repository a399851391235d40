# Completion of lockfile(1) for fish.
complete -c lockfile -o r -x -d 'Try so many times more'
complete -c lockfile -o l -x -d 'Remove a lock file older than so many seconds'
complete -c lockfile -o s -x -d 'Wait so many seconds after a removal by force'
complete -c lockfile -o ! -d 'Exchange the statuses 0 and 73'
complete -c lockfile -o ml -d 'Lock the system mailbox'
complete -c lockfile -o mu -d 'Unlock the system mailbox'
