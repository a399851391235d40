# Completion of procmail-stat(1) for fish.
complete -c procmail-stat -o o -d 'Read the old log files'
complete -c procmail-stat -l since -x -d 'Begin at the first mail of this day'
complete -c procmail-stat -l format -x -a 'text json' -d 'How the sums are written'
complete -c procmail-stat -l help -d 'Print the options'
complete -c procmail-stat -l version -d 'Print the version'
