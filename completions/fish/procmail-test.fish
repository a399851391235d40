# Completion of procmail-test(1) for fish.
complete -c procmail-test -l format -x -a 'tap junit' -d 'How the report is written'
complete -c procmail-test -l help -d 'Print the options'
complete -c procmail-test -l version -d 'Print the version'
