# Completion of procmail-explain(1) for fish.
complete -c procmail-explain -o q -d 'Print the last line alone'
complete -c procmail-explain -o s -d 'Standard input is a mailbox'
complete -c procmail-explain -l compare -r -d 'Which mails go elsewhere by this rcfile'
complete -c procmail-explain -l format -x -a 'text json' -d 'How it is written'
complete -c procmail-explain -l answer -x -d 'What a program answers'
complete -c procmail-explain -l run -d 'Start the programs of conditions, backquotes and filters'
complete -c procmail-explain -l help -d 'Print the options'
complete -c procmail-explain -l version -d 'Print the version'
