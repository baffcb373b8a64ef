# Completions of fish for ctd-cover.

complete -c ctd-cover -s D -l define -x -d 'Give values to variables before the check'
complete -c ctd-cover -s w -l whitespace-ok -d 'The blanks of the data may differ'
complete -c ctd-cover -l max-steps -x -d 'Stop a check after so many steps'
complete -c ctd-cover -s j -l jobs -x -d 'Run so many checks at once'
complete -c ctd-cover -s t -l table -d 'List all that was seen'
complete -c ctd-cover -s g -l groups -d 'Tell of each folder of the data apart'
complete -c ctd-cover -l checker -r -d 'The checker'
complete -c ctd-cover -l files-from -r -d 'Read the names of further files from a file'
complete -c ctd-cover -s h -l help -d 'Show the help'
complete -c ctd-cover -s V -l version -d 'Show the version'
complete -c ctd-cover -n 'not string match -q "*.ctd" -- (commandline -poc)' -k -xa '(__fish_complete_suffix .ctd)'
