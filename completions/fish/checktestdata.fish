# Completions of fish for checktestdata.

complete -c checktestdata -s D -l define -x -d 'Give values to variables before the check'
complete -c checktestdata -s w -l whitespace-ok -d 'The blanks of the data may differ'
complete -c checktestdata -s q -l quiet -d 'Write nothing to standard output'
complete -c checktestdata -l max-steps -x -d 'Stop after so many steps'
complete -c checktestdata -s h -l help -d 'Show the help'
complete -c checktestdata -s V -l version -d 'Show the version'
complete -c checktestdata -n 'not string match -q "*.ctd" -- (commandline -poc)' -k -xa '(__fish_complete_suffix .ctd)'
