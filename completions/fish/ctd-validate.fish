# Completions of fish for ctd-validate.

complete -c ctd-validate -l feedback -xa '(__fish_complete_directories)' -d 'Leave what ctd-show says in a folder'
complete -c ctd-validate -l checker -r -d 'The checker'
complete -c ctd-validate -s h -l help -d 'Show the help'
complete -c ctd-validate -s V -l version -d 'Show the version'
complete -c ctd-validate -n 'not string match -q "*.ctd" -- (commandline -poc)' -k -xa '(__fish_complete_suffix .ctd)'
