# Completions of fish for ctd-language-server.

complete -c ctd-language-server -f
complete -c ctd-language-server -l checker -r -F -d 'The checker'
complete -c ctd-language-server -s h -l help -d 'Show the help'
complete -c ctd-language-server -s V -l version -d 'Show the version'
