# Completions of fish for ctd-lint.

set --local kinds after-eof always-false always-true bad-count bad-exponent caret counter-behind counter-set division-by-zero dollar empty-pattern empty-range empty-string hidden-alternative kept-array letter-range line-feed literal-index no-bound no-element-here no-index no-value no-value-here other-shape other-word overflow own-reads range-false range-true repeats-bounds same-names same-sides unknown-preset unreachable unread wrong-type wrong-type-here
complete -c ctd-lint -s D -l define -x -d 'Name variables that a check is given'
complete -c ctd-lint -l ignore -x -a "(__fish_append , $kinds)" -d 'Leave out findings of these kinds'
complete -c ctd-lint -l verdicts -d 'Tell whether every data file gets a verdict'
complete -c ctd-lint -l guarantees -d 'Tell what every accepted file has'
complete -c ctd-lint -l json -d 'Write an object of JSON a line'
complete -c ctd-lint -s h -l help -d 'Show the help'
complete -c ctd-lint -s V -l version -d 'Show the version'
complete -c ctd-lint -k -xa '(__fish_complete_suffix .ctd)'
