# Completion of pst_report for fish.

complete -c pst_report -f
complete -c pst_report -s h -l help -d 'Show help'
complete -c pst_report -l program -r -F -d 'Asks this program'
complete -c pst_report -l many -r -F -d 'Writes a page over many stores'
complete -c pst_report -l version -d 'Shows the version'
complete -c pst_report -k -a "(__fish_complete_suffix .pst)"
