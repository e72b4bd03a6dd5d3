# Completions of b3store for fish: the subcommands, and each one's options. -r is an option that takes a value.
set -l subcommands sum check run serve upload audit migrate

complete -c b3store -n "not __fish_seen_subcommand_from $subcommands help" -f -a "$subcommands help"
complete -c b3store -n "not __fish_seen_subcommand_from $subcommands help" -l help -d 'Print help'
complete -c b3store -n "not __fish_seen_subcommand_from $subcommands help" -l version -d 'Print the version'
complete -c b3store -n "__fish_seen_subcommand_from help" -f -a "$subcommands"

complete -c b3store -n "__fish_seen_subcommand_from sum" -l name -r -d 'Name in the check line of standard input'
complete -c b3store -n "__fish_seen_subcommand_from sum" -l files-from -r -F -d 'Hash the files that a list names'
complete -c b3store -n "__fish_seen_subcommand_from sum" -l null -d 'Names of the list end with a zero byte'
complete -c b3store -n "__fish_seen_subcommand_from sum" -l key -r -d 'Key of 64 hexadecimal digits'
complete -c b3store -n "__fish_seen_subcommand_from sum" -l key-file -r -F -d 'File with the key'
complete -c b3store -n "__fish_seen_subcommand_from sum" -l context -r -d 'Derive a key in this context'
complete -c b3store -n "__fish_seen_subcommand_from sum" -l length -r -d 'Bytes of extended output'
complete -c b3store -n "__fish_seen_subcommand_from sum" -l threads -r -d 'Maximum number of threads'
complete -c b3store -n "__fish_seen_subcommand_from sum" -l no-progress -d 'Show no progress'
complete -c b3store -n "__fish_seen_subcommand_from sum" -l help -d 'Print help'

complete -c b3store -n "__fish_seen_subcommand_from check" -l quiet -d 'Leave out the lines of good files'
complete -c b3store -n "__fish_seen_subcommand_from check" -l status -d 'Write nothing'
complete -c b3store -n "__fish_seen_subcommand_from check" -l ignore-missing -d 'Leave out the lines of missing files'
complete -c b3store -n "__fish_seen_subcommand_from check" -l threads -r -d 'Maximum number of threads'
complete -c b3store -n "__fish_seen_subcommand_from check" -l no-progress -d 'Show no progress'
complete -c b3store -n "__fish_seen_subcommand_from check" -l help -d 'Print help'

complete -c b3store -n "__fish_seen_subcommand_from upload" -l workers -r -d 'Number of workers'
complete -c b3store -n "__fish_seen_subcommand_from upload" -l part-chunks -r -d 'Chunks of a part'
complete -c b3store -n "__fish_seen_subcommand_from upload" -l journal -d 'Write the journal too'
complete -c b3store -n "__fish_seen_subcommand_from upload" -l no-progress -d 'Show no progress'
complete -c b3store -n "__fish_seen_subcommand_from upload" -l help -d 'Print help'

complete -c b3store -n "__fish_seen_subcommand_from serve" -l at -r -F -d 'Named pipe for new clients'
complete -c b3store -n "__fish_seen_subcommand_from serve" -l sessions -r -d 'Clients served at a time'
complete -c b3store -n "__fish_seen_subcommand_from serve" -l keep-uploads -d 'Keep the open uploads of a client that ends'
complete -c b3store -n "__fish_seen_subcommand_from serve" -l load -r -F -d 'Log to run first'
complete -c b3store -n "__fish_seen_subcommand_from serve" -l torn -d 'Leave out a truncated last line of the log'
complete -c b3store -n "__fish_seen_subcommand_from serve" -l help -d 'Print help'

complete -c b3store -n "__fish_seen_subcommand_from run" -l help -d 'Print help'
complete -c b3store -n "__fish_seen_subcommand_from audit" -l help -d 'Print help'
complete -c b3store -n "__fish_seen_subcommand_from migrate" -l help -d 'Print help'
