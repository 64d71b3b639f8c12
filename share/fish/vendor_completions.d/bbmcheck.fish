# tools/package/make_man.py writes this file from what the program prints with --help and --version, and from docs/FORMATS.md.
# A word is never a file; after `<` fish completes files by itself.
complete -c bbmcheck -f
complete -c bbmcheck -n __fish_use_subcommand -a check -d 'Checks a layout against its circuit by a certificate'
complete -c bbmcheck -n __fish_use_subcommand -a run -d 'Runs a layout under an assignment'
complete -c bbmcheck -n __fish_use_subcommand -a value -d 'Evaluates a circuit under an assignment'
complete -c bbmcheck -n __fish_use_subcommand -a modules -d 'Lists the modules of a certificate'
complete -c bbmcheck -n __fish_use_subcommand -a migrate -d 'Writes a bundle in certificate version 2'
complete -c bbmcheck -n __fish_use_subcommand -a help -d 'Print this message or the help of the given subcommand(s)'
complete -c bbmcheck -n '__fish_use_subcommand' -s h -l help -d 'Print help'
complete -c bbmcheck -n '__fish_use_subcommand' -s V -l version -d 'Print version'
complete -c bbmcheck -n '__fish_seen_subcommand_from check' -l workers -x -d 'How many workers share the modules, 1 to 64 [default: 1]'
complete -c bbmcheck -n '__fish_seen_subcommand_from check' -s h -l help -d 'Print help'
complete -c bbmcheck -n '__fish_seen_subcommand_from run' -s h -l help -d 'Print help'
complete -c bbmcheck -n '__fish_seen_subcommand_from value' -s h -l help -d 'Print help'
complete -c bbmcheck -n '__fish_seen_subcommand_from modules' -s h -l help -d 'Print help'
complete -c bbmcheck -n '__fish_seen_subcommand_from migrate' -s h -l help -d 'Print help'
complete -c bbmcheck -n '__fish_seen_subcommand_from help' -a 'check run value modules migrate'
