# Completions of tfk for fish, made from its help by tools/completions.

# Of what fish completes, only what is there: after a `:` or `=` it begins another name, and of a
# name with a newline it makes two. A name with a dash first would be taken for options, but after
# `--`.
function __tfk_files
    for name in (complete -C "'' "(commandline -ct) | string replace -r '\t.*' '' | string match -rv '\.(tfundo|tfundo\.new|tfnew)$')
        if string match -q -- '-*' "$name"; and not contains -- -- (commandline -opc)
            continue
        end
        if test -e "$name"; or string match -qr '^[$~]' -- "$name"
            echo -- "$name"
        end
    end
end

complete -c tfk -f
complete -c tfk -n __fish_use_subcommand -a fmt -d 'Formats files in place'
complete -c tfk -n __fish_use_subcommand -a lint -d 'Reports the issues in files'
complete -c tfk -n __fish_use_subcommand -a fix -d 'Fixes issues in files in place'
complete -c tfk -n __fish_use_subcommand -a revert -d 'Reverts the last command that changed a file, or an earlier one'
complete -c tfk -n __fish_use_subcommand -a help -d 'Print this message or the help of the given subcommand(s)'
complete -c tfk -n __fish_use_subcommand -s h -l help -d 'Print help'
complete -c tfk -n __fish_use_subcommand -s V -l version -d 'Print version'
complete -c tfk -n '__fish_seen_subcommand_from fmt' -l check -d 'Write nothing; print the names of files that are not formatted'
complete -c tfk -n '__fish_seen_subcommand_from fmt' -l locate -d 'Also print where each error is, and why'
complete -c tfk -n '__fish_seen_subcommand_from fmt' -s h -l help -d 'Print help'
complete -c tfk -n '__fish_seen_subcommand_from lint' -l enable-rule -x -a 'all terraform_comment_syntax terraform_deprecated_index terraform_deprecated_interpolation terraform_empty_list_equality terraform_deprecated_lookup terraform_naming_convention terraform_typed_variables terraform_documented_variables terraform_documented_outputs' -d 'Enable a rule, or `all`; applied last'
complete -c tfk -n '__fish_seen_subcommand_from lint' -l disable-rule -x -a 'all terraform_comment_syntax terraform_deprecated_index terraform_deprecated_interpolation terraform_empty_list_equality terraform_deprecated_lookup terraform_naming_convention terraform_typed_variables terraform_documented_variables terraform_documented_outputs' -d 'Disable a rule, or `all`; applied first'
complete -c tfk -n '__fish_seen_subcommand_from lint' -l locate -d 'Also print where each error is, and why'
complete -c tfk -n '__fish_seen_subcommand_from lint' -s h -l help -d 'Print help'
complete -c tfk -n '__fish_seen_subcommand_from fix' -l enable-rule -x -a 'all terraform_comment_syntax terraform_deprecated_index terraform_deprecated_interpolation terraform_empty_list_equality terraform_deprecated_lookup terraform_naming_convention terraform_typed_variables terraform_documented_variables terraform_documented_outputs' -d 'Enable a rule, or `all`; applied last'
complete -c tfk -n '__fish_seen_subcommand_from fix' -l disable-rule -x -a 'all terraform_comment_syntax terraform_deprecated_index terraform_deprecated_interpolation terraform_empty_list_equality terraform_deprecated_lookup terraform_naming_convention terraform_typed_variables terraform_documented_variables terraform_documented_outputs' -d 'Disable a rule, or `all`; applied first'
complete -c tfk -n '__fish_seen_subcommand_from fix' -l locate -d 'Also print where each error is, and why'
complete -c tfk -n '__fish_seen_subcommand_from fix' -s h -l help -d 'Print help'
complete -c tfk -n '__fish_seen_subcommand_from revert' -l take -x -d 'Revert command N alone, the oldest being 1'
complete -c tfk -n '__fish_seen_subcommand_from revert' -l list -d 'Write nothing; list the recorded commands'
complete -c tfk -n '__fish_seen_subcommand_from revert' -l locate -d 'Also print where each error is, and why'
complete -c tfk -n '__fish_seen_subcommand_from revert' -s h -l help -d 'Print help'
complete -c tfk -n '__fish_seen_subcommand_from fmt lint fix revert' -a '(__tfk_files)'
complete -c tfk -n '__fish_seen_subcommand_from help' -a 'fmt lint fix revert'
