# Completions of tfk for bash, made from its help by tools/completions.

_tfk() {
    local word=${COMP_WORDS[COMP_CWORD]} at=$COMP_CWORD line=${COMP_LINE:0:COMP_POINT}
    local command=${COMP_WORDS[1]} last=$2 option= words= is_file= name= lead before part
    # a FILE of such a name would be taken for options, but after `--`
    local dashed='-*'
    COMPREPLY=()
    # The word up to the cursor. Bash splits it at `:`, `=` and `@`, and replaces only the last part
    # ($2): `lead` is what is before that, without quotes
    while [[ $line != *"$word" ]]; do
        word=${word%?}
    done
    while ((at > 1)) && [[ $line == *"${COMP_WORDS[at - 1]}$word" ]] &&
        [[ ${COMP_WORDS[at - 1]} != *[!:=@]* || ${COMP_WORDS[at]} != *[!:=@]* ]]; do
        ((at--))
        word=${COMP_WORDS[at]}$word
    done
    # after `sudo` or `command` bash-completion passes the `:` or `=` before it
    [[ $last == *[!:=]* ]] || last=
    lead=${word%"$last"}
    lead=${lead//[\\\"\']/}
    before=${COMP_WORDS[at - 1]}
    if [[ $word == --*=* ]]; then
        before=${word%%=*}
        option=$before=
    fi
    if ((at == 1)) || [[ $command == help && $at -eq 2 ]]; then
        words='fmt lint fix revert help --help --version'
        [[ $command != help || $at -eq 1 ]] || words='fmt lint fix revert'
    elif [[ $command == help ]]; then
        return
    elif [[ " ${COMP_WORDS[*]:0:at} " == *" -- "* ]]; then
        is_file=1
        dashed=
    elif [[ $before == --enable-rule || $before == --disable-rule ]]; then
        words='all terraform_comment_syntax terraform_deprecated_index terraform_deprecated_interpolation terraform_empty_list_equality terraform_deprecated_lookup terraform_naming_convention terraform_typed_variables terraform_documented_variables terraform_documented_outputs'
    elif [[ $before == --take || -n $option ]]; then
        return
    elif [[ $word == -* ]]; then
        case $command in
        fmt) words='--check --locate --help' ;;
        lint) words='--enable-rule --disable-rule --locate --help' ;;
        fix) words='--enable-rule --disable-rule --locate --help' ;;
        revert) words='--take --list --locate --help' ;;
        esac
    else
        is_file=1
    fi
    if [[ -z $is_file ]]; then
        COMPREPLY=($(compgen -W "$words" -- "${word#"$option"}"))
        return
    fi
    # compgen ends each name with //, since a name can have a newline
    while IFS= read -r part; do
        name+=$part
        if [[ $name != *// ]]; then
            name+=$'\n'
            continue
        fi
        name=${name%//}
        case $name in
        *.tfundo | *.tfundo.new | *.tfnew | $dashed) ;;
        "$lead"*)
            # readline has only a part of the name, and can't see that it is a folder
            [[ -z $lead || ! -d ${name/#\~\//$HOME/} ]] || name+=/
            COMPREPLY+=("${name#"$lead"}")
            ;;
        esac
        name=
    done < <(compgen -f -S // -- "$lead$last")
    compopt -o filenames
    [[ -z $lead || ${#COMPREPLY[@]} -ne 1 || $COMPREPLY != */ ]] || compopt -o nospace
}

complete -F _tfk tfk
