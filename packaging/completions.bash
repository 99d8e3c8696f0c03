# shellcheck shell=bash
# Completions of bash for aide-compare, made by packaging/completions.

# Of each subcommand what its operands are, and its options, each with what its value is, or =ONE,OTHER.
declare -gA _aide_compare_words=(
@COMMANDS@
)

_aide_compare() {
    local word=${COMP_WORDS[COMP_CWORD]} last=${COMP_WORDS[COMP_CWORD - 1]} about=compare first='' value='' option names
    [[ ${COMP_WORDS[0]##*/} == aide-compare ]] || about=${COMP_WORDS[0]##*/}
    if ((COMP_CWORD == 1)) && [[ $about == compare ]]; then
        first='@FIRST@'
    elif ((COMP_CWORD == 2)) && [[ $last == hosts ]]; then
        about=hosts first='@HOSTS@'
    elif ((COMP_CWORD > 1)); then
        [[ ${COMP_WORDS[1]} != hosts ]] || about="hosts ${COMP_WORDS[2]}"
        [[ -z ${_aide_compare_words[${COMP_WORDS[1]:-none}]-} ]] || about=${COMP_WORDS[1]}
    fi
    # Readline cuts words at '='.
    if [[ $word == "=" ]]; then
        word=''
    elif [[ $last == "=" ]]; then
        last=${COMP_WORDS[COMP_CWORD - 2]}
    fi
    for option in ${_aide_compare_words[$about]-}; do
        [[ $option == operand:* ]] || names+="${option%%:*} "
        [[ $option != "$last":* ]] || value=${option#*:}
    done
    if [[ -z $value && $word == -* ]]; then
        mapfile -t COMPREPLY < <(compgen -W "$names" -- "$word")
        return
    fi
    if [[ -z $value ]]; then
        value=${_aide_compare_words[$about]-}
        value=${value#operand:} value=${value%% *}
    fi
    case $value in
        =*) mapfile -t COMPREPLY < <(compgen -W "${value//[=,]/ }" -- "$word") ;;
        text | '') mapfile -t COMPREPLY < <(compgen -W "$first" -- "$word") ;;
        *) mapfile -t COMPREPLY < <(compgen -W "$first" -A "$value" -- "$word") ;;
    esac
    [[ $value != file && $value != directory ]] || compopt -o filenames 2> /dev/null
}

complete -F _aide_compare aide-compare check_aide_compare
