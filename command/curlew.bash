# Completion of curlew(1) for bash.

# The options of a command.
_curlew_options()
{
    local forms='--csv --tsv --json' names='--names --layout'

    case $1 in
        layout) echo "$forms $names --extends --no-head" ;;
        pack) echo "$forms $names --output -o --hex --text --strict --keep-going --no-head --for-spreadsheet" ;;
        read) echo "$forms $names --long --records --jobs -j --from --count --fields --strict --no-head --for-spreadsheet" ;;
        show) echo "$names --html --output -o" ;;
        sheetwrite) echo "$forms $names --record --output -o --hex --text --strict --keep-going --no-head --for-spreadsheet" ;;
        sheetread) echo "$forms $names --long --record --output -o --hex --strict --fields --no-head --for-spreadsheet" ;;
        sheetrescue) echo "$forms --output -o --no-head" ;;
        compare) echo "$forms $names --records --sheets --different --from --count --fields --strict --no-head" ;;
        mean) echo "$forms $names --legs --records --input --files-from --from --count --fields --no-head" ;;
        perl) echo "$forms" ;;
        *) echo "--version $(_curlew_options read) --output -o" ;;
    esac
}

_curlew()
{
    local word=${COMP_WORDS[COMP_CWORD]} before=${COMP_WORDS[COMP_CWORD - 1]}
    local commands="layout pack read show sheet compare mean perl help"
    local command='' second='' i operands=0

    COMPREPLY=()
    # bash takes --output=name apart at the =
    if [[ $word == = ]]; then
        word=''
    elif [[ $before == = ]]; then
        before=${COMP_WORDS[COMP_CWORD - 2]}
    fi
    for ((i = 1; i < COMP_CWORD; i++)); do
        case ${COMP_WORDS[i]} in
            -o | --output | --layout | --files-from | --legs | --names | --fields | --from | --count | --input)
                i=$((i + 1))
                [[ ${COMP_WORDS[i]} != = ]] || i=$((i + 1))
                ;;
            --records | --jobs | -j) [[ ! ${COMP_WORDS[i + 1]} =~ ^[0-9]+$ ]] || i=$((i + 1)) ;;
            --layout=*) operands=$((operands + 1)) ;;
            -* | =) ;;
            *)
                if [[ -z $command ]]; then
                    command=${COMP_WORDS[i]}
                elif [[ $command == sheet && -z $second ]]; then
                    second=${COMP_WORDS[i]}
                else
                    operands=$((operands + 1))
                fi
                ;;
        esac
    done
    [[ " ${COMP_WORDS[*]} " != *" --layout "* && " ${COMP_WORDS[*]} " != *" --sheets "* ]] || operands=$((operands + 1))
    case $before in
        -o | --output | --layout | --files-from)
            mapfile -t COMPREPLY < <(compgen -f -- "$word")
            return
            ;;
        --input)
            mapfile -t COMPREPLY < <(compgen -W 'csv tsv json' -- "$word")
            return
            ;;
        --legs | --names | --fields | --from | --count) return ;;
        --records | --jobs | -j) [[ ! $word =~ ^[0-9]+$ ]] || return ;;
    esac
    case $word in
        --output=* | --layout=* | --files-from=*) mapfile -t COMPREPLY < <(compgen -P "${word%%=*}=" -f -- "${word#*=}") ;;
        -*) mapfile -t COMPREPLY < <(compgen -W "--help $(_curlew_options "$command$second")" -- "$word") ;;
        *)
            if [[ -z $command || $command == help ]]; then
                mapfile -t COMPREPLY < <(compgen -W "$commands" -- "$word")
            elif [[ $command == sheet && -z $second ]]; then
                mapfile -t COMPREPLY < <(compgen -W "write read rescue" -- "$word")
            elif [[ $word == @* ]]; then
                mapfile -t COMPREPLY < <(compgen -P @ -f -- "${word#@}")
            elif [[ $command$second == mean || $command$second == sheetread || $operands -gt 0 ]]; then
                mapfile -t COMPREPLY < <(compgen -f -- "$word")
            fi
            ;;
    esac
}
complete -o filenames -F _curlew curlew
