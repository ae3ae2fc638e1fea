# Completion of tmem's command line for bash. .ci/install compares it with `tmem --help`.

_tmem() {
    local subcommands="run threads bench show init serve check help"
    local with_value=" --disk --shape --millis --job "
    local cur=${COMP_WORDS[COMP_CWORD]} subcommand="" given=0 is_value="" is_plain="" word options="" takes=()

    for word in "${COMP_WORDS[@]:1:COMP_CWORD-1}"; do
        if [[ $word == = ]]; then
            # (bash divides --disk=PATH at the sign, which the value follows)
            is_value=${is_value:-yes}
        elif [[ $is_value ]]; then
            is_value=""
        elif [[ ! $is_plain && $word == -- ]]; then
            is_plain=yes
        elif [[ ! $is_plain && $with_value == *" $word "* ]]; then
            is_value=$word
        elif [[ ! $is_plain && $word == -* ]]; then
            :
        elif [[ ! $subcommand ]]; then
            subcommand=$word
        else
            given=$((given + 1))
        fi
    done
    if [[ $cur == = ]]; then
        is_value=${is_value:-yes} cur=""
    fi

    # The options of the subcommand, of which each has some, and what its other words are.
    local each="--explain --help -h"
    case $subcommand in
        "") options="--help -h --version -V" takes=(subcommand) ;;
        run) options="--disk $each" takes=(file) ;;
        threads) options="--disk $each" takes=(number number) ;;
        bench) options="--disk --millis --job $each" ;;
        show) options="--json --hex $each" takes=(file) ;;
        init) options="--in-place $each" takes=(file file) ;;
        serve) options="--shape $each" takes=(file) ;;
        check) options="$each" takes=(file) ;;
        help) takes=(subcommand) ;;
    esac

    local kind=${takes[given]-option}
    if [[ $is_value == --millis || $is_value == --job ]]; then
        kind=number
    elif [[ $is_value ]]; then
        kind=file
    elif [[ ! $is_plain && $cur == -* ]]; then
        kind=option
    fi
    COMPREPLY=()
    case $kind in
        file)
            mapfile -t COMPREPLY < <(compgen -f -- "$cur")
            # (where no name begins with the word as it stands, since it has a quote, bash looks for files itself)
            compopt -o filenames -o default 2> /dev/null
            ;;
        subcommand) mapfile -t COMPREPLY < <(compgen -W "$subcommands" -- "$cur") ;;
        option) [[ $is_plain ]] || mapfile -t COMPREPLY < <(compgen -W "$options" -- "$cur") ;;
    esac
}

complete -F _tmem tmem
