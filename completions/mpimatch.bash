# completions of mpimatch for bash, made by tools/words of its help
_mpimatch() {
    local word=${COMP_WORDS[COMP_CWORD]} before=${COMP_WORDS[COMP_CWORD - 1]} verb= words= files= at
    local verbs="explain graph page report calls timeline replay cluster check pack init help"
    for ((at = 1; at < COMP_CWORD; at++)); do
        [[ " $verbs " == *" ${COMP_WORDS[at]} "* ]] && verb=${COMP_WORDS[at]} && break
    done
    COMPREPLY=()
    case $verb:$before in
        explain:--threads) return ;;
        explain:--rank) return ;;
        graph:--threads) return ;;
        page:--threads) return ;;
        report:--threads) return ;;
        calls:--threads) return ;;
        timeline:--threads) return ;;
        timeline:--from) return ;;
        timeline:--to) return ;;
        timeline:--ranks) return ;;
        replay:--threads) return ;;
        check:--threads) return ;;
        pack:--threads) return ;;
        init:--sends) words="wait buffer" ;;
        init:--layout) files=yes ;;
        init:--manifest) files=yes ;;
        init:--threads) return ;;
        *)
            case $verb in
                "") words="$verbs -h --help -V --version" ;;
                help) words="$verbs" ;;
                explain) words="-q --quiet --verbose --threads --json --all --rank -h --help" files=yes ;;
                graph) words="-q --quiet --verbose --threads --all -h --help" files=yes ;;
                page) words="-q --quiet --verbose --threads -h --help" files=yes ;;
                report) words="-q --quiet --verbose --threads --json -h --help" files=yes ;;
                calls) words="-q --quiet --verbose --threads --csv --json -h --help" files=yes ;;
                timeline) words="-q --quiet --verbose --threads --from --to --ranks -h --help" files=yes ;;
                replay) words="-q --quiet --threads -h --help" files=yes ;;
                cluster) words="-q --quiet -h --help" files=yes ;;
                check) words="-q --quiet --verbose --threads --json -h --help" files=yes ;;
                pack) words="-q --quiet --threads -h --help" files=yes ;;
                init) words="--sends --layout --manifest --force -q --quiet --threads --json -h --help" files=yes ;;
            esac
            [[ $word == -* ]] && files= || { [[ $files ]] && words=; }
            ;;
    esac
    [[ $words ]] && mapfile -t COMPREPLY < <(compgen -W "$words" -- "$word")
    [[ $files ]] && mapfile -t COMPREPLY < <(compgen -f -- "$word") && compopt -o filenames 2>/dev/null
    return 0
}
complete -F _mpimatch mpimatch
