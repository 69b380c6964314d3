# Completions of tp for bash. tests/words compares the commands and options with the help of the program.

_tp() {
    local word=${COMP_WORDS[COMP_CWORD]} before=${COMP_WORDS[COMP_CWORD - 1]} command= choices= at
    for ((at = 1; at < COMP_CWORD; at++)); do
        if [[ ${COMP_WORDS[at]} != -* ]]; then
            command=${COMP_WORDS[at]}
            break
        fi
    done
    case $before in
        --feed)
            compopt -o filenames
            mapfile -t COMPREPLY < <(compgen -d -- "$word")
            return
            ;;
        --store | --from-file | --to-file)
            compopt -o filenames
            mapfile -t COMPREPLY < <(compgen -f -- "$word")
            return
            ;;
        --to)
            if [[ $command = migrate ]]; then
                compopt -o filenames
                mapfile -t COMPREPLY < <(compgen -f -- "$word")
            fi
            return
            ;;
        --format)
            choices="lines json geojson"
            if [[ $command = reach ]]; then
                choices+=" csv"
            fi
            ;;
        --days) choices="1 2 3 4 5 6 7 8 9 10 11 12 13 14" ;;
        --rides) choices="1 2 3 4 5 6 7 8" ;;
        --date | --on | --from | --at | --until | --until-on | --next | --within | --zone | --default-walk | --workers | --part) return ;;
        *)
            case $command in
                "") choices="check stops direct scan reach matrix build list ask serve audit migrate merge faults help --help --version" ;;
                check) choices="--feed --date --all --format --help" ;;
                stops) choices="--feed --all --header --format --help" ;;
                direct) choices="--feed --date --from --to --at --format --days --zone --rides --default-walk --help" ;;
                reach)
                    choices="--feed --date --from --at --on --until --until-on --within --format"
                    choices+=" --days --zone --rides --default-walk --help"
                    ;;
                matrix)
                    choices="--feed --date --from-file --to-file --at --on --until --until-on --workers --progress"
                    choices+=" --days --zone --rides --default-walk --help"
                    ;;
                scan)
                    choices="--feed --date --from --to --at --until --until-on --next --legs --names --format"
                    choices+=" --days --zone --rides --default-walk --help"
                    ;;
                build)
                    choices="--feed --date --store --workers --progress --part --format"
                    choices+=" --days --zone --rides --default-walk --help"
                    ;;
                list) choices="--feed --date --store --format --days --zone --rides --default-walk --help" ;;
                ask)
                    choices="--feed --date --store --from --to --at --on --until --until-on --next --legs --names --format"
                    choices+=" --days --zone --rides --default-walk --help"
                    ;;
                serve) choices="--feed --date --store --workers --format --days --zone --rides --default-walk --help" ;;
                audit) choices="--feed --date --store --from --all --workers --progress --days --zone --rides --default-walk --help" ;;
                migrate) choices="--feed --date --store --to --progress --days --zone --rides --default-walk --help" ;;
                faults) choices="--help" ;;
                merge)
                    if [[ $word = [!-]* ]]; then
                        compopt -o filenames
                        mapfile -t COMPREPLY < <(compgen -f -- "$word")
                        return
                    fi
                    choices="--feed --date --store --progress --days --zone --rides --default-walk --help"
                    ;;
                help) choices="check stops direct scan reach matrix build list ask serve audit migrate merge faults help" ;;
            esac
            ;;
    esac
    mapfile -t COMPREPLY < <(compgen -W "$choices" -- "$word")
}

complete -F _tp tp
