# Completion of office for bash: source it, or put it as `office` into /usr/share/bash-completion/completions.

_office() {
    local word=${COMP_WORDS[COMP_CWORD]} before=${COMP_WORDS[COMP_CWORD - 1]} option left=
    COMPREPLY=()
    # readline cuts words at '=' and ':' too.
    if [ "$COMP_CWORD" = 1 ]; then
        mapfile -t COMPREPLY < <(compgen -W 'init run serve report explain bill forecast gen' -- "$word")
        return
    fi
    if [ "${COMP_WORDS[1]}" = report ]; then
        mapfile -t COMPREPLY < <(compgen -W '--text' -- "$word")
        return
    fi
    case ${COMP_WORDS[1]} in
    serve | explain) ;;
    *) return ;;
    esac
    case $before in
    --listen)
        mapfile -t COMPREPLY < <(compgen -W '127.0.0.1:8080 [::1]:8080' -- "$word")
        return
        ;;
    --workers)
        mapfile -t COMPREPLY < <(compgen -W '1 2 4 8 16 32 64' -- "$word")
        return
        ;;
    --connections | = | :) return ;;
    esac
    # Each option is given at most once.
    local options='--listen --workers --connections'
    [ "${COMP_WORDS[1]}" = serve ] || options=--workers
    for option in $options; do
        case " ${COMP_WORDS[*]:2:COMP_CWORD-2} " in
        *" $option "*) ;;
        *) left="$left $option" ;;
        esac
    done
    mapfile -t COMPREPLY < <(compgen -W "$left" -- "$word")
}

# The tools of the package.
_office_tool() {
    local word=${COMP_WORDS[COMP_CWORD]} before=${COMP_WORDS[COMP_CWORD - 1]} choices=
    COMPREPLY=()
    case $before in
    --server | --to | --from)
        mapfile -t COMPREPLY < <(compgen -W 'http://127.0.0.1:8080' -- "$word")
        return
        ;;
    --client)
        mapfile -t COMPREPLY < <(compgen -W 'boto3 aws' -- "$word")
        return
        ;;
    --nearest | --class)
        mapfile -t COMPREPLY < <(compgen -W 'STANDARD STANDARD_IA ONEZONE_IA GLACIER_IR GLACIER DEEP_ARCHIVE' -- "$word")
        return
        ;;
    --program | --run | --bill)
        mapfile -t COMPREPLY < <(compgen -c -f -- "$word")
        return
        ;;
    --keys)
        mapfile -t COMPREPLY < <(compgen -W 'url plain' -- "$word")
        return
        ;;
    --bucket | --most | --limit | --queue | --endpoint-url | --until | --resource | --schema | --suspended | --unit | --listen | --keep | = | :) return ;;
    esac
    case $word,$1 in
    -*,office-act-all) choices='--server --run --bucket --buckets --journal --most --json --log --dry-run --program --help' ;;
    -*,office-month-end) choices='--server --bucket --buckets --journal --most --log --folder --bill --help' ;;
    -*,office-lifecycle) choices='--server --bucket --resource --leave-out --yes --preview --journal --program --until --page --unit --help' ;;
    -*,office-import-inventory)
        choices='--server --out --schema --bucket --keys --current --suspended --names --state --map --nearest --anew --tags --uploads --parts --help'
        ;;
    -*,office-follow)
        choices='--server --journal --map --bucket --class --nearest --dead --retry --restored --listen --queue --ask-store --endpoint-url --client --help'
        ;;
    -*,office-compare) choices='--server --journal --map --current --nearest --schema --keys --names --json --help' ;;
    -*,office-apply) choices='--map --endpoint-url --client --bucket --yes --limit --report --help' ;;
    -*,office-bill) choices='--server --report --bucket --buckets --journal --unit --out --help' ;;
    -*,office-usage-page) choices='--server --report --meters --tariff --bills --bucket --buckets --journal --unit --out --help' ;;
    -*,office-usage) choices='--server --bucket --buckets --journal --out --help' ;;
    -*,office-metrics) choices='--server --bucket --buckets --journal --log --backups --out --listen --help' ;;
    -*,office-backup) choices='--keep --other-disk --replaced --help' ;;
    -*,office-journal-dump) choices='--check --slots --help' ;;
    *,office-journal-digest)
        case " ${COMP_WORDS[*]} " in
        *' verify '* | *' extend '* | *' mend '*) ;;
        *) choices='verify extend mend' ;;
        esac
        ;;
    *,office-lifecycle)
        case " ${COMP_WORDS[*]} " in
        *' get '* | *' set '* | *' add '* | *' edit '* | *' remove '* | *' preview '*) ;;
        *) choices='get set add edit remove preview' ;;
        esac
        ;;
    esac
    if [ -n "$choices" ]; then
        mapfile -t COMPREPLY < <(compgen -W "$choices" -- "$word")
    else
        mapfile -t COMPREPLY < <(compgen -f -- "$word")
    fi
}

complete -F _office office
complete -F _office_tool office-act-all office-month-end office-lifecycle office-import-inventory office-bill office-usage \
    office-usage-page office-metrics office-backup office-journal-digest office-journal-dump office-follow office-compare office-apply
