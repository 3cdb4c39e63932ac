# bash completion for sefgrunn
_sefgrunn() {
    local word=${COMP_WORDS[COMP_CWORD]} options=
    if [ "$COMP_CWORD" -eq 1 ]; then
        COMPREPLY=($(compgen -W 'console html markdown roff check show terms shape notes merge join unjoin bundle figures pages room help --help --version' -- "$word"))
        return
    fi
    case ${COMP_WORDS[1]} in
        console) options='--width -w --brief -b --characters -c --output -o --help -h' ;;
        html) options='--strict -s --no-css --brief -b --output -o --help -h' ;;
        markdown) options='--brief -b --output -o --help -h' ;;
        roff) options='--title -t --section -s --output -o --help -h' ;;
        check) options='--help -h' ;;
        show) options='--output -o --help -h' ;;
        terms) options='--output -o --help -h' ;;
        shape) options='--help -h' ;;
        notes) options='--output -o --help -h' ;;
        merge) options='--output -o --help -h' ;;
        join) options='--output -o --help -h' ;;
        unjoin) options='--output -o --help -h' ;;
        bundle) options='--output -o --help -h' ;;
        figures) options='--output -o --help -h' ;;
        pages) options='--height -H --page -p --output -o --help -h' ;;
        room) options='--output -o --help -h' ;;
        help) options='--document --bash --width -w --output -o --help -h' ;;
    esac
    case $word in
        -*) COMPREPLY=($(compgen -W "$options" -- "$word")) ;;
        *) COMPREPLY=($(compgen -f -- "$word")) ;;
    esac
}
complete -o filenames -F _sefgrunn sefgrunn
