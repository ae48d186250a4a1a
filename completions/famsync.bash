# Completion of famsync for bash: source it, or put it into a folder of bash-completion as `famsync`.
# tests/program/help compares these words with --help.
# words: format migrate run threads serve replay dump info check export crashes help --help --version --layout --log --key --replace --preallocate --trust --json --html

_famsync() {
    local word=${COMP_WORDS[COMP_CWORD]} command=${COMP_WORDS[1]:-} words=
    if [ "$COMP_CWORD" -eq 1 ]; then
        words='format migrate run threads serve replay dump info check export crashes help --help --version'
    elif [ "$command" = help ]; then
        words='format migrate run threads serve replay dump info check export crashes'
    elif [ "${COMP_WORDS[COMP_CWORD - 1]}" = --layout ]; then
        words='1 2 3 4 5 6'
        [ "$command" != migrate ] || words='3 4 5 6'
    elif [[ $word == -* ]]; then
        case $command in
        format) words='--layout --log --key --replace --preallocate --json --help' ;;
        run | threads | serve | replay) words='--trust --help' ;;
        migrate) words='--layout --log --key --preallocate --trust --json --help' ;;
        dump | info | check | export) words='--trust --json --help' ;;
        crashes) words='--trust --json --html --help' ;;
        esac
    fi
    if [ -n "$words" ]; then
        mapfile -t COMPREPLY < <(compgen -W "$words" -- "$word")
    else
        mapfile -t COMPREPLY < <(compgen -f -- "$word")
    fi
}
complete -o filenames -F _famsync famsync
