# Completion in bash for jillapun, the command of the Python package: commands, options by their help, labels and files.

_jillapun() {
    local word=${COMP_WORDS[COMP_CWORD]} option=${COMP_WORDS[COMP_CWORD - 1]} command=${COMP_WORDS[1]} words=
    # `--from=LABEL` is three words.
    [[ $word == = ]] && word=''
    [[ $option == = ]] && option=${COMP_WORDS[COMP_CWORD - 2]}
    COMPREPLY=()
    case $option in
    --from | --to)
        # A label with a colon, at which bash ends a word, is another name of an encoding that has one without.
        words=$("$1" labels 2> /dev/null | sed 's/^[^:]*: //' | tr ' ' '\n' | grep -v :)
        word=${word,,} ;;
    --mark) words="sniff remove keep" ;;
    --unmappable) words="decimal hexadecimal stop" ;;
    --backup | --lines | --most | --threads) return ;;
    --indexes | --into)
        compopt -o filenames 2> /dev/null
        mapfile -t COMPREPLY < <(compgen -d -- "$word")
        return ;;
    *)
        if [[ $word == -* ]]; then
            case $command in which | places | labels) ;; *) command=convert ;; esac
            words=$("$1" "$command" --help 2> /dev/null | sed -nE 's/^ +(-[a-zA-Z], )?(--[a-z]+(-[a-z]+)*).*/\2/p')
        else
            compopt -o filenames 2> /dev/null
            ((COMP_CWORD > 1)) || words="convert places which labels"
            mapfile -t COMPREPLY < <(compgen -f -W "$words" -- "$word")
            return
        fi ;;
    esac
    mapfile -t COMPREPLY < <(compgen -W "$words" -- "$word")
}

complete -o default -F _jillapun jillapun
