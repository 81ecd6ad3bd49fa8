# Completion in bash for recode and recode-places: options by their help, and labels by `recode --list`. Where it finds
# none, bash completes the names of files, as after `<` and `>`.

_jillapun_recode() {
    local word=${COMP_WORDS[COMP_CWORD]} option=${COMP_WORDS[COMP_CWORD - 1]} words=
    # `--from=LABEL` is three words.
    [[ $word == = ]] && word=''
    [[ $option == = ]] && option=${COMP_WORDS[COMP_CWORD - 2]}
    COMPREPLY=()
    case $option in
    --from | --to)
        # A label with a colon, at which bash ends a word, is another name of an encoding that has one without.
        words=$("${1%-places}" --list 2> /dev/null | sed 's/^[^:]*: //' | tr ' ' '\n' | grep -v :)
        word=${word,,} ;;
    --mark) words="sniff remove keep" ;;
    --unmappable) words="decimal hexadecimal stop" ;;
    --pivot) words="utf8 utf16" ;;
    --limit | --most) return ;;
    --indexes)
        compopt -o filenames 2> /dev/null
        mapfile -t COMPREPLY < <(compgen -d -- "$word")
        return ;;
    *)
        if [[ $word == -* ]]; then
            # A line of the help that begins with an option is of that option. Other lines may name those of another program.
            words=$("$1" --help 2> /dev/null | sed -nE 's/^ +(-[a-zA-Z], )?(--[a-z]+(-[a-z]+)*).*/\2/p')
        fi ;;
    esac
    mapfile -t COMPREPLY < <(compgen -W "$words" -- "$word")
}

complete -o default -F _jillapun_recode recode recode-places
