# Completions of hygienic for bash. Source this file, or copy it as `hygienic` to where bash-completion looks.

# Completes the word by these words.
_hygienic_words() {
    mapfile -t COMPREPLY < <(compgen -W "$2" -- "$1")
}

# Completes the word by the names of files.
_hygienic_files() {
    compopt -o filenames 2>/dev/null
    mapfile -t COMPREPLY < <(compgen -f -- "$1")
}

# Completes the word by the options of a command.
_hygienic_options() {
    case $2 in
        '') _hygienic_words "$1" '-h --help -V --version' ;;
        run) _hygienic_words "$1" '--tasks --conflicts --journal -q --quiet -h --help' ;;
        race) _hygienic_words "$1" '--journal -q --quiet -h --help' ;;
        serve) _hygienic_words "$1" '--tasks --conflicts --passes --resume -q --quiet -h --help' ;;
        audit) _hygienic_words "$1" '--long -q --quiet -h --help' ;;
        chart) _hygienic_words "$1" '--svg --html --trace --dot --from --to --name -q --quiet -h --help' ;;
    esac
}

_hygienic() {
    local word=${COMP_WORDS[COMP_CWORD]} before=${COMP_WORDS[COMP_CWORD - 1]} command= at
    for ((at = COMP_CWORD - 1; at > 0; at--)); do
        [[ ${COMP_WORDS[at]} == -* ]] || command=${COMP_WORDS[at]}
    done
    COMPREPLY=()
    case $command:$before:$word in
        run:--tasks:* | run:--conflicts:* | run:=:* | run:*:=) ;;
        serve:--resume:*) _hygienic_files "$word" ;;
        serve:--tasks:* | serve:--conflicts:* | serve:--passes:* | serve:=:* | serve:*:=) ;;
        chart:--from:* | chart:--to:* | chart:--name:* | chart:=:* | chart:*:=) ;;
        *:*:-*) _hygienic_options "$word" "$command" ;;
        :* | help:help:*) _hygienic_words "$word" 'run race audit serve chart help' ;;
        run:* | race:* | audit:* | serve:* | chart:*) _hygienic_files "$word" ;;
    esac
}

complete -F _hygienic hygienic
