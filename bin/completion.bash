# Completion for bash of pec and its companions: of their own names where they are installed (bin/install puts this file
# where bash looks for it), and of bin/pec and the others in a clone, by `source bin/completion.bash`.

_pec() {
    local word=${COMP_WORDS[COMP_CWORD]} before=${COMP_WORDS[COMP_CWORD - 1]}
    local forms='run resume serve load ldif check extract help --help --version'
    if [ "$COMP_CWORD" = 1 ]; then
        mapfile -t COMPREPLY < <(compgen -W "$forms" -- "$word")
    elif [ "$before" = help ]; then
        local words='run resume serve load ldif check extract submit tick round lose repeat swap inject crash restart book
            mailbox show archive vault vault-show upgrade screen'
        mapfile -t COMPREPLY < <(compgen -W "$words" -- "$word")
    fi
}

_pec_companion() {
    local name=${COMP_WORDS[0]##*/} word=${COMP_WORDS[COMP_CWORD]} before=${COMP_WORDS[COMP_CWORD - 1]}
    local words=--help forms=
    case "${name#pec-}" in
    letter) forms='submit inject path save' ;;
    registry) forms='export import' ;;
    service) forms='run health backup' ;;
    log) words='--of --in --all --help' ;;
    fate) words='--in --help' ;;
    lint) words='--dossier --help' ;;
    esac
    if [ "$before" = --in ]; then
        mapfile -t COMPREPLY < <(compgen -d -- "$word")
    elif [ -n "$forms" ] && [ "$COMP_CWORD" = 1 ]; then
        mapfile -t COMPREPLY < <(compgen -W "$forms $words" -- "$word")
    elif [[ $word == -* ]]; then
        mapfile -t COMPREPLY < <(compgen -W "$words" -- "$word")
    else
        mapfile -t COMPREPLY < <(compgen -f -- "$word")
    fi
}

complete -o filenames -F _pec pec bin/pec bin/fresh bin/try
for _pec_name in letter lint verify log fate json registry service webmail draw install; do
    complete -o filenames -F _pec_companion "pec-$_pec_name" "bin/$_pec_name"
done
unset _pec_name
