# Completion of faxqd and faxq in bash: source it, or put it into /usr/share/bash-completion/completions/ under both
# names. zsh takes it behind `autoload -U bashcompinit && bashcompinit`.

_faxqd() {
    local word=${COMP_WORDS[COMP_CWORD]} before=${COMP_WORDS[COMP_CWORD - 1]} words
    COMPREPLY=()
    case $before in
        --db | --setup | --controls | --journal) words=$(compgen -f -- "$word") ;;
        --listen | --to) words=$(compgen -W "127.0.0.1:4559" -- "$word") ;;
        -*) [[ $word == -* ]] || return ;;&
        *)
            if [ "$COMP_CWORD" = 1 ]; then
                words=$(compgen -W "serve replay list check sendfax import settings worker post help" -- "$word")
            else
                case ${COMP_WORDS[1]} in
                    serve) words="--db --listen --connections --timeout --setup --controls --help" ;;
                    replay) words="--setup --controls --help" ;;
                    list) words="--db --moment --setup --controls --help" ;;
                    check) words="--db --help" ;;
                    sendfax) words="-d --pages -i -P -t -T -a -k --moment --request --client --to --help" ;;
                    import) words="--client --request --help" ;;
                    settings) words="--setup --controls --help" ;;
                    worker) words="--to --journal --modem --wait --help" ;;
                    post) words="--to --journal --client --key --forget --wait --help" ;;
                    *) return ;;
                esac
                words=$(compgen -W "$words" -- "$word")
                [[ ${COMP_WORDS[1]} != import || $word == -* ]] || words=$(compgen -f -- "$word")
            fi
            ;;
    esac
    mapfile -t COMPREPLY <<< "$words"
    [ -n "$words" ] || COMPREPLY=()
}

_faxq() {
    local word=${COMP_WORDS[COMP_CWORD]} before=${COMP_WORDS[COMP_CWORD - 1]} command="" at words
    local commands="submit status why suspend resume kill alter wait times again modems retire purge left"
    for ((at = 1; at < COMP_CWORD; at++)); do
        [[ " $commands " != *" ${COMP_WORDS[at]} "* ]] || { command=${COMP_WORDS[at]} && break; }
    done
    case $before:$command in
        --folder:* | --ca:* | --setup:* | --controls:*) words=$(compgen -f -- "$word") ;;
        *:) words=$(compgen -W "$commands --server --desk --client --folder --ca --limit --pause --help" -- "$word") ;;
        *:submit)
            words=$(compgen -W "--pages --modem -i -P -t -T -a -k --help" -- "$word")
            [[ $word == -* ]] || words=$(compgen -f -- "$word")
            ;;
        *:why) words=$(compgen -W "--setup --controls --help" -- "$word") ;;
        *:alter) words=$(compgen -W "modem= jobtag= tts= killtime= priority= maxtries= maxdials=" -- "$word") ;;
        *:wait) words=$(compgen -W "--every --help" -- "$word") ;;
        *:purge) words=$(compgen -W "--days --help" -- "$word") ;;
        *:modems) words=$(compgen -W "up down" -- "$word") ;;
        *) words=$(compgen -W "--help" -- "$word") ;;
    esac
    mapfile -t COMPREPLY <<< "$words"
    [ -n "$words" ] || COMPREPLY=()
}

complete -F _faxqd -o filenames faxqd
complete -F _faxq -o filenames faxq
