# Completions of gcu for bash: source this file, or put it where bash-completion looks.
_gcu() {
    local word=${COMP_WORDS[COMP_CWORD]} before=${COMP_WORDS[COMP_CWORD - 1]} command=${COMP_WORDS[1]}
    local offers='' options='' files=''
    if [ "$COMP_CWORD" = 1 ]; then
        offers='check preview apply-patch apply-scopes replace rollback status resume abandon checkpoint list-checkpoints delete-checkpoint migrate-checkpoints check-plan sessions demo'
    elif [ "$before" = --scope ]; then
        offers=$(for it in config_db[0-9]*.json; do it=${it#config_db} && [ "$it" != '[0-9]*.json' ] && echo "asic${it%.json}"; done)
    elif [ "$before" != --budget ]; then
        case $command,$COMP_CWORD in
            preview,2 | apply-patch,2 | apply-scopes,2 | replace,2 | sessions,2 | check-plan,[23]) files=1 ;;
            rollback,2 | delete-checkpoint,2) offers=$(for it in *.cp.json; do [ -e "$it" ] && echo "${it%.cp.json}"; done) ;;
            apply-patch,* | apply-scopes,* | replace,* | rollback,* | sessions,*) options='--dry-run --budget' ;;
            resume,*) options='--budget --scope' ;;
            status,* | abandon,*) options='--scope' ;;
        esac
        for it in $options; do
            case " ${COMP_WORDS[*]:0:COMP_CWORD} " in *" $it "*) ;; *) offers="$offers $it" ;; esac
        done
    fi
    if [ -n "$files" ]; then
        mapfile -t COMPREPLY < <(compgen -f -- "$word")
    else
        mapfile -t COMPREPLY < <(compgen -W "$offers" -- "$word")
    fi
}
complete -o filenames -F _gcu gcu
