# Completion of the command line of he in bash. Written by scripts/manual --write from the help of the program.
# Installed as PREFIX/share/bash-completion/completions/he, or read by hand: . completions/he.bash
_he_hosts() {
    compgen -A hostname -- "$1"
    [ -r ~/.ssh/known_hosts ] && compgen -W "$(sed 's/^[|@].*//; s/[ ,].*//; s/^\[\(.*\)\].*/\1/' ~/.ssh/known_hosts)" -- "$1"
}

_he() {
    local word=${COMP_WORDS[COMP_CWORD]} before=${COMP_WORDS[COMP_CWORD - 1]} command=${COMP_WORDS[1]} options= words=
    COMPREPLY=()
    # bash parts words at `=`
    [ "$word" = = ] && word=
    [ "$before" = = ] && before=${COMP_WORDS[COMP_CWORD - 2]}
    if [ "$COMP_CWORD" -eq 1 ]; then
        mapfile -t COMPREPLY < <(compgen -W 'connect proxy probe names host live replay explain draw summary compare order check help --help -h --version -V' -- "$word")
        return
    fi
    case "$command $before" in
        "connect --timeout" | "connect --wait" | "connect --warn" | "proxy --timeout" | "probe --timeout" | "probe --pace" | "live --timeout")
            return ;;
        "connect --set" | "proxy --set" | "live --set" | "replay --set" | "explain --set" | "draw --set" | "summary --set" | "compare --set")
            compopt -o nospace; mapfile -t COMPREPLY < <(compgen -W 'attempt= resolution= count= limit= floor=' -- "$word"); return ;;
        "connect --machine" | "connect --record" | "proxy --users" | "proxy --machine" | "proxy --history" | "probe --machine" | "probe --record" | "names --record" | "live --record" | "replay --files0-from" | "explain --files0-from" | "draw --files0-from" | "draw --html" | "summary --files0-from" | "compare --files0-from" | "order --files0-from" | "check --files0-from")
            compopt -o filenames; mapfile -t COMPREPLY < <(compgen -f -- "$word"); return ;;
        "connect --resolver" | "proxy --resolver" | "probe --resolver" | "names --resolver")
            mapfile -t COMPREPLY < <(compgen -W system -- "$word"); return ;;
        "proxy --listen")
            return ;;
        "proxy --allow")
            return ;;
        "proxy --to" | "proxy --not-to")
            return ;;
        "proxy --record")
            return ;;
        "proxy --max-records" | "proxy --max-clients" | "proxy --max-per-client" | "probe --count" | "replay --workers" | "draw --width" | "summary --slowest")
            return ;;
        "proxy --idle" | "probe --interval")
            return ;;
        "host --for")
            return ;;
        "live --port")
            mapfile -t COMPREPLY < <(compgen -A service -- "$word"); return ;;
        "summary --by")
            mapfile -t COMPREPLY < <(compgen -W 'file hour family host' -- "$word"); return ;;
    esac
    case $command in
        connect) options='-4 -6 -z --timeout --set --wait --machine --resolver --record --json --check --warn --explain --verbose -v --help -h' words=HOST ;;
        proxy) options='--listen --allow --allow-private --users --to --not-to -4 -6 --timeout --set --machine --resolver --record --max-records --history --max-clients --max-per-client --idle --quiet -q --log-json --log-begin --log-journal --help -h' words= ;;
        probe) options='-4 -6 --timeout --pace --count --interval --machine --resolver --record --json --openmetrics --quiet -q --verbose -v --help -h' words=HOST ;;
        names) options='--resolver --record --json --verbose -v --help -h' words=HOST ;;
        host) options='--for --json --help -h' words= ;;
        live) options='--port --timeout --set --record --must-connect --verbose -v --help -h' words=FILE ;;
        replay) options='--files0-from --workers --set --json --verbose -v --help -h' words=FILE ;;
        explain) options='--files0-from --set --json --verbose -v --help -h' words=FILE ;;
        draw) options='--files0-from --ascii --width --svg --html --set --verbose -v --help -h' words=FILE ;;
        summary) options='--files0-from --json --openmetrics --slowest --by --keep-going --set --verbose -v --help -h' words=FILE ;;
        compare) options='--files0-from --json --races --keep-going --set --verbose -v --help -h' words=FILE ;;
        order) options='--files0-from --json --verbose -v --help -h' words=FILE ;;
        check) options='--files0-from --all --json --help -h' words=FILE ;;
        help) options='' words=COMMAND ;;
    esac
    case $word in
        -*) mapfile -t COMPREPLY < <(compgen -W "$options" -- "$word") ;;
        *)
            case $words in
                FILE) compopt -o filenames; mapfile -t COMPREPLY < <(compgen -f -- "$word") ;;
                HOST) mapfile -t COMPREPLY < <(_he_hosts "$word" | sort -u) ;;
                COMMAND) mapfile -t COMPREPLY < <(compgen -W 'connect proxy probe names host live replay explain draw summary compare order check help' -- "$word") ;;
            esac ;;
    esac
}
complete -F _he he
