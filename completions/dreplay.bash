# Completion of bash for dreplay and its tools.
_dreplay_words() { mapfile -t COMPREPLY < <(compgen -W "$1" -- "$2"); }

# Completes the command after dreplay-record and its options. Returns whether the word is the
# command's.
_dreplay_command() {
    local place=1 word=${COMP_WORDS[COMP_CWORD]}
    while ((place < COMP_CWORD)); do
        case ${COMP_WORDS[place]} in
        -o | -p | -e | --keep | --rows | --split) ((place += 2)) ;;
        --) ((place++)); break ;;
        -*) ((place++)) ;;
        *) break ;;
        esac
    done
    ((place <= COMP_CWORD)) || return 1
    if [[ $word == -* && $place == "$COMP_CWORD" ]]; then return 1; fi
    if declare -F _command_offset > /dev/null; then
        _command_offset "$place"
    elif ((place == COMP_CWORD)); then
        mapfile -t COMPREPLY < <(compgen -c -- "$word")
    else
        mapfile -t COMPREPLY < <(compgen -f -- "$word")
    fi
}

# The names of the aggregations of the script after -s.
_dreplay_aggregations() {
    local place
    for ((place = 1; place < ${#COMP_WORDS[@]} - 1; place++)); do
        [[ ${COMP_WORDS[place]} == -s ]] || continue
        grep -o '@[A-Za-z_][A-Za-z0-9_]*' -- "${COMP_WORDS[place + 1]}" 2> /dev/null |
            tr -d @ | sort -u
    done
}

_dreplay() {
    local word=${COMP_WORDS[COMP_CWORD]} before=${COMP_WORDS[COMP_CWORD - 1]}
    local tool=${COMP_WORDS[0]##*/} options
    local shown='-f --top --sort --only --columns --unit --value-unit --title --width --guard'
    shown+=' --percentiles --fail-if'
    case $tool in
    dreplay | dreplay-data) options='-s -w -g -e' ;;
    dreplay-from-strace)
        options='-n --name --only --since --rows --paths --ppid --threads -o --split --from-zero
            -j --jobs --python' ;;
    dreplay-from-perf | dreplay-from-ftrace | dreplay-from-ctf)
        options='--machine -o --split --from-zero' ;;
    dreplay-from-chrome) options='-o --split --from-zero' ;;
    dreplay-record)
        options='-o -p -e --raw --symbolic --paths --ppid --from-zero --keep --rows --split' ;;
    dreplay-explain) options='-s -t -b --short --check --clauses' ;;
    dreplay-many) options="-s -o -j --jobs --list --part --program $shown" ;;
    dreplay-show) options="-s -t -o --against --of --of-before --of-script $shown" ;;
    dreplay-ask) options="-s -c -o --against --with --no-cache $shown" ;;
    esac
    [[ $tool == dreplay || $tool == dreplay-data || $tool == dreplay-rows ]] ||
        options+=' --version'
    options+=' -h --help'
    if [[ $tool == dreplay-record ]] && _dreplay_command; then return; fi
    case $tool:$before in
    dreplay-show:-f | dreplay-many:-f | dreplay-ask:-f)
        _dreplay_words 'table csv json markdown bars svg heat html folded timeline' "$word"
        return ;;
    dreplay-show:--unit | dreplay-many:--unit | dreplay-ask:--unit)
        _dreplay_words 'ns us ms s bytes' "$word"
        return ;;
    dreplay-show:--value-unit | dreplay-many:--value-unit | dreplay-ask:--value-unit)
        _dreplay_words 'ns us ms s bytes %' "$word"
        return ;;
    dreplay-show:--sort | dreplay-many:--sort | dreplay-ask:--sort)
        _dreplay_words 'key value' "$word"
        return ;;
    dreplay-show:--only | dreplay-many:--only | dreplay-ask:--only)
        _dreplay_words "$(_dreplay_aggregations)" "$word"
        return ;;
    dreplay-record:-p) _dreplay_words "$(cd /proc && echo [0-9]*)" "$word"; return ;;
    dreplay:-e | dreplay-data:-e) _dreplay_words 'dif tree' "$word"; return ;;
    dreplay:-[wgh] | dreplay:--help | dreplay-data:-[wgh] | dreplay-data:--help) return ;;
    esac
    if [[ $word == -* ]]; then
        _dreplay_words "$options" "$word"
    else
        mapfile -t COMPREPLY < <(compgen -f -- "$word")
    fi
}

complete -o filenames -F _dreplay dreplay dreplay-data dreplay-rows dreplay-from-strace \
    dreplay-from-perf dreplay-from-ftrace dreplay-record dreplay-explain dreplay-show \
    dreplay-many dreplay-ask dreplay-from-ctf dreplay-from-chrome
