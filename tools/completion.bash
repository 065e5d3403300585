# Completion in Bash of the words of `bt`, and of `names` and `view` beside it. Source this file, or install the package.
# What `bt` takes is read from its help texts, tools/help beside it.

# The files with one of these endings, and folders; where there are none, all files.
_bt_files() {
    local ending endings=("$@")
    COMPREPLY=()
    for ending in "${endings[@]}"; do
        mapfile -t -O ${#COMPREPLY[@]} COMPREPLY < <(compgen -f -X "!*.$ending" -- "$word")
    done
    if [ ${#COMPREPLY[@]} = 0 ] && [ -z "$(compgen -d -- "$word")" ]; then
        mapfile -t COMPREPLY < <(compgen -f -- "$word")
    else
        mapfile -t -O ${#COMPREPLY[@]} COMPREPLY < <(compgen -d -- "$word")
    fi
    compopt -o filenames 2>/dev/null
}

# The IDs of the trees in a file that begin as the word does.
_bt_trees() {
    local file=${1/#\~\//$HOME/}
    [ -r "$file" ] || return
    mapfile -t COMPREPLY < <(compgen -W "$(grep -o '<BehaviorTree[^>]*ID="[A-Za-z0-9_.-]*"' -- "$file" | sed 's/.*ID="//; s/"$//')" -- "$word")
}

# Completes a word by `sorts` of files, in their order, and then by `options`, each once. The value of an option is a number,
# but for that of --main, which is a tree of the first file, and that of -o, a file.
_bt_words() {
    local place=$1 text first='' count=0 left=()
    for (( ; place < COMP_CWORD; place++)); do
        text=${COMP_WORDS[place]}
        if [[ $text == @(--main|-o|--ticks|--expand|--period|--expect) ]]; then
            ((place++))
        elif [[ $text != -* ]]; then
            first=${first:-$text}
            ((count++))
        fi
    done
    case ${COMP_WORDS[COMP_CWORD - 1]} in
        --main) _bt_trees "$first" ;;
        -o) _bt_files html ;;
        --expect) _bt_files expect ;;
        --ticks | --expand | --period) ;;
        *)
            if [[ $word != -* && $count -lt ${#sorts[@]} ]]; then
                # shellcheck disable=SC2086 # (several endings are several words)
                _bt_files ${sorts[count]}
                return
            fi
            for text in "${options[@]}"; do
                [[ " ${COMP_WORDS[*]:0:COMP_CWORD} " == *" $text "* ]] || left+=("$text")
            done
            mapfile -t COMPREPLY < <(compgen -W "${left[*]}" -- "$word") ;;
    esac
}

_bt() {
    local word=${COMP_WORDS[COMP_CWORD]} help command sorts=() options=() commands lines usage other text place=2
    COMPREPLY=()
    help=$(readlink -f -- "$(type -P -- "$1")") && help=${help%/*}/tools/help && [ -d "$help" ] || return
    commands=$(cd "$help" && echo [[:lower:]]*)
    case $COMP_CWORD,${COMP_WORDS[1]} in
        1,*) mapfile -t COMPREPLY < <(compgen -W "$commands help --help --version" -- "$word") ;;
        2,help) mapfile -t COMPREPLY < <(compgen -W "$commands" -- "$word") ;;
    esac
    [ "$COMP_CWORD" != 1 ] || return
    command=${COMP_WORDS[1]}
    [[ $command == [[:lower:]]* && -f $help/$command ]] && mapfile -t -n 2 lines <"$help/$command" || return
    read -ra usage <<<"${lines[0]#usage: }"
    read -ra other <<<"${lines[1]-}"
    # Another way to call the command begins with an option.
    if [[ $COMP_CWORD == 2 && ${other[2]-} == --* ]]; then
        options+=("${other[2]}")
    elif [[ ${other[2]-} == --* && ${COMP_WORDS[2]} == "${other[2]}" ]]; then
        usage=("${other[@]:1}") place=3
    fi
    for text in "${usage[@]:2}"; do
        case $command,$text in
            *,TREE) sorts+=(xml) ;;
            ground,WORLD | gplan,WORLD) sorts+=(ground) ;;
            *,WORLD | *,\[WORLD\]) sorts+=(world) ;;
            *,RULES) sorts+=('rules json') ;;
            *,EXPECT) sorts+=(expect) ;;
            *,--* | *,\[--*)
                text=${text#[}
                options+=("${text%]}") ;;
        esac
    done
    _bt_words "$place"
}

_bt_names() {
    local word=${COMP_WORDS[COMP_CWORD]} sorts=(xml world) options=(--main --mock --expect --trees --all)
    COMPREPLY=()
    _bt_words 1
}

_bt_view() {
    local word=${COMP_WORDS[COMP_CWORD]} sorts=(xml world) options=(--main --plan --expect -o)
    COMPREPLY=()
    if [[ " ${COMP_WORDS[*]} " == *' --plan '* ]]; then
        sorts=(world) options=(--expand --ticks --period -o)
    fi
    _bt_words 1
}

complete -F _bt bt ./bt
complete -F _bt_names bt-names ./names
complete -F _bt_view bt-view ./view
