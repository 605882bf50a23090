# Completion of decl in bash. `make install` puts it where bash-completion looks; or source it.

# What can follow these words of a command line, the last of which is begun.
_decl_offers() {
    local begun=${*: -1} before=${*: -2:1} word command='' offers='' option powers='1 2 3 4 5 6 7 8 9 10'
    local fits='--bs --log2 --digits --width --mwidth --format --rules --make'
    for word in "${@:2:$#-2}"; do
        case $word in
            run | fmt | cert | verify) command=${command:-$word} ;;
        esac
    done
    case $command in
        '') offers='run fmt cert verify' powers+=' 11 12 13 14 15 16' ;;
        run) offers='pmf: cdf: mean q: layer: tail: price: joint: kappa: cotail:' powers+=' 11 12 13 14 15 16' ;;
        fmt) fits='--make' ;;
        cert) fits='--bs --log2 --make' ;;
        verify) fits='--bs --log2' ;;
    esac
    case $before in
        --format) echo text csv json; return ;;
        --rules) echo standard extended; return ;;
        --log2) echo $powers; return ;;
        --digits) echo 1 2 3 4 5 6 7 8 9; return ;;
        --bs | --width | --mwidth | --make) return ;;
    esac
    if [[ $begun == -* ]]; then
        offers=''
        for option in $fits; do
            if [[ " $* " == *" $option "[^\ ]* ]]; then
                continue
            fi
            offers+=" $option"
        done
    fi
    echo $offers
}

_decl() {
    local begun=${COMP_WORDS[COMP_CWORD]} before=${COMP_WORDS[COMP_CWORD-1]}
    local words=("${COMP_WORDS[@]:0:COMP_CWORD+1}")
    COMPREPLY=()
    # Behind `<` and `>` stands a file, which bash itself completes.
    if [[ $before =~ ^[0-9]*[\<\>] || $begun =~ ^[0-9]*[\<\>] ]]; then
        compopt -o bashdefault -o default 2> /dev/null
        return
    fi
    # Bash cuts `--format=csv` into three words; the value is completed as behind a blank.
    if [[ $begun == = ]]; then
        begun=''
        words[COMP_CWORD]=''
    elif [[ $before == = && $COMP_CWORD -gt 1 ]]; then
        words=("${COMP_WORDS[@]:0:COMP_CWORD-1}" "$begun")
    fi
    mapfile -t COMPREPLY < <(compgen -W "$(_decl_offers "${words[@]}")" -- "$begun")
    if [[ ${#COMPREPLY[@]} -eq 1 && ${COMPREPLY[0]} == *: ]]; then
        compopt -o nospace 2> /dev/null
    fi
}

complete -F _decl decl
