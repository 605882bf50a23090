#compdef decl
# Completion of decl in zsh. `make install` puts it among the site functions as _decl.

_decl() {
    local command= word option
    local -a offers powers=({1..10}) fits=(--bs --log2 --digits --width --mwidth --format --rules --make)
    local before=${words[CURRENT-1]}
    # A value can stand behind `=` in the word of its option.
    if compset -P '--*='; then
        before=${IPREFIX%=}
    fi
    for word in ${words[2,CURRENT-1]}; do
        if [[ -z $command && $word == (run|fmt|cert|verify) ]]; then
            command=$word
        fi
    done
    case $command in
        fmt) fits=(--make) ;;
        cert) fits=(--bs --log2 --make) ;;
        verify) fits=(--bs --log2) ;;
        *) powers=({1..16}) ;;
    esac
    case $before in
        --format) compadd -- text csv json; return ;;
        --rules) compadd -- standard extended; return ;;
        --log2) compadd -- $powers; return ;;
        --digits) compadd -- {1..9}; return ;;
        --bs | --width | --mwidth | --make) return ;;
    esac
    if [[ ${words[CURRENT]} == -* ]]; then
        for option in $fits; do
            if [[ -n ${(M)words[1,CURRENT-1]:#$option(|=*)} ]]; then
                continue
            fi
            offers+=($option)
        done
        compadd -- $offers
    elif [[ -z $command ]]; then
        compadd -- run fmt cert verify
    elif [[ $command == run ]]; then
        compadd -- mean
        compadd -S '' -- pmf: cdf: q: layer: tail: price: joint: kappa: cotail:
    fi
}

if [[ $funcstack[1] == _decl ]]; then
    _decl "$@"
fi
