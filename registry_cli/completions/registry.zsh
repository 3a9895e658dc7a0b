#compdef registry registryd
_registry() {
    local -a told program
    [[ $words[1] != *registryd ]] || program=(registryd)
    told=("${(@f)$(${words[1]%d} --complete $program "${(@)words[2,CURRENT]}" 2>/dev/null)}")
    case $told[1] in
        file) _files ;;
        folder) _files -/ ;;
        *) compadd -- "${(@)told[2,-1]}" ;;
    esac
}
if [ "$funcstack[1]" = _registry ]; then _registry "$@"; else compdef _registry registry registryd; fi
