_registry() {
    local current=${COMP_WORDS[COMP_CWORD]} told program=
    case $1 in *registryd) program=registryd ;; esac
    mapfile -t told < <("${1%d}" --complete $program "${COMP_WORDS[@]:1:COMP_CWORD}" 2>/dev/null)
    case ${told[0]} in
        file) compopt -o filenames; mapfile -t COMPREPLY < <(compgen -f -- "${current#=}") ;;
        folder) compopt -o filenames; mapfile -t COMPREPLY < <(compgen -d -- "${current#=}") ;;
        *) COMPREPLY=("${told[@]:1}") ;;
    esac
}
complete -F _registry registry registryd
