function __registry_told
    set -l words (commandline -opc) (commandline -ct)
    set -l program (string match -r 'registryd$' -- $words[1])
    set -l told (string replace -r 'd$' '' -- $words[1])
    set told ($told --complete $program $words[2..-1] 2>/dev/null)
    switch "$told[1]"
        case file
            __fish_complete_path (commandline -ct)
        case folder
            __fish_complete_directories (commandline -ct)
        case '*'
            printf '%s\n' $told[2..-1]
    end
end
complete -c registry -c registryd -f -a '(__registry_told)'
