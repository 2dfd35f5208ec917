# Completion of zonedump for bash: options, files, and the names of zones of the tz database.
_zonedump() {
    local word=${COMP_WORDS[COMP_CWORD]} before=${COMP_WORDS[COMP_CWORD - 1]}
    local folder=${TZDIR:-/usr/share/zoneinfo}
    case $before in
        --from | --to | --at | --text) return ;;
        --colors) COMPREPLY=($(compgen -W 'light dark' -- "$word")); return ;;
        --tzdir) COMPREPLY=($(compgen -d -- "$word")); return ;;
        --write | --svg | --times) COMPREPLY=($(compgen -f -- "$word")); return ;;
    esac
    if [[ $word == -* ]]; then
        COMPREPLY=($(compgen -W '--from --to --zdump --json --write --svg --colors --at --local --diff --summary --times --tzdir
            --text --extended --help --version' -- "$word"))
        return
    fi
    COMPREPLY=($(compgen -f -- "$word") $(cd "$folder" 2>/dev/null && compgen -f -- "$word"))
}
complete -o filenames -F _zonedump zonedump
