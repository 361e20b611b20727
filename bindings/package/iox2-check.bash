# What bash completes for iox2-check: its options, the formats, and names of files.
_iox2_check() {
    local word=${COMP_WORDS[COMP_CWORD]} before=${COMP_WORDS[COMP_CWORD - 1]}
    COMPREPLY=()
    # Bash takes the = of --format=json for a word of its own.
    if [ "$word" = = ]; then
        word=
    elif [ "$before" = = ]; then
        before=${COMP_WORDS[COMP_CWORD - 2]}
    fi
    if [ "$before" = --format ]; then
        mapfile -t COMPREPLY < <(compgen -W 'text json' -- "$word")
    elif [[ $word == -* ]]; then
        local options='--strict --format --show --compare --default --schema --help --version'
        mapfile -t COMPREPLY < <(compgen -W "$options" -- "$word")
    else
        mapfile -t COMPREPLY < <(compgen -f -- "$word")
    fi
}
complete -o filenames -F _iox2_check iox2-check
