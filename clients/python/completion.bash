# Completes the words of blobseer in bash: `source clients/python/completion.bash`. An installed blobseer has it where bash looks by itself.

_blobseer() {
    local commands="create append write read follow branch status log versions blobs tree wait repair"
    local words="--timeout --repair-after --quiet --help" word command= current=${COMP_WORDS[COMP_CWORD]}
    for word in "${COMP_WORDS[@]:1:COMP_CWORD-1}"; do
        [[ -z $command && " $commands " == *" $word "* ]] && command=$word
    done
    case $command in
        '') words="$commands $words --json --version" ;;
        read) words="$words --last" ;;
        follow) words="$words --from --last" ;;
        tree) words="$words --json --dot" ;;
        *) words="$words --json" ;;
    esac
    COMPREPLY=($(compgen -W "$words" -- "$current"))
}

complete -F _blobseer blobseer blobseer.py
