# Sergunad: the words of `cryfs` for the Tab key of bash. `./build --install` puts it where bash looks; `source` takes it at once.

_cryfs_commands="create info passwd migrate check shell mount look import export update put get generate trial ls stat mkdir rmdir mkfile rm mv
    symlink readlink write read truncate chmod chown utime sync tree du"

# Adds files (-f) or folders (-d) of this machine that begin with the word.
_cryfs_files() {
    compopt -o filenames
    mapfile -t -O "${#COMPREPLY[@]}" COMPREPLY < <(compgen "$1" -- "$2")
}

# Prints what may stand behind a command, by the place of the word: 1 is right behind it.
_cryfs_behind() {
    case $1:$2 in
        create:*) echo "--blocksize --scrypt-n --scrypt-r --scrypt-p" ;;
        check:1) echo "--all --quiet" ;;
        check:2) echo "--quiet" ;;
        ls:1) echo "-l -R -lR" ;;
        du:1) echo "-s" ;;
        rm:1) echo "-r" ;;
        trial:1) echo "generate" ;;
        look:1) echo "ls stat readlink read get" ;;
        import:1 | export:1) echo "--times" ;;
        import:[3-9]) echo "--quiet --leave-out --times" ;;
        export:[3-9]) echo "--quiet --times" ;;
        update:[3-9]) echo "--quiet --leave-out --delete --delete-all --dry-run" ;;
        mount:[2-9]) echo "--background" ;;
    esac
}

# Adds what may stand at a place behind the options: 0 is BLOCKS, 1 STATE, 2 the command.
_cryfs_word() {
    local place=$1 command=$2 word=$3 words=""
    case $command:$place in
        *:0) [[ $word == --* ]] && words="--password-file --password-command --state-copy --names --strict --help --version" ;;
        *:2) words=$_cryfs_commands ;;
        *) (( place > 2 )) && words=$(_cryfs_behind "$command" $(( place - 2 ))) ;;
    esac
    if (( place < 2 )) || [[ $command:$place == @(import|export|update|mount):3 ]]; then
        _cryfs_files -d "$word"
    fi
    mapfile -t -O "${#COMPREPLY[@]}" COMPREPLY < <(compgen -W "$words" -- "$word")
}

_cryfs() {
    local word=${COMP_WORDS[COMP_CWORD]} at=1 option=""
    COMPREPLY=()
    # The options, each with its word but one. bash takes = for a word of its own.
    while (( at < COMP_CWORD )) && [[ ${COMP_WORDS[at]} == --* ]]; do
        option=${COMP_WORDS[at]}
        (( at += 1 ))
        [[ $option == --strict ]] && continue
        [[ ${COMP_WORDS[at]} == "=" ]] && (( at += 1 ))
        (( at += 1 ))
    done
    if (( at > COMP_CWORD )); then
        [[ $word == "=" ]] && word=""
        case $option in
            --password-file) _cryfs_files -f "$word" ;;
            --state-copy) _cryfs_files -d "$word" ;;
            --names) mapfile -t COMPREPLY < <(compgen -W "plain exact" -- "$word") ;;
        esac
        return
    fi
    # With the folders in the environment the command may come first.
    if [[ -n $CRYFS_BLOCKS && -n $CRYFS_STATE ]]; then
        if (( at == COMP_CWORD )); then
            _cryfs_word 2 "" "$word"
        elif [[ " "${_cryfs_commands//[[:space:]]/ }" " == *" ${COMP_WORDS[at]} "* ]]; then
            (( at -= 2 ))
        fi
    fi
    local command=${COMP_WORDS[at+2]}
    # What stands between a copy and its folder moves that.
    (( COMP_CWORD > at + 3 )) && [[ ${COMP_WORDS[at+3]} == --times ]] && (( at += 1 ))
    _cryfs_word $(( COMP_CWORD - at )) "$command" "$word"
}

complete -F _cryfs cryfs ./cryfs
