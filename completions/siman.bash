# Completion of siman's words for bash. Made by tools/manual.py from the program's table of commands: not to be changed by hand.

# Those of these words that begin as the current one. Bash looks at what stands behind the last = or : of a word.
_siman_words() {
    local word
    for word in $1; do
        if [[ $word == "$current"* ]]; then COMPREPLY+=("${word#"${current%"${current##*[=:]}"}"}"); fi
    done
    if [[ ${#COMPREPLY[@]} == 1 && ${COMPREPLY[0]} == *= ]]; then compopt -o nospace; fi
}

# Files that end so, and folders; all files where there are none.
_siman_files() {
    local files
    mapfile -t files < <(compgen -f -X "!*.$1" -- "$current" && compgen -d -- "$current")
    if ((${#files[@]} == 0)); then mapfile -t files < <(compgen -f -- "$current"); fi
    if ((${#files[@]} > 0)); then
        COMPREPLY+=("${files[@]}")
        compopt -o filenames
    fi
}

# Files that end so and stand nowhere on the line so far, and folders; all files where none of their folder ends so.
_siman_others() {
    local file quoted word files named
    if ! compgen -f -X "!*.$1" -- "${current%"${current##*/}"}" >/dev/null; then
        _siman_files "$1"
        return
    fi
    mapfile -t files < <(compgen -f -X "!*.$1" -- "$current")
    named=("${words[@]:2:${#words[@]}-3}" "${COMP_WORDS[@]:2:COMP_CWORD-2}" "${COMP_WORDS[@]:COMP_CWORD+1}")
    for file in "${files[@]}"; do
        printf -v quoted %q "$file"
        for word in "${named[@]}"; do
            if [[ $word == "$file" || $word == "$quoted" || $word == [\"\']"$file"[\"\'] ]]; then continue 2; fi
        done
        COMPREPLY+=("$file")
    done
    _siman_folders
    compopt -o filenames
}

# Folders: in one of them a file is to be made.
_siman_folders() {
    local folders
    mapfile -t folders < <(compgen -d -- "$current")
    if ((${#folders[@]} > 0)); then
        COMPREPLY+=("${folders[@]}")
        compopt -o filenames
    fi
}

_siman() {
    local current words
    read -r -a words <<<"${COMP_LINE:0:COMP_POINT}."
    current=${words[-1]%.}
    COMPREPLY=()
    if ((${#words[@]} == 2)); then
        _siman_words 'pdu pdus show check audit world plan live station convert mend join import export review log count why chart help --help --version'
        return
    fi
    case ${words[1]}:$((${#words[@]} - 3)) in
        help:0) _siman_words 'pdu pdus show check audit world plan live station convert mend join import export review log count why chart help' ;;
        show:0) _siman_files dsrc ;;
        show:*) _siman_words '--torn' ;;
        check:0) _siman_files dsrc ;;
        check:1) _siman_files dsct ;;
        check:*) _siman_words '--torn' ;;
        audit:0) _siman_files dsrc ;;
        audit:1) _siman_folders ;;
        audit:*) _siman_words '--torn --force' ;;
        world:0) _siman_files script ;;
        world:1) _siman_folders ;;
        world:*) _siman_words '--force' ;;
        plan:0) _siman_files plan ;;
        plan:*) _siman_folders; _siman_words '--json --force' ;;
        live:0) _siman_files script ;;
        live:1) _siman_folders ;;
        station:0) _siman_files script ;;
        station:2) _siman_folders ;;
        station:*) _siman_words 'from=any keep=all clock=system' ;;
        convert:0) _siman_files dsrc ;;
        convert:1) _siman_folders ;;
        convert:*) _siman_words '--force' ;;
        mend:0) _siman_files dsrc ;;
        mend:1) _siman_folders ;;
        mend:*) _siman_words '--force' ;;
        join:*) _siman_others dsrc; _siman_words 'form=open form=closed parts=yes --force' ;;
        import:0) _siman_files script ;;
        import:3) _siman_files pcap ;;
        import:4) _siman_folders ;;
        import:*) _siman_words 'port= on= cut=keep shared echo opening=none opening=assumed --force' ;;
        export:0) _siman_files dsrc ;;
        export:1) _siman_folders ;;
        export:*) _siman_words '--torn --force' ;;
        review:0) _siman_files dsrc ;;
        review:*) _siman_words 'station= entity= request= fate=done fate=answered fate=refused fate=pending fate=unheard fate=unanswered fate=lost fate=unknown fate=nobody --json --prose --torn' ;;
        log:0) _siman_files dsrc ;;
        log:*) _siman_words 'station= entity= request= kind=create-entity kind=remove-entity kind=start-resume kind=stop-freeze kind=acknowledge kind=action-request kind=action-response kind=data-query kind=set-data kind=data kind=event-report kind=comment kind=told kind=other --json --torn' ;;
        count:0) _siman_files dsrc ;;
        count:*) _siman_words 'station= entity= request= kind=create-entity kind=remove-entity kind=start-resume kind=stop-freeze kind=acknowledge kind=action-request kind=action-response kind=data-query kind=set-data kind=data kind=event-report kind=comment kind=told kind=other --json --torn' ;;
        why:0) _siman_files dsrc ;;
        why:*) _siman_files dsct; _siman_words '--json --torn' ;;
        chart:0) _siman_files dsrc ;;
        chart:1) _siman_files dsct ;;
        chart:2) _siman_folders ;;
        chart:*) _siman_words '--torn --force' ;;
    esac
}

complete -F _siman siman
