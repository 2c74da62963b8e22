"""Completions of siman's words for bash, zsh and fish."""

MADE = "Made by tools/manual.py from the program's table of commands: not to be changed by hand."
# How the files that a word names mostly end; a word that is not here names no file.
ENDS = {
    "REC": "dsrc", "OLD": "dsrc", "NEW": "dsrc", "PIECE": "dsrc", "CERT": "dsct", "SCRIPT": "script", "SETUP": "script",
    "SVG": "svg", "CAPTURE": "pcap", "SOURCE": "plan",
}  # fmt: skip
OPTIONS = {"--help": "Print help", "--version": "Print version"}
HELP = "Print the help, or that of a command"

BASH = """\
# Completion of siman's words for bash. @MADE@

# Those of these words that begin as the current one. Bash looks at what stands behind the last = or : of a word.
_siman_words() {
    local word
    for word in $1; do
        if [[ $word == "$current"* ]]; then COMPREPLY+=("${word#"${current%"${current##*[=:]}"}"}"); fi
    done
    if [[ ${#COMPREPLY[@]} == 1 && ${COMPREPLY[0]} == *= ]]; then compopt -o nospace; fi
}

# Files that end so, and folders; all files where there are none.
_siman_files() {
    local files
    mapfile -t files < <(compgen -f -X "!*.$1" -- "$current" && compgen -d -- "$current")
    if ((${#files[@]} == 0)); then mapfile -t files < <(compgen -f -- "$current"); fi
    if ((${#files[@]} > 0)); then
        COMPREPLY+=("${files[@]}")
        compopt -o filenames
    fi
}

# Files that end so and stand nowhere on the line so far, and folders; all files where none of their folder ends so.
_siman_others() {
    local file quoted word files named
    if ! compgen -f -X "!*.$1" -- "${current%"${current##*/}"}" >/dev/null; then
        _siman_files "$1"
        return
    fi
    mapfile -t files < <(compgen -f -X "!*.$1" -- "$current")
    named=("${words[@]:2:${#words[@]}-3}" "${COMP_WORDS[@]:2:COMP_CWORD-2}" "${COMP_WORDS[@]:COMP_CWORD+1}")
    for file in "${files[@]}"; do
        printf -v quoted %q "$file"
        for word in "${named[@]}"; do
            if [[ $word == "$file" || $word == "$quoted" || $word == [\\"\\']"$file"[\\"\\'] ]]; then continue 2; fi
        done
        COMPREPLY+=("$file")
    done
    _siman_folders
    compopt -o filenames
}

# Folders: in one of them a file is to be made.
_siman_folders() {
    local folders
    mapfile -t folders < <(compgen -d -- "$current")
    if ((${#folders[@]} > 0)); then
        COMPREPLY+=("${folders[@]}")
        compopt -o filenames
    fi
}

_siman() {
    local current words
    read -r -a words <<<"${COMP_LINE:0:COMP_POINT}."
    current=${words[-1]%.}
    COMPREPLY=()
    if ((${#words[@]} == 2)); then
        _siman_words '@NAMES@ @OPTIONS@'
        return
    fi
    case ${words[1]}:$((${#words[@]} - 3)) in
        help:0) _siman_words '@NAMES@' ;;
        @CASES@
    esac
}

complete -F _siman siman
"""

ZSH = """\
#compdef siman
# Completion of siman's words for zsh. @MADE@

# Files that end so and stand nowhere on the line so far, and folders; all files where none of their folder is on the line.
_siman_others() {
    local folder=${(Q)${(M)PREFIX##*/}} word except
    for word in ${(Q)words[3,CURRENT-1]} ${(Q)words[CURRENT+1,-1]}; do
        # blanks part patterns here, with a backslash too
        if [[ ${(M)word##*/} == "$folder" && $word == *.$1 ]]; then except+="~${${(b)word##*/}//\\\\ /?}"; fi
    done
    if [[ -z $except ]]; then
        _files -g "*.$1"
    else
        _path_files -g "(*.$1$except)"
        _path_files -/
    fi
}

_siman() {
    local -a commands options
    commands=(
        @COMMANDS@
    )
    options=(@OPTIONS@)
    if ((CURRENT == 2)); then
        _describe -t commands command commands -- options
        return
    fi
    case $words[2]:$((CURRENT - 3)) in
        help:0) _describe -t commands command commands ;;
        @CASES@
    esac
}

_siman "$@"
"""

FISH = """\
# Completion of siman's words for fish. @MADE@

# Whether the current word stands at this place, and the first one, if one is given, is this command.
function __siman_at
    set -l words (commandline -opc)
    test (count $words) -eq $argv[1]; and begin
        test (count $argv) -eq 1; or test $words[2] = $argv[2]
    end
end

# Whether it stands at this place or behind it, and the first one is this command.
function __siman_behind
    set -l words (commandline -opc)
    test (count $words) -ge $argv[1]; and test $words[2] = $argv[2]
end

# Files that end so, and folders; all files where there are none.
function __siman_files
    set -l current (commandline -ct)
    set -l files $current*.$argv[1]
    if test (count $files) -eq 0
        __fish_complete_path $current
    else
        set -a files $current*/
        printf '%s\\n' $files
    end
end

# Files that end so and stand nowhere on the line so far, and folders; all files where none of their folder ends so.
function __siman_others
    set -l current (commandline -ct)
    set -l all (string replace -r '[^/]*$' '' -- $current)*.$argv[1]
    if test (count $all) -eq 0
        __siman_files $argv[1]
    else
        set -l named (commandline -opc)
        set -l offered $current*/
        for file in $current*.$argv[1]
            contains -- $file $named; or set -a offered $file
        end
        test (count $offered) -eq 0; or printf '%s\\n' $offered
    end
end

# Folders: in one of them a file is to be made.
function __siman_folders
    __fish_complete_directories (commandline -ct) ''
end

complete -c siman -f
complete -c siman -n '__siman_at 1' -l help -s h -d 'Print help'
complete -c siman -n '__siman_at 1' -l version -s V -d 'Print version'
complete -c siman -n '__siman_at 1' -a help -d '@HELP@'
complete -c siman -n '__siman_at 2 help' -a '@NAMES@'
@CASES@
"""


def filled(template, parts):
    for name, text in {"MADE": MADE, "HELP": HELP, **parts}.items():
        template = template.replace(f"@{name}@", text)
    return template


def places_of(command):
    """The words of a command by their places: those at one place, and those from a place on."""
    first = next((k for k, word in enumerate(command.words) if word.is_repeated), len(command.words))
    return command.words[:first], command.words[first:]


def ends_of(words):
    """How the files end that may stand at a place, each once; nothing for one that is made: folders are offered there."""
    ends = [None if word.is_made else ENDS[word.name] for word in words if word.name in ENDS]
    return list(dict.fromkeys(ends)) if len(words) == 1 else list(dict.fromkeys(filter(None, ends)))


def are_others(words):
    """Whether a file that one of these words names stands once on the line, and the next word is for another."""
    return any(word.is_many and word.name in ENDS for word in words)


def offered(command, values_of):
    """The words that are offered behind those that have their places: whole ones, and keys that a value follows."""
    found = []
    for choice in command.choices:
        key, _, value = choice.partition("=")
        if not value or value == value.lower():
            found.append(choice)
        else:
            found += [f"{key}={name}" for name in values_of(key)] or [f"{key}="]
    return found


def quoted(text):
    return "'" + text.replace("'", "'\\''") + "'"


def names_of(program):
    return [*(command.name for command in program.commands), "help"]


def cases_of(program, values_of, files, others, words):
    """The cases of a shell: `files` is how it offers those that end so, `others` those that are not on the line so far,
    and `words` how it offers words, if any."""
    cases = []
    for command in program.commands:
        fixed, behind = places_of(command)
        cases += [f"{command.name}:{k}) {files(end)} ;;" for k, word in enumerate(fixed) for end in ends_of([word])]
        rest = [*map(others if are_others(behind) else files, ends_of(behind)), *words(offered(command, values_of))]
        if rest:
            cases.append(f"{command.name}:*) {'; '.join(rest)} ;;")
    return "\n        ".join(cases)


def bash(program, values_of):
    def words(offered_words):
        return [f"_siman_words {quoted(' '.join(offered_words))}"] if offered_words else []

    def files(end):
        return f"_siman_files {end}" if end else "_siman_folders"

    cases = cases_of(program, values_of, files, "_siman_others {}".format, words)
    return filled(BASH, {"NAMES": " ".join(names_of(program)), "OPTIONS": " ".join(OPTIONS), "CASES": cases})


def zsh(program, values_of):
    def words(offered_words):
        keys = [word for word in offered_words if word.endswith("=")]
        whole = [word for word in offered_words if not word.endswith("=")]
        behind_keys = [f"compadd -S '' -- {' '.join(keys)}"] if keys else []
        return behind_keys + ([f"compadd -- {' '.join(whole)}"] if whole else [])

    told = {command.name: command.about for command in program.commands} | {"help": HELP}
    described = [quoted(f"{name}:{about}") for name, about in told.items()]
    options = [quoted(f"{name}:{about}") for name, about in OPTIONS.items()]
    def files(end):
        return f"_files -g '*.{end}'" if end else "_path_files -/"

    cases = cases_of(program, values_of, files, "_siman_others {}".format, words)
    parts = {"COMMANDS": "\n        ".join(described), "OPTIONS": " ".join(options), "CASES": cases}
    return filled(ZSH, parts)


def fish_lines(command, values_of):
    """The lines of a command: its name, the words at one place, and those behind."""
    fixed, behind = places_of(command)
    at, name = "complete -c siman -n", command.name
    yield f"{at} '__siman_at 1' -a {name} -d {quoted(command.about)}"
    for place, word in enumerate(fixed, start=2):
        for end in ends_of([word]):
            files = f"__siman_files {end}" if end else "__siman_folders"
            yield f"{at} '__siman_at {place} {name}' -a '({files})'"
    for end in ends_of(behind):
        offer = "__siman_others" if are_others(behind) else "__siman_files"
        files = f"{offer} {end}" if end else "__siman_folders"
        yield f"{at} '__siman_behind {len(fixed) + 2} {name}' -a '({files})'"
    if offered(command, values_of):
        words = " ".join(offered(command, values_of))
        yield f"{at} '__siman_behind {len(fixed) + 2} {name}' -a '{words}'"


def fish(program, values_of):
    lines = [line for command in program.commands for line in fish_lines(command, values_of)]
    return filled(FISH, {"NAMES": " ".join(names_of(program)[:-1]), "CASES": "\n".join(lines)})
