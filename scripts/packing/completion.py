"""The completion of migctl's words in bash, made of what the program says of itself."""
FILES = ("file", "script", "transcript")  # what a value or an operand is called that is a file

FUNCTION = """\
# Completes the words of migctl in bash. Made by scripts/package of what the program says of itself.
_migctl() {{
    local current=${{COMP_WORDS[COMP_CWORD]}} before=${{COMP_WORDS[COMP_CWORD - 1]}} at=$COMP_CWORD
    local options='{options}' files='' values='' operands=''
    COMPREPLY=()
    # Bash takes an equals sign between an option and its value for a word of its own.
    if [ "$current" = = ]; then
        current=
    elif [ "$before" = = ]; then
        before=${{COMP_WORDS[COMP_CWORD - 2]}}
    fi
    if [ "$at" -gt 1 ]; then
        case ${{COMP_WORDS[1]}} in
{commands}
            help) options='{names}' ;;
            *) return ;;
        esac
    else
        options='{names} {options}'
    fi
    case " $files " in *" $before "*) operands=files options='' ;; esac
    case " $values " in *" $before "*) return ;; esac
    if [ "$operands" = files ] && [[ $current != -* ]]; then
        compopt -o filenames 2>/dev/null
        mapfile -t COMPREPLY < <(compgen -f -- "$current")
    else
        mapfile -t COMPREPLY < <(compgen -W "$options" -- "$current")
    fi
}}
complete -F _migctl migctl
"""


def long_flags(it):
    """The long options of a help; a short one stands for one of these."""
    return [flag for row in it.tables["Options"] for flag in row.flags() if flag.startswith("--")]


def taking(it, is_file):
    """The options that take a file, or another value."""
    rows = [row for row in it.tables["Options"] if row.value() and (row.value() in FILES) == is_file]
    return [flag for row in rows for flag in row.flags()]


def takes_files(it):
    """Whether what stands behind the options is a file."""
    return any(row.words.strip("<>[].") in FILES for row in it.tables["Arguments"])


def case_of(name, it):
    """The branch for one command."""
    sets = [f"options='{' '.join(long_flags(it))}'"]
    for variable, flags in (("files", taking(it, True)), ("values", taking(it, False))):
        if flags:
            sets.append(f"{variable}='{' '.join(flags)}'")
    if takes_files(it):
        sets.append("operands=files")
    return f"            {name}) {' '.join(sets)} ;;"


def script(whole, commands):
    """The file for bash."""
    return FUNCTION.format(
        options=" ".join(long_flags(whole)),
        names=" ".join([*commands, "help"]),
        commands="\n".join(case_of(name, it) for name, it in commands.items()),
    )
