"""Completion of the tools' arguments for bash, of what each says of itself."""

NAME = "zkdump-tools"
HEAD = """# Completion of the arguments of zkdump's tools for bash; the release's packaging makes it.
_zkdump_tools() {
    local word=$2 before=${COMP_WORDS[COMP_CWORD - 1]} words=
    # bash takes --option=value apart at the sign.
    [[ $before != = ]] || before=${COMP_WORDS[COMP_CWORD - 2]}
    case ${1##*/}:$before in
"""
TAIL = """    *)
        # Else names of files.
        [[ $word == -* ]] || return
        case ${1##*/} in
%s        esac
        ;;
    esac
    mapfile -t COMPREPLY < <(compgen -W "$words" -- "$word")
    compopt +o default
}
complete -o default -F _zkdump_tools %s
"""


def cases(tool):
    """What may follow each option that has a value: one of these, a file, or something that nobody can guess."""
    for option in tool.options:
        if option.value:
            names = " | ".join(f"{tool.name}:{name}" for name in option.names)
            yield f"    {names}) {'return' if option.is_file else 'words=' + quoted(option.values)} ;;\n"


def quoted(words):
    return '"' + " ".join(words) + '"' if words else ""


def text(tools):
    """The script for these tools."""
    every = "".join(line for tool in tools for line in cases(tool))
    options = "".join(f"        {tool.name}) words={quoted(sum((each.names for each in tool.options), []))} ;;\n"
                      for tool in tools)
    return HEAD + every + TAIL % (options, " ".join(tool.name for tool in tools))
