"""Makes the completions of bash, zsh and fish of the commands of the program and their options.

In none of them a word that is the value of another option is taken as the command: the second word is it.
"""

MADE_BY = "Made by gate/completions of the help of the program."
# The names of a value that is a file, and of one that is a folder.
FILE, FOLDER = "FILE", "FOLDER"


def quoted(text):
    """A text between quotes, for bash and zsh."""
    return "'" + text.replace("'", r"'\''") + "'"


def names_of(these):
    """The names of commands or options."""
    return [it.name for it in these]


def is_help(command):
    """Whether a command takes commands as its words: it is the one without options."""
    return not command.options


# ---- bash

BASH = """# Completes the words of lg in bash. {made_by}
# It is read by `source`, or by the package bash-completion if it is named lg in a folder of completions.

_lg() {{
  local word=${{COMP_WORDS[COMP_CWORD]}} before=${{COMP_WORDS[COMP_CWORD - 1]}} words=
  # In bash --leave=off is three words, since = ends one.
  if [ "$word" = = ]; then
    word=
  elif [ "$before" = = ]; then
    before=${{COMP_WORDS[COMP_CWORD - 2]}}
  fi
  COMPREPLY=()
  case $before in
    {files})
      # Nothing is offered here, and so readline offers files.
      compopt -o default
      return
      ;;
    {folders})
      compopt -o dirnames
      return
      ;;
{choices}
    {others}) return ;;
    *)
      case $COMP_CWORD:$word:${{COMP_WORDS[1]}} in
        1:-*) words={options} ;;
        1:*) words={commands} ;;
{rows}
      esac
      ;;
  esac
  mapfile -t COMPREPLY < <(compgen -W "$words" -- "$word")
}}

complete -F _lg lg
"""


def folded(words, between, indent):
    """Words in lines that aren't too long."""
    lines, told = [], ""
    for it in words:
        if told and len(told) + len(it) > 90:
            lines.append(told + between.rstrip(" "))
            told = ""
        told += f"{between}{it}" if told else it
    return f"\n{indent}".join([*lines, told])


def listed(words):
    """Words that are offered by bash, between quotes."""
    return quoted(folded(words, " ", " " * 10))


def pattern(options, fits):
    """The options that fit, as a pattern of bash."""
    return folded([name for name, option in options.items() if fits(option)], " | ", "").replace("|\n", "| \\\n      ")


def offered_for(option):
    """What is offered for the value of an option: files, folders, some texts, or nothing, which is True if it has a
    value."""
    return option.value if option.value in (FILE, FOLDER) else option.choices() or bool(option.value)


def by_name(commands):
    """The options of all commands by their names. For those of one name the same is offered, so bash needn't know of
    which command one is."""
    found = {}
    for option in (option for it in commands for option in it.options):
        if offered_for(found.setdefault(option.name, option)) != offered_for(option):
            raise ValueError(f"{option.name} takes {option.value}, and {found[option.name].value} of another command")
    return found


def bash(lg, commands):
    """The completions of bash."""
    options = by_name(commands)
    words = [(it.name, names_of(commands if is_help(it) else it.options)) for it in commands]
    choices = [(name, option.choices()) for name, option in options.items() if option.choices()]
    return BASH.format(
        made_by=MADE_BY,
        files=pattern(options, lambda option: option.value == FILE),
        folders=pattern(options, lambda option: option.value == FOLDER),
        choices="\n".join(f"    {name}) words={listed(these)} ;;" for name, these in choices),
        others=pattern(options, lambda option: option.value not in ("", FILE, FOLDER) and not option.choices()),
        options=listed(names_of(lg.options)),
        commands=listed(names_of(commands)),
        rows="\n".join(f"        *:{name}) words={listed(these)} ;;" for name, these in words),
    )


# ---- zsh

ZSH = """#compdef lg
# Completes the words of lg in zsh. {made_by}
# It is read if it is named _lg in a folder of $fpath.

_lg_commands() {{
  local -a commands=(
{commands}
  )
  _describe -t commands command commands
}}

_lg() {{
  local curcontext=$curcontext state line ret=1
  local -A opt_args
  _arguments -C \\
{options} \\
    '1: :_lg_commands' \\
    '*:: :->words' && ret=0
  [[ $state == words ]] || return ret
  case $words[1] in
{rows}
  esac
  return ret
}}

_lg "$@"
"""


def zsh_option(option):
    """What an option takes and is, in the form of _arguments."""
    about = option.about.replace("[", r"\[").replace("]", r"\]")
    if not option.value:
        names = f"{{{option.short},{option.name}}}" if option.short else ""
        # Behind -h and -V nothing else counts.
        return f"'(- *)'{names}{quoted(f'[{about}]')}" if names else quoted(f"{option.name}[{about}]")
    offered = f"({' '.join(option.choices())})" if option.choices() else " "
    offered = {FILE: "_files", FOLDER: "_files -/"}.get(option.value, offered)
    value = option.value.replace(":", r"\:")
    return quoted(f"{'*' if option.repeats() else ''}{option.name}=[{about}]:{value}:{offered}")


def zsh_row(command):
    """What zsh offers for a command."""
    specs = ["'*: :_lg_commands'"] if is_help(command) else [zsh_option(it) for it in command.options]
    lines = " \\\n".join(f"        {it}" for it in specs)
    return f"    {command.name})\n      _arguments \\\n{lines} && ret=0\n      ;;"


def zsh(lg, commands):
    """The completions of zsh."""
    return ZSH.format(
        made_by=MADE_BY,
        commands="\n".join(f"    {quoted(f'{it.name}:{it.about}')}" for it in commands),
        options=" \\\n".join(f"    {zsh_option(it)}" for it in lg.options),
        rows="\n".join(zsh_row(it) for it in commands),
    )


# ---- fish

FISH = """# Completes the words of lg in fish. {made_by}
# It is read if it is named lg.fish in a folder of $fish_complete_path.

function __lg_is -d 'Whether the line has this command'
    set -l words (commandline -opc)
    set -q words[2]; and test "$words[2]" = "$argv[1]"
end

function __lg_has_none -d 'Whether the line has no command yet'
    test (count (commandline -opc)) -eq 1
end

complete -c lg -f
{rows}
"""


def fish_quoted(text):
    """A text between quotes, for fish."""
    return "'" + text.replace("\\", r"\\").replace("'", r"\'") + "'"


def fish_option(condition, option):
    """The line of an option."""
    words = [f"complete -c lg -n {fish_quoted(condition)} -l {option.name[2:]}"]
    words += [f"-s {option.short[1:]}"] if option.short else []
    if option.value == FILE:
        words.append("-r -F")
    elif option.value == FOLDER:
        words.append("-x -a '(__fish_complete_directories)'")
    elif option.value:
        words.append(f"-x -a {fish_quoted(' '.join(option.choices()))}" if option.choices() else "-x")
    return " ".join([*words, f"-d {fish_quoted(option.about)}"])


def fish(lg, commands):
    """The completions of fish."""
    rows = []
    for place in ("__lg_has_none", "__lg_is help"):
        rows += [f"complete -c lg -n {fish_quoted(place)} -a {it.name} -d {fish_quoted(it.about)}" for it in commands]
    rows += [fish_option("__lg_has_none", it) for it in lg.options]
    rows += [fish_option(f"__lg_is {it.name}", option) for it in commands for option in it.options]
    return FISH.format(made_by=MADE_BY, rows="\n".join(rows))


# The file of each shell, and what makes its text.
MADE = {"lg.bash": bash, "_lg": zsh, "lg.fish": fish}
