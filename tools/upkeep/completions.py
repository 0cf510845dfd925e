"""Completions of psyn for bash and zsh, made from the table of commands: flags, commands, and files by the endings of
their kinds."""
from psyntool.command import EVERYWHERE
from psyntool.families import FAMILIES
from psyntool.kinds import Kind
from psyntool.table import COMMANDS

HEAD = "# completion of psyn for {}; written by tools/release and tools/install from the table of commands"
BASH = """\
_psyn() {
  # the word typed so far may begin with a quote and have backslashes, which are removed
  local word=${COMP_WORDS[COMP_CWORD]//\\\\/} before=${COMP_WORDS[COMP_CWORD - 1]}
  word=${word#[\\"\\']}
  local command= many= flags= words= endings= name place=0 at kinds=() all=() those=()
  for ((at = 1; at < COMP_CWORD; at++)); do
    case ${COMP_WORDS[at]} in
      @VALUED@) ((at++)); many= ;;
      @MANY@) many=${COMP_WORDS[at]} ;;
      -?*) many= ;;
      *)
        if [[ -z $command || $command == @ANOTHER@ ]]; then command=${COMP_WORDS[at]}
        elif [[ -z $many ]]; then ((place++)); fi ;;
    esac
  done
  case $command in
    '') words='@COMMANDS@' ;;
@CASES@
  esac
  case $before in
    @PATHED@) mapfile -t COMPREPLY < <(compgen -f -- "$word"); return ;;
    --by) mapfile -t COMPREPLY < <(compgen -c -- "$word"); return ;;
    @NUMBERED@) COMPREPLY=(); return ;;
  esac
  if [[ $word == -* ]]; then
    mapfile -t COMPREPLY < <(compgen -W "$flags @EVERYWHERE@" -- "$word")
    return
  fi
  case $many in
    @PARTED@) words= kinds=() endings=hoa ;;
    ?*) COMPREPLY=(); return ;;
  esac
  [[ -n $words ]] && mapfile -t COMPREPLY < <(compgen -W "$words" -- "$word") && return
  # a command that runs another one reads files again and again
  [[ ${#kinds[@]} -gt 0 ]] && place=$((place % ${#kinds[@]}))
  endings=${kinds[place]:-$endings}
  mapfile -t all < <(compgen -f -- "$word")
  for name in "${all[@]}"; do
    if [[ -d $name || -n $endings && $name =~ \\.($endings)$ ]]; then those+=("$name"); fi
  done
  # if no name is a folder or has one of the endings, all names are offered
  COMPREPLY=("${those[@]}")
  [[ ${#those[@]} -gt 0 ]] || COMPREPLY=("${all[@]}")
}
complete -o filenames -F _psyn psyn
"""
ZSH = """\
_psyn() {
  local -a commands flags words_here kinds
  local command= many= at place=1
  commands=(@COMMANDS@)
  for ((at = 2; at < CURRENT; at++)); do
    case ${words[at]} in
      @VALUED@) ((at++)); many= ;;
      @MANY@) many=${words[at]} ;;
      -?*) many= ;;
      *)
        if [[ -z $command || $command == @ANOTHER@ ]]; then command=${words[at]}
        elif [[ -z $many ]]; then ((place++)); fi ;;
    esac
  done
  case $command in
@CASES@
  esac
  flags+=(@EVERYWHERE@)
  case $many in
    @PARTED@) words_here=() kinds=() place=1; kinds[1]=hoa ;;
  esac
  [[ ${#kinds} -gt 0 ]] && place=$(((place - 1) % ${#kinds} + 1))
  if [[ -z $command || $command == @ANOTHER@ ]]; then
    _describe 'command' commands
  elif [[ ${#words_here} -gt 0 ]]; then
    _describe 'word' words_here
  elif [[ -n ${kinds[place]} ]]; then
    _files -g "*.(${kinds[place]})(-.)"
  else
    _files
  fi
  _describe -o 'flag' flags
}
_psyn "$@"
"""


def filled(template, **parts):
    for name, text in parts.items():
        template = template.replace(f"@{name.upper()}@", text)
    return template


def valued():
    """The flags that take one value, with the name of the value."""
    flags = [*(flag for command in COMMANDS.values() for flag in command.all_flags), *EVERYWHERE]
    return {flag.name: flag.value for flag in flags if flag.value and not flag.many}


def many(value=""):
    """The flags that take all words up to the next flag. If `value` is given, flags whose value has another name on the
    usage line are left out."""
    flags = {flag.name: flag for command in COMMANDS.values() for flag in command.all_flags if flag.many}
    return [name for name, flag in flags.items() if value in ("", flag.value)]


def endings(command):
    """For each file that a command reads, the endings of the file's kind, and those of each kind that some flag makes
    the command read in place of this file."""
    kinds = [kind for kind in (*command.reads, *command.behind.values()) if isinstance(kind, Kind)]
    others = [[these[place] for these in command.instead.values() if place < len(these)] for place in range(len(kinds))]
    others[:1] = [[*command.replaced.values(), *these] for these in others[:1]]
    return [
        "|".join(dict.fromkeys(ending for kind in (one, *more) for ending in kind.endings))
        for one, more in zip(kinds, others)
    ]


def words_of(command):
    """The words that may follow a command in place of files."""
    return {"help": list(COMMANDS), "each": list(COMMANDS), "games": list(FAMILIES)}.get(command.name, [])


def another():
    """The command that runs another command, which the word behind it names."""
    return next(command.name for command in COMMANDS.values() if command.runs_another)


def bash():
    cases = []
    for command in COMMANDS.values():
        parts = [f"flags='{' '.join(flag.name for flag in command.all_flags)}'"]
        parts += [f"kinds=({' '.join(repr(one) for one in endings(command))})"] if endings(command) else []
        parts += [f"words='{' '.join(words_of(command))}'"] if words_of(command) else []
        cases.append(f"    {command.name}) {'; '.join(parts)} ;;")
    numbered = [name for name, value in valued().items() if value in ("N", "SECONDS", "MIB")]
    pathed = [name for name, value in valued().items() if value in ("FILE", "PREFIX")]
    return HEAD.format("bash") + "\n" + filled(
        BASH,
        valued=" | ".join(valued()),
        many=" | ".join(many()),
        parted=" | ".join(many("PART..")),
        another=another(),
        commands=" ".join(COMMANDS),
        cases="\n".join(cases),
        numbered=" | ".join(numbered),
        pathed=" | ".join(pathed),
        everywhere=" ".join(flag.name for flag in EVERYWHERE),
    )


def zsh_words(told):
    """Words with descriptions, in the form that zsh's `_describe` reads."""
    return " ".join(
        "'{}:{}'".format(name, says.replace("'", "'\\''").replace(":", "\\:")) for name, says in told.items()
    )


def zsh():
    cases = []
    for command in COMMANDS.values():
        parts = [f"flags=({zsh_words({flag.name: flag.says for flag in command.all_flags})})"]
        parts += [f"kinds=({' '.join(repr(one) for one in endings(command))})"] if endings(command) else []
        parts += [f"words_here=({' '.join(words_of(command))})"] if words_of(command) else []
        cases.append(f"    {command.name}) {'; '.join(parts)} ;;")
    return "#compdef psyn\n" + HEAD.format("zsh") + "\n" + filled(
        ZSH,
        valued="|".join(valued()),
        many="|".join(many()),
        parted="|".join(many("PART..")),
        another=another(),
        commands=zsh_words({name: command.says for name, command in COMMANDS.items()}),
        cases="\n".join(cases),
        everywhere=zsh_words({flag.name: flag.says for flag in EVERYWHERE}),
    )
