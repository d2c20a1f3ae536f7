"""Completions of the commands, from the words that they take: python3 -m gcaudit_trace.commands.completions bash|zsh"""
import argparse
import sys
from typing import Dict, List, Optional

from hprof_to_trace import service

from ..dumps.options import parser_for
from . import fleet, growth, named, summary, view

# The converters have an older name besides, which has no completions of its own.
_CONVERTERS = {
    "gcaudit-from-hprof": "hprof_to_trace",
    "gcaudit-from-heapsnapshot": "heapsnapshot_to_trace",
    "gcaudit-from-rubyheap": "rubyheap_to_trace",
}


def parsers() -> Dict[str, argparse.ArgumentParser]:
    """The parser of each command, by its name."""
    own = named, summary, growth, view, fleet
    found = {made.prog: made for made in (command.parser() for command in own)}
    for name, other in _CONVERTERS.items():
        found[name], found[other] = parser_for(name, ""), parser_for(other, "")
    asking = service.parser()
    found[asking.prog] = asking
    return found


def _options(parser: argparse.ArgumentParser) -> List[argparse.Action]:
    """The options of a command. That which asks a JVM takes those of the converter too, but for the one that it refuses."""
    found = [action for action in parser._actions if action.option_strings]
    if parser.prog == service.PROGRAM:
        known = {action.option_strings[-1] for action in found} | {"--snapshot"}
        found += [action for action in _options(parser_for("", "")) if action.option_strings[-1] not in known]
    return found


def bash() -> str:
    """A function for bash that knows the options of each command, and the values of those that have some."""
    words, values = [], []
    for name, parser in parsers().items():
        options = [action.option_strings[-1] for action in _options(parser)]
        words.append("    %s) words='%s' ;;" % (name, " ".join(options)))
        for action in _options(parser):
            if action.choices:
                choices = " ".join(map(str, action.choices))
                values.append("    %s:%s) words='%s' word_only=1 ;;" % (name, action.option_strings[-1], choices))
    return """_gcaudit_recorders() {
  local word=${COMP_WORDS[COMP_CWORD]} before=${COMP_WORDS[COMP_CWORD-1]} words= word_only=
  case ${1##*/} in
%s
  esac
  case ${1##*/}:$before in
%s
  esac
  if [ -n "$word_only" ] || [ "${word#-}" != "$word" ]; then
    mapfile -t COMPREPLY < <(compgen -W "$words" -- "$word")
  else
    mapfile -t COMPREPLY < <(compgen -f -- "$word")
  fi
}
complete -o filenames -F _gcaudit_recorders %s
""" % (
        "\n".join(words),
        "\n".join(values),
        " ".join(parsers()),
    )


def zsh() -> str:
    """The same for zsh, with what each option does."""
    lines = ["#compdef %s" % " ".join(parsers()), "case $service in"]
    for name, parser in parsers().items():
        lines.append("  %s) _arguments \\" % name)
        for action in _options(parser):
            option = action.option_strings[-1]
            text = "%s[%s]" % (option, _zsh_text(action.help or ""))
            if action.nargs != 0:
                choices = "(%s)" % " ".join(map(str, action.choices)) if action.choices else "_files"
                text = "*%s:%s:%s" % (text, _zsh_text(str(action.metavar or action.dest)), choices)
            lines.append("    '%s' \\" % text)
        lines.append("    '*:file:_files' ;;")
    return "\n".join(lines + ["esac", ""])


def _zsh_text(text: str) -> str:
    return text.replace("'", "\u2019").replace(":", "").replace("[", "(").replace("]", ")").replace("%%", "%")


def main(words: Optional[List[str]] = None) -> int:
    made = argparse.ArgumentParser(prog="gcaudit_trace.commands.completions", description=__doc__)
    made.add_argument("shell", choices=("bash", "zsh"))
    sys.stdout.write({"bash": bash, "zsh": zsh}[made.parse_args(words).shell]())
    return 0


if __name__ == "__main__":
    sys.exit(main())
