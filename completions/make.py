#!/usr/bin/env python3
"""completions/make.py [--check]

Makes the completions for bash, zsh and fish of the tables commands.txt and classes.txt: om.bash, _om and om.fish beside
them. With --check it writes nothing, and names the files that aren't as it would make them; the exit code is 1 then.
What may stand at a place of a command is taken from its words there: words with | between them, options with = and the
number that holds without each, an element for E, A, B and C, and a signed one for W. Behind ... any more may follow. A
command of classes.txt has options without a number alone. Files are completed behind < and > alone.
"""
import os
import re
import sys

HERE = os.path.dirname(os.path.abspath(__file__))
NUMBERS = " ".join(str(number) for number in range(1, 21))
SIGNED = " ".join(sign + str(number) for sign in "+-" for number in range(1, 21))
PROGRAMS = "om om-each om_each"
CLASSES = "om-classes om_classes"


class Command:
    """A command: its name, what it answers, the choices at each place behind it, and its options with their numbers.

    A choice is a text of words, `more` for an element above the one before it, or nothing; the last one holds at all
    further places where `repeats` is true."""

    def __init__(self, block):
        synopsis, self.answers, numbers, _ = block.split("\n")
        self.name, *words = synopsis.split()
        self.repeats = words[-1:] == ["..."]
        self.options = dict(zip(re.findall(r"\[--([a-z]+)=", synopsis), re.findall(r"\[([0-9]+)\]", numbers)))
        self.flags = re.findall(r"\[(--[a-z]+)\]", synopsis)
        words = [word for word in words if word != "..." and not word.startswith("[")]
        self.places = [self.choice(word, place, words) for place, word in enumerate(words)]

    def choice(self, word, place, words):
        if "|" in word:
            return word.replace("|", " ")
        if word == "W":
            return SIGNED
        if word in ("E", "A", "B", "C"):
            return NUMBERS if word in ("E", "A") and not self.repeats else "more"
        return ""


def table(name):
    with open(os.path.join(HERE, name)) as file:
        blocks = file.read().strip().split("\n\n")
    if any("'" in block for block in blocks if not block.startswith("#")):
        raise SystemExit("completions/make.py: a ' in the table would end a text of the shells")
    return [Command(block) for block in blocks if not block.startswith("#")]


BASH = """# Completion of om, om-each and om-classes for bash, made by completions/make.py: source it, or put it into the folder
# of bash-completion under each of these names. It works without compopt, too, as in zsh by bashcompinit.
_om() {
  local word="${COMP_WORDS[COMP_CWORD]}" before="${COMP_WORDS[COMP_CWORD-1]}" option="" ahead="" found=""
  COMPREPLY=()
  # a redirection takes a file, which the shell completes by itself
  case "$before$word" in *[\\<\\>]*) return ;; esac
  _om_option +o default
  # an = is a word of its own, except where bash was told otherwise, and in zsh
  case "$word" in
    =) option="$before" word="" ;;
    --*=*) option="${word%%%%=*}" ahead="${word%%%%=*}=" ;;
  esac
  if [ "$before" = "=" ]; then option="${COMP_WORDS[COMP_CWORD-2]}"; fi
  if [ "$COMP_CWORD" -eq 1 ]; then
    found="%(verbs)s"
    # a stream has no command that reads nothing
    case "${1##*/}" in *each*) ;; *) found="$found make" ;; esac
  elif [ -n "$option" ]; then
    case "${COMP_WORDS[1]}:$option" in
%(options)s
    esac
    found="$ahead$found"
  else
    case "${COMP_WORDS[1]}:$COMP_CWORD" in
%(places)s
    esac
  fi
  case "$found" in
    more) found="$(seq "$(($(printf %%s "$before" | tr -cd 0-9 | sed 's/^$/0/') + 1))" 20)" ;;
    *=) _om_option -o nospace ;;
  esac
  COMPREPLY=($(compgen -W "$found" -- "$word"))
}
_om_option() {
  if type compopt >/dev/null 2>&1; then compopt "$@" 2>/dev/null; fi
}
_om_classes() {
  local word="${COMP_WORDS[COMP_CWORD]}" before="${COMP_WORDS[COMP_CWORD-1]}" found=""
  COMPREPLY=()
  case "$before$word" in *[\\<\\>]*) return ;; esac
  _om_option +o default
  case "$COMP_CWORD:${COMP_WORDS[1]}" in
    1:*) found="%(families)s" ;;
%(flags)s
  esac
  COMPREPLY=($(compgen -W "$found" -- "$word"))
}
complete -o default -F _om om ./om om_each om-each ./om-each
complete -o default -F _om_classes om_classes om-classes ./om-classes
"""


def bash(commands, classes):
    options = ["      %s:--%s) found=%s ;;" % (it.name, option, number)
               for it in commands for option, number in it.options.items()]
    places = []
    for it in commands:
        for place, choice in enumerate(it.places, 2):
            if choice:
                pattern = "%s:*" % it.name if it.repeats else "%s:%d" % (it.name, place)
                places.append('      %s) found="%s" ;;' % (pattern, choice))
        if it.options:
            pattern = "%s:*" % it.name if not it.places else "%s:%s" % (it.name, len(it.places) + 2)
            places.append('      %s) found="%s" ;;' % (pattern, " ".join("--%s=" % name for name in it.options)))
    return BASH % {"verbs": " ".join(it.name for it in commands if it.name != "make"), "options": "\n".join(options),
                   "places": "\n".join(places), "families": " ".join(it.name for it in classes),
                   "flags": "\n".join('    2:%s) found="%s" ;;' % (it.name, " ".join(it.flags))
                                      for it in classes if it.flags)}


ZSH = """#compdef %(programs)s
# Completion of om, om-each and om-classes for zsh, made by completions/make.py: put it into a folder of $fpath.
_om() {
  local -a verbs
  local before=${words[CURRENT-1]}
  verbs=(
%(verbs)s
  )
  # a stream has no command that reads nothing
  [[ ${words[1]:t} != *each* ]] || verbs=(${verbs:#make:*})
  if (( CURRENT == 2 )); then
    _describe -t commands command verbs
    return
  fi
  case ${words[2]}:$PREFIX in
%(options)s
  esac
  case ${words[2]}:$CURRENT in
%(places)s
  esac
}
_om_classes() {
  local -a verbs
  verbs=(
%(families)s
  )
  case $CURRENT:${words[2]} in
    2:*) _describe -t commands command verbs ;;
%(flags)s
  esac
}
if [[ ${service:t} = *classes* ]]; then _om_classes "$@"; else _om "$@"; fi
"""


def zsh(commands, classes):
    def add(choice):
        if choice == "more":
            return "compadd -V elements -- {$(( ${${before//[^0-9]/}:-0} + 1 ))..20}"
        return "compadd -V words -- %s" % choice

    options = ["    %s:--%s=*) compset -P '*='; compadd -- %s; return ;;" % (it.name, option, number)
               for it in commands for option, number in it.options.items()]
    places = []
    for it in commands:
        for place, choice in enumerate(it.places, 3):
            if choice:
                places.append("    %s:%s) %s ;;" % (it.name, "*" if it.repeats else place, add(choice)))
        if it.options:
            places.append("    %s:%s) compadd -S '' -- %s ;;" % (it.name, "*" if not it.places else len(it.places) + 3,
                                                               " ".join("--%s=" % name for name in it.options)))
    return ZSH % {"programs": PROGRAMS + " " + CLASSES, "options": "\n".join(options), "places": "\n".join(places),
                  "verbs": "\n".join("    '%s:%s'" % (it.name, it.answers) for it in commands),
                  "families": "\n".join("    '%s:%s'" % (it.name, it.answers) for it in classes),
                  "flags": "\n".join("    3:%s) compadd -- %s ;;" % (it.name, " ".join(it.flags))
                                     for it in classes if it.flags)}


FISH = """# Completion of om, om-each and om-classes for fish, made by completions/make.py: put it into a folder of
# completions, once for each name.
function __om_at --description 'the command is this one, and the word is at this place, or at any behind it'
    set -l words (commandline -opc)
    test "$words[2]" = $argv[1]; and begin
        test (count $words) -eq $argv[2]; or test "$argv[3]" = more -a (count $words) -ge $argv[2]
    end
end
function __om_first --description 'the word is the first one'
    test (count (commandline -opc)) -eq 1
end
function __om_above --description 'the elements above the one before'
    set -l words (commandline -opc)
    seq (math (string match -r '^[0-9]+$' -- $words[-1]; or echo 0) + 1) 20
end
for program in %(programs)s
    complete -c $program -f
%(verbs)s
%(places)s
end
# a stream has no command that reads nothing
for program in om
%(make)s
end
for program in %(classes)s
    complete -c $program -f
%(families)s
end
"""


def fish(commands, classes):
    def verb(it):
        return "    complete -c $program -n '__om_first' -a %s -d '%s'" % (it.name, it.answers)

    def places_of(it):
        for place, choice in enumerate(it.places, 2):
            if choice:
                words = "(__om_above)" if choice == "more" else choice
                here = "__om_at %s %d%s" % (it.name, place, " more" if it.repeats else "")
                yield "    complete -c $program -n '%s' -k -a '%s'" % (here, words)
        for name, number in it.options.items():
            here = "__om_at %s %d more" % (it.name, len(it.places) + 2)
            yield "    complete -c $program -n '%s' -l %s -x -a %s" % (here, name, number)
    both, alone = [it for it in commands if it.name != "make"], [it for it in commands if it.name == "make"]
    flags = ["    complete -c $program -n '__om_at %s 2' -l %s" % (it.name, flag[2:])
             for it in classes for flag in it.flags]
    return FISH % {"programs": PROGRAMS, "verbs": "\n".join(map(verb, both)),
                   "places": "\n".join(line for it in both for line in places_of(it)),
                   "make": "\n".join(line for it in alone for line in [verb(it), *places_of(it)]),
                   "classes": CLASSES, "families": "\n".join([*map(verb, classes), *flags])}


def main():
    if sys.argv[1:] not in ([], ["--check"]):
        print("usage: completions/make.py [--check]", file=sys.stderr)
        return 2
    tables, code = (table("commands.txt"), table("classes.txt")), 0
    for name, text in ("om.bash", bash(*tables)), ("_om", zsh(*tables)), ("om.fish", fish(*tables)):
        path = os.path.join(HERE, name)
        if sys.argv[1:]:
            with open(path) as file:
                if file.read() != text:
                    print("completions/%s isn't as completions/make.py makes it" % name)
                    code = 1
        else:
            with open(path, "w") as file:
                file.write(text)
    return code


if __name__ == "__main__":
    sys.exit(main())
