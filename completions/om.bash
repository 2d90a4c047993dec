# Completion of om, om-each and om-classes for bash, made by completions/make.py: source it, or put it into the folder
# of bash-completion under each of these names. It works without compopt, too, as in zsh by bashcompinit.
_om() {
  local word="${COMP_WORDS[COMP_CWORD]}" before="${COMP_WORDS[COMP_CWORD-1]}" option="" ahead="" found=""
  COMPREPLY=()
  # a redirection takes a file, which the shell completes by itself
  case "$before$word" in *[\<\>]*) return ;; esac
  _om_option +o default
  # an = is a word of its own, except where bash was told otherwise, and in zsh
  case "$word" in
    =) option="$before" word="" ;;
    --*=*) option="${word%%=*}" ahead="${word%%=*}=" ;;
  esac
  if [ "$before" = "=" ]; then option="${COMP_WORDS[COMP_CWORD-2]}"; fi
  if [ "$COMP_CWORD" -eq 1 ]; then
    found="accept member convert dual delete contract reorient wiring mutations flip extend decide check paint hull lexext threeterm upgrade"
    # a stream has no command that reads nothing
    case "${1##*/}" in *each*) ;; *) found="$found make" ;; esac
  elif [ -n "$option" ]; then
    case "${COMP_WORDS[1]}:$option" in
      extend:--first) found=100000 ;;
      decide:--box) found=6 ;;
      decide:--steps) found=2000000 ;;
      decide:--pivots) found=20000 ;;
      make:--count) found=16 ;;
    esac
    found="$ahead$found"
  else
    case "${COMP_WORDS[1]}:$COMP_CWORD" in
      convert:2) found="chirotope circuits cocircuits covectors" ;;
      delete:2) found="1 2 3 4 5 6 7 8 9 10 11 12 13 14 15 16 17 18 19 20" ;;
      contract:2) found="1 2 3 4 5 6 7 8 9 10 11 12 13 14 15 16 17 18 19 20" ;;
      reorient:*) found="more" ;;
      flip:2) found="1 2 3 4 5 6 7 8 9 10 11 12 13 14 15 16 17 18 19 20" ;;
      flip:3) found="more" ;;
      flip:4) found="more" ;;
      extend:*) found="--first=" ;;
      decide:*) found="--box= --steps= --pivots=" ;;
      paint:3) found="1 2 3 4 5 6 7 8 9 10 11 12 13 14 15 16 17 18 19 20" ;;
      lexext:*) found="+1 +2 +3 +4 +5 +6 +7 +8 +9 +10 +11 +12 +13 +14 +15 +16 +17 +18 +19 +20 -1 -2 -3 -4 -5 -6 -7 -8 -9 -10 -11 -12 -13 -14 -15 -16 -17 -18 -19 -20" ;;
      make:3) found="--count=" ;;
    esac
  fi
  case "$found" in
    more) found="$(seq "$(($(printf %s "$before" | tr -cd 0-9 | sed 's/^$/0/') + 1))" 20)" ;;
    *=) _om_option -o nospace ;;
  esac
  COMPREPLY=($(compgen -W "$found" -- "$word"))
}
_om_option() {
  if type compopt >/dev/null 2>&1; then compopt "$@" 2>/dev/null; fi
}
_om_classes() {
  local word="${COMP_WORDS[COMP_CWORD]}" before="${COMP_WORDS[COMP_CWORD-1]}" found=""
  COMPREPLY=()
  case "$before$word" in *[\<\>]*) return ;; esac
  _om_option +o default
  case "$COMP_CWORD:${COMP_WORDS[1]}" in
    1:*) found="all uniform least" ;;
    2:all) found="--complete" ;;
    2:uniform) found="--complete" ;;
  esac
  COMPREPLY=($(compgen -W "$found" -- "$word"))
}
complete -o default -F _om om ./om om_each om-each ./om-each
complete -o default -F _om_classes om_classes om-classes ./om-classes
