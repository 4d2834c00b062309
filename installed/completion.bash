#!/usr/bin/env bash
# Completes command lines of `goal` and of the tools of an installation, in bash: commands, options, KINDs and file names. It is sourced;
# `./install` puts it where bash looks for it, and adds a line with the tools. Where a file is wanted, nothing is offered here, and bash
# completes the name of one.

_goal_kinds='bcast barrier allgather allreduce alltoall reduce gather scatter reduce_scatter scan'
_goal_costs='--L --o --g --G --Gp --O --Op --S'

# _goal_offer WORDS WORD: offers those of the words that begin so
_goal_offer() {
  mapfile -t COMPREPLY < <(compgen -W "$1" -- "$2")
}

# _goal_number: a number is wanted, and no name of a file
_goal_number() {
  compopt +o default 2>/dev/null || true
}

# _goal_form COMMAND: the plain words of a command, and its options
_goal_form() {
  case $1 in
    sim | waits | knots) echo "NAME $_goal_costs" ;;
    nodes) echo 'NAME MACHINE' ;;
    compile) echo 'NAME OUT' ;;
    show) echo 'NAME' ;;
    gen) echo 'KIND RANKS BYTES --root' ;;
    certify) echo 'KIND NAME --root' ;;
    probe) echo "ROUNDS SEED $_goal_costs" ;;
  esac
}

# _goal_left OPTION..: those that are not given yet; --root only where the collective has one
_goal_left() {
  local option given=" ${COMP_WORDS[*]:2:COMP_CWORD-2} "
  for option in "$@"; do
    case $given in *" $option "*) continue ;; esac
    if [ "$option" = --root ]; then
      case $given in *' bcast '* | *' reduce '* | *' gather '* | *' scatter '*) ;; *) continue ;; esac
    fi
    echo "$option"
  done
}

# _goal: completes a line of `goal`
_goal() {
  local word=${COMP_WORDS[COMP_CWORD]} at=2 plain=0 form options=()
  COMPREPLY=()
  if [ "$COMP_CWORD" = 1 ]; then
    _goal_offer 'sim waits knots nodes compile show gen certify probe' "$word"
    return
  fi
  read -ra form <<<"$(_goal_form "${COMP_WORDS[1]}")"
  # (an option takes the next word, or the one after the `=` that bash takes for a word)
  while [ "$at" -lt "$COMP_CWORD" ]; do
    case ${COMP_WORDS[at]} in
      -*) if [ "${COMP_WORDS[at + 1]-}" = = ]; then at=$((at + 2)); else at=$((at + 1)); fi ;;
      *) plain=$((plain + 1)) ;;
    esac
    at=$((at + 1))
  done
  if [ "$at" != "$COMP_CWORD" ]; then
    _goal_number
    return
  fi
  while [ "${#form[@]}" != 0 ] && [ "${form[-1]#-}" != "${form[-1]}" ]; do
    options=("${form[-1]}" "${options[@]}")
    unset 'form[-1]'
  done
  case $word:${form[plain]-} in
    -*) _goal_offer "$(_goal_left "${options[@]}")" "$word" ;;
    *:KIND) _goal_offer "$_goal_kinds" "$word" ;;
    *:NAME | *:MACHINE | *:OUT) ;;
    *:) _goal_number && _goal_offer "$(_goal_left "${options[@]}")" "$word" ;;
    *) _goal_number ;;
  esac
}

# _goal_tool: completes a line of a tool: the options that its help has, KINDs, and algorithms
_goal_tool() {
  local tool=$1 word=${COMP_WORDS[COMP_CWORD]}
  COMPREPLY=()
  case $word:${tool##*/}:$COMP_CWORD in
    -*) _goal_offer "$("$tool" --help 2>/dev/null | sed -n 's/^  \(-.*\)/\1/p' | sed 's/  .*//; s/, /\n/g' | cut -d ' ' -f 1)" "$word" ;;
    *:goal-certify:1 | *:goal-segments:1) _goal_offer "$_goal_kinds" "$word" ;;
    *:goal-schedule:1) _goal_offer "$("$tool" --list 2>/dev/null | cut -s -d '`' -f 2)" "$word" ;;
  esac
}

complete -o default -F _goal goal
