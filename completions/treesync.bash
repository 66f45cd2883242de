# bash completion for treesync: the commands that are built, then what their operands name.
# Written by completions/make from the program's help.
_treesync() {
  local word=${COMP_WORDS[COMP_CWORD]} place=$((COMP_CWORD - 2)) shape=() kind
  COMPREPLY=()
  if [ "$COMP_CWORD" -eq 1 ]; then
    mapfile -t COMPREPLY < <(compgen -W "replay canon conflicts merge transition steer record seal apply drill sync explain undo catchup rebase help" -- "$word")
    return
  fi
  case ${COMP_WORDS[1]} in
    replay) shape=(file file) ;;
    canon) shape=(file) ;;
    conflicts) shape=(file ...) ;;
    merge) shape=(prefs file ...) ;;
    transition) shape=(prefs number file ...) ;;
    steer) shape=(file file ...) ;;
    record) shape=(folder file) ;;
    seal) shape=(folder file) ;;
    apply) shape=(folder file) ;;
    drill) shape=(number number number) ;;
    sync) shape=(prefs number file ...) ;;
    explain) shape=(prefs file ...) ;;
    undo) shape=(file) ;;
    catchup) shape=(file ...) ;;
    rebase) shape=(prefs side file file ...) ;;
    *) return ;;
  esac
  if [ "${shape[0]-}" = prefs ]; then
    shape=("${shape[@]:1}")
    if [ "$place" -eq 0 ] && [[ $word == -* ]]; then
      mapfile -t COMPREPLY < <(compgen -W --prefs -- "$word")
      return
    elif [ "$place" -gt 0 ] && [ "${COMP_WORDS[2]}" = --prefs ]; then
      # bash makes three words of --prefs=FILE
      [ "${COMP_WORDS[3]}" = "=" ] && place=$((place - 1))
      [ "$word" = "=" ] && word=
      place=$((place - 2))
      [ "$place" -lt 0 ] && shape=(file) place=0
    fi
  fi
  if [ "${shape[-1]-}" = ... ]; then
    unset "shape[-1]"
    [ "$place" -ge "${#shape[@]}" ] && place=$((${#shape[@]} - 1))
  fi
  kind=${shape[place]-}
  case $kind in
    file) mapfile -t COMPREPLY < <(compgen -f -- "$word") ;;
    folder) mapfile -t COMPREPLY < <(compgen -d -- "$word") ;;
    side) mapfile -t COMPREPLY < <(compgen -W "tree next" -- "$word") ;;
  esac
}
complete -o filenames -F _treesync treesync
