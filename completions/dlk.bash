# Completes the words of dlk in bash: first a command, then as many files as it takes.

_dlk() {
  local word=${COMP_WORDS[COMP_CWORD]} files=0
  COMPREPLY=()
  if [ "$COMP_CWORD" -eq 1 ]; then
    mapfile -t COMPREPLY < <(compgen -W 'check report smt guard print vars subst prove gen convert link trim session' -- "$word")
    return
  fi
  case ${COMP_WORDS[1]} in
    check | report | subst) files=2 ;;
    smt | guard) files=2 ;;
    print | vars) files=1 ;;
    prove | session) files=3 ;;
    convert) files=2 ;;
    link) files=4 ;;
    trim) files=3 ;;
  esac
  if [ "$COMP_CWORD" -le $((files + 1)) ]; then
    compopt -o filenames 2>/dev/null
    mapfile -t COMPREPLY < <(compgen -f -- "$word")
  fi
}

complete -F _dlk dlk
