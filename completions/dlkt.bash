# Completes the words of dlkt in bash. Written by dev/manual.py, from the parser of the command line.

_dlkt() {
  local word=${COMP_WORDS[COMP_CWORD]} options=
  COMPREPLY=()
  if [ "$COMP_CWORD" -eq 1 ]; then
    mapfile -t COMPREPLY < <(compgen -W 'verify auto refute import batch leaves page tree prompt print readable words lsp --version --help' -- "$word")
    return
  fi
  case ${COMP_WORDS[1]} in
    verify) options='-h --help --entry -o --output --page -j --all-solvers --seconds --json --watch --dlk' ;;
    auto) options='-h --help -o --output --sketch --term --partial --explain --seconds --annotations --dlk' ;;
    refute) options='-h --help --rounds --seconds --json --plot --seed' ;;
    import) options='-h --help -d --folder --entry --print --check --prove --seconds --dlk' ;;
    batch) options='-h --help -j --no-search --dask --against --seconds --json --dlk' ;;
    leaves) options='-h --help --all-solvers -j --seconds --json --dlk' ;;
    page) options='-h --help -o --output --title --seconds -j --dlk' ;;
    tree) options='-h --help --model --strategy --depth --dlk' ;;
    prompt) options='-h --help --seconds --dlk' ;;
    print) options='-h --help --width' ;;
    readable) options='-h --help -o --output' ;;
    words) options='-h --help --dlk' ;;
    lsp) options='-h --help --seconds --stdio --dlk' ;;
  esac
  case $word in
    -*) mapfile -t COMPREPLY < <(compgen -W "$options" -- "$word") ;;
    *)
      compopt -o filenames 2>/dev/null
      mapfile -t COMPREPLY < <(compgen -f -- "$word") ;;
  esac
}

complete -F _dlkt dlkt
