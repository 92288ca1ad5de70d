# Completion of svec for bash: `source` it.
_svec() {
  local word=${COMP_WORDS[COMP_CWORD]} command=${COMP_WORDS[1]} options=''
  COMPREPLY=()
  if [ "$COMP_CWORD" -eq 1 ]; then
    mapfile -t COMPREPLY < <(compgen -W 'compile check eval list run debug sweep asm object pipe explain call where library annotate cost gdb page build help' -- "$word")
    return
  fi
  case $command in
    eval) options='--map --steps --dump' ;;
    run) options='--vl --steps --map --dump --suppress' ;;
    debug) options='--vl --map' ;;
    gdb) options='--vl --map --help' ;;
    annotate) options='--html --help' ;;
    cost) options='--svg --help' ;;
    library) options='--prefix --sources --help' ;;
    where) options='--help' ;;
    pipe) options='--vl --steps --map --dump' ;;
    explain) options='--json --fast --help' ;;
    call) options='--vl --steps --overlap --keep --help' ;;
  esac
  case ${COMP_WORDS[COMP_CWORD - 1]}:$word in
    --vl:*) mapfile -t COMPREPLY < <(compgen -W "$(seq -s ' ' 128 128 2048)" -- "$word") ;;
    *:-*) mapfile -t COMPREPLY < <(compgen -W "$options" -- "$word") ;;
    *) compopt -o filenames; mapfile -t COMPREPLY < <(compgen -f -- "$word") ;;
  esac
}
complete -F _svec svec ./svec
