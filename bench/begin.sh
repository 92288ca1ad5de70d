# What the shell scripts of this folder begin with, once `here` is set: --help, and the svec to use.
case "${1:-}" in
  --help | -h) sed -n '2,${/^#/!q;s/^# \{0,1\}//p;}' "$0"; exit 0 ;;
  -*) echo "${0##*/}: $1 is no word of it; --help says more" >&2; exit 2 ;;
esac

refuse() { # LINE: for a command substitution too, where the script ends by `|| exit`
  echo "${0##*/}: $1" >&2
  exit 1
}

# Prints the path of the svec to use, from any folder.
program() { # [PATH]
  local path=${1:-$here/../svec}
  [ -f "$path" ] && [ -x "$path" ] || refuse "$path: there is no such program"
  [[ $("$path" 2>&1 </dev/null) == 'svec: '* ]] || refuse "$path does not answer as svec does"
  echo "$(cd "$(dirname "$path")" && pwd)/${path##*/}"
}

# Ends the script where a command is not there.
wants() { # COMMAND..
  local command
  for command; do
    command -v "$command" >/dev/null || refuse "there is no command $command; --help says of what package it is"
  done
}
