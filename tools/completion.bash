# Completion of the words of river and of tools/pieces in bash:  . tools/completion.bash
#
# Completes commands, languages, files and options, and the names of a program's inputs, which its plan tells. What stands already is
# not offered again. It asks the program that is built, as it is, and never builds one: without it there are no names.

# The word number $1 as the shell would read it: without quotes, and with the home for a tilde.
_river_word() {
  local word=${COMP_WORDS[$1]-}
  word=${word//[\\\"\']/}
  printf '%s' "${word/#\~\//$HOME/}"
}

_river_files() {
  compopt -o filenames 2>/dev/null
  mapfile -t COMPREPLY < <(compgen -f -- "$1")
}

# Of the words that follow the first, those that are not there yet.
_river_rest() {
  local word=$1 offered there
  shift
  COMPREPLY=()
  for offered in "$@"; do
    for there in "${COMP_WORDS[@]:2:COMP_CWORD-2}"; do
      [ "$there" != "${offered%=}" ] || continue 2
    done
    [[ $offered != "$word"* ]] || COMPREPLY+=("$offered")
  done
  [[ ${#COMPREPLY[@]} -ne 1 || ${COMPREPLY[0]} != *= ]] || compopt -o nospace 2>/dev/null
}

_river_inputs() {
  local lang=$1 file=$2 script program
  # A pipe would be read, and waited for.
  [ -f "$file" ] || return
  if [ "$lang" = free ]; then
    grep -oE '(^|[;[:space:]])input[[:space:]]+[A-Za-z0-9_@]+[[:space:]]*:' -- "$file" | sed 's/[[:space:]]*:$//; s/.*[[:space:]]//; s/$/=/'
    return
  fi
  script=$(type -P -- "$(_river_word 0)") && script=$(readlink -f -- "$script") || return
  program=${script%/*}/crates/river/out/river
  [ -x "$program" ] || return
  "$program" plan "$lang" "$file" 2>/dev/null </dev/null | sed -n 's/^input \([A-Za-z0-9_@]*\):.*/\1=/p'
}

_river() {
  local word=${COMP_WORDS[COMP_CWORD]} before=${COMP_WORDS[COMP_CWORD - 1]} command=${COMP_WORDS[1]} inputs=() options=()
  COMPREPLY=()
  case $COMP_CWORD,$command in
  1,*) mapfile -t COMPREPLY < <(compgen -W 'run mean plan upgrade free load' -- "$word") && return ;;
  2,run | 2,mean | 2,plan) mapfile -t COMPREPLY < <(compgen -W 'cql sawzall streamit params river' -- "$word") && return ;;
  2,free | 2,upgrade | 3,run | 3,mean | 3,plan) _river_files "$word" && return ;;
  esac
  # NAME=FILE comes as three words, since `=` breaks words; the last one may be missing.
  case $before,$word in
  -r,* | =,*) _river_files "$word" && return ;;
  *,=) _river_files '' && return ;;
  -[wqs],*) return ;;
  esac
  case $command in
  run) options=(-H -c -r -q) ;;
  mean) options=(-H) ;;
  plan) options=(-r) ;;
  free) options=(-H -w -s) ;;
  *) return ;;
  esac
  if [ "$command" = free ]; then
    mapfile -t inputs < <(_river_inputs free "$(_river_word 2)")
  elif [ "$command" != plan ]; then
    mapfile -t inputs < <(_river_inputs "${COMP_WORDS[2]}" "$(_river_word 3)")
  fi
  # Workers, or a thread for each operator.
  [[ $command != run || " ${COMP_WORDS[*]:4:COMP_CWORD-4} " == *' -w '* ]] || options+=(-L)
  [[ $command != run || " ${COMP_WORDS[*]:4:COMP_CWORD-4} " == *' -L '* ]] || options+=(-w)
  _river_rest "$word" "${inputs[@]}" "${options[@]}"
}
complete -F _river river

# tools/pieces: the language, the program, in=FILE, and options in any order.
_river_pieces() {
  local word=${COMP_WORDS[COMP_CWORD]} before=${COMP_WORDS[COMP_CWORD - 1]}
  COMPREPLY=()
  case $COMP_CWORD,$before,$word in
  1,*) mapfile -t COMPREPLY < <(compgen -W sawzall -- "$word") && return ;;
  2,*,[!-]* | 2,*, | *,=,* | *,--keep,*) _river_files "$word" && return ;;
  *,=) _river_files '' && return ;;
  *,--jobs,* | *,--size,* | *,--sshlogin,*) return ;;
  esac
  _river_rest "$word" in= -H --jobs --size --sshlogin --keep
}
complete -F _river_pieces pieces
