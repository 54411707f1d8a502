# Completion of ./msgr2 for bash: `source tools/msgr2.bash`. The words are those that `./msgr2 --help` lists.
_msgr2() {
  local launcher=${COMP_WORDS[0]} current=${COMP_WORDS[COMP_CWORD]} words=("${COMP_WORDS[@]:1:COMP_CWORD-1}") said
  [ "${words[0]:-}" != --unproved ] || words=("${words[@]:1}")
  # A line for each form: what it is, and what is said of it.
  said=$("$launcher" --help 2>/dev/null | sed -nE '/^  ./{:go N; s/\n {20,}/ /; t go; P; D}' | sed -nE 's/^  (\S)/\1/p')
  COMPREPLY=()
  if [ ${#words[@]} = 0 ]; then
    mapfile -t COMPREPLY < <(compgen -W "$(sed 's/ .*//' <<<"$said")" -- "$current")
  elif [[ $current == -* ]]; then
    mapfile -t COMPREPLY < <(compgen -W "$(sed -n "s/^${words[0]} //p" <<<"$said" | grep -oE '[[ ]--?[a-z]+' | tr -d '[')" -- "$current")
  elif [[ $(grep "^${words[0]} " <<<"$said") == *FILE* ]]; then
    mapfile -t COMPREPLY < <(compgen -f -- "$current")
  fi
}
complete -o filenames -F _msgr2 msgr2 ./msgr2
