# Completions of sf for bash, to be read by bash-completion or by 'source'.

# The answers among these words that begin with the word at the cursor.
_sf_words() {
  mapfile -t COMPREPLY < <(compgen -W "$1" -- "$2")
}

# The options among these that were not given before the cursor.
_sf_options() {
  local option
  for option in $1; do
    case " ${COMP_WORDS[*]:2:COMP_CWORD-2} " in
    *" $option "*) ;;
    *) printf '%s ' "$option" ;;
    esac
  done
}

_sf() {
  local word=${COMP_WORDS[COMP_CWORD]}
  local before=${COMP_WORDS[COMP_CWORD - 1]}
  # bash cuts --kind=item into three words
  if [ "$word" = = ]; then
    word=
  elif [ "$before" = = ]; then
    before=${COMP_WORDS[COMP_CWORD - 2]}
  fi

  COMPREPLY=()
  if [ "$COMP_CWORD" -eq 1 ]; then
    _sf_words 'show check normalise cache-status targeted priority' "$word"
    return
  fi
  case ${COMP_WORDS[1]} in
  show | check | normalise)
    case $before in
    --kind) _sf_words 'item list dict' "$word" ;;
    --dialect) _sf_words 'rfc9651 rfc8941' "$word" ;;
    *) _sf_words "$(_sf_options '--kind --dialect')" "$word" ;;
    esac
    ;;
  targeted)
    case $before in
    --fallback) _sf_words 'cache-control' "$word" ;;
    --age) ;;
    *) _sf_words "$(_sf_options '--fallback --age') cdn-cache-control" "$word" ;;
    esac
    ;;
  esac
}

complete -F _sf sf
