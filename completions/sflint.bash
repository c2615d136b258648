# Completions of sflint for bash, to be read by bash-completion or by 'source'.

_sflint() {
  local word=${COMP_WORDS[COMP_CWORD]}
  local before=${COMP_WORDS[COMP_CWORD - 1]}
  COMPREPLY=()
  # what these take has no list of words
  case $before in
    --field | --age | --target | =) return ;;
  esac
  mapfile -t COMPREPLY < <(compgen -W '--field --quiet --decide --age --target --help --version' -- "$word")
}

complete -F _sflint sflint
