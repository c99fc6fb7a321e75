# Completion of ivshm, ivshm_chart and ivshm_explain for bash.
_ivshm() {
  local word=${COMP_WORDS[COMP_CWORD]} before=${COMP_WORDS[COMP_CWORD - 1]}
  case $COMP_CWORD in
    1) COMPREPLY=($(compgen -W 'sim run replay renew dump config load capture feed ports bridge' -- "$word")) ;;
    2)
      case $before in
        config) COMPREPLY=($(compgen -W '0 1 2 3 4 5 6 7' -- "$word")) ;;
        capture | feed) COMPREPLY=($(compgen -W '0 1' -- "$word")) ;;
        load) COMPREPLY=($(compgen -W '1 1000 80000' -- "$word")) ;;
      esac
      ;;
  esac
}

_ivshm_chart() {
  if [ "$COMP_CWORD" = 1 ]; then COMPREPLY=($(compgen -W --text -- "${COMP_WORDS[1]}")); fi
}

# a word after < or > is a file
complete -o bashdefault -o default -F _ivshm ivshm ./ivshm tools/try ivshm_explain ./ivshm_explain
complete -o bashdefault -o default -F _ivshm_chart ivshm_chart ./ivshm_chart
