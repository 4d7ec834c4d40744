# Completion of mojo's words for bash: `source tools/mojo-completion.bash`, or put it into /etc/bash_completion.d.

_mojo() {
  local word=${COMP_WORDS[COMP_CWORD]} before=${COMP_WORDS[COMP_CWORD - 1]} at=1 options=
  [[ ${COMP_WORDS[1]} == --explain ]] && at=2
  if ((COMP_CWORD == at)); then
    options='run print check encode decode load audit compat help --help'
    ((at == 1)) && options+=' --version --build --explain'
    COMPREPLY=($(compgen -W "$options" -- "$word"))
    return
  fi
  case ${COMP_WORDS[at]} in
    run) options='--script --order --threads --help' ;;
    encode) options='--method --response --value --help' ;;
    decode) options='--interface --response --handles --message --help' ;;
    load) options='--seed --messages --help' ;;
    audit) options='--script --history --help' ;;
    print | check | compat) options='--help' ;;
    help) COMPREPLY=($(compgen -W 'run print check encode decode load audit compat' -- "$word")); return ;;
  esac
  case $before in
    --script | --history | --value | --message) COMPREPLY=($(compgen -f -- "$word")) ;;
    --order | --method | --interface | --handles | --seed | --messages) COMPREPLY=() ;;
    *)
      if [[ $word == -* ]]; then
        COMPREPLY=($(compgen -W "$options" -- "$word"))
      else
        COMPREPLY=($(compgen -f -X '!*.mojom' -- "$word") $(compgen -d -S / -- "$word"))
      fi ;;
  esac
}
complete -o nospace -F _mojo mojo ./mojo
