# Completes the words of lg in bash. Made by gate/completions of the help of the program.
# It is read by `source`, or by the package bash-completion if it is named lg in a folder of completions.

_lg() {
  local word=${COMP_WORDS[COMP_CWORD]} before=${COMP_WORDS[COMP_CWORD - 1]} words=
  # In bash --leave=off is three words, since = ends one.
  if [ "$word" = = ]; then
    word=
  elif [ "$before" = = ]; then
    before=${COMP_WORDS[COMP_CWORD - 2]}
  fi
  COMPREPLY=()
  case $before in
    --config | --key-file | --html)
      # Nothing is offered here, and so readline offers files.
      compopt -o default
      return
      ;;
    --record)
      compopt -o dirnames
      return
      ;;
    --status-open) words='true false' ;;
    --leave) words='on off' ;;
    --name | --names | --words | --members | --confirmations | --alpha | --beta | --interval-ms | \
      --for-ms | --address | --port | --dice | --pull-ms | --stall-ms | --resolve-ms | --record-mb | \
      --status | --bind | --group | --seed | --timeout-ms | --indirect | --max-score | --lambda | \
      --nack-thousandths | --history-limit | --wire | --forget-ms | --gossip-ms | --gossip-to | \
      --at | --from | --to | --only) return ;;
    *)
      case $COMP_CWORD:$word:${COMP_WORDS[1]} in
        1:-*) words='--help --version' ;;
        1:*) words='answer order timeouts sim node check init members status watch leave replay explain version
          help' ;;
        *:answer) words='--name --help' ;;
        *:order) words='--names --words --help' ;;
        *:timeouts) words='--members --confirmations --alpha --beta --interval-ms --help' ;;
        *:sim) words='--help' ;;
        *:node) words='--config --for-ms --follow --until-input-ends --name --address --port --dice --pull-ms
          --stall-ms --resolve-ms --record-mb --record --status --status-open --leave --bind
          --key-file --group --seed --interval-ms --timeout-ms --indirect --max-score --alpha --beta
          --confirmations --lambda --nack-thousandths --history-limit --wire --forget-ms --gossip-ms
          --gossip-to --help' ;;
        *:check) words='--config --name --address --port --dice --pull-ms --stall-ms --resolve-ms --record-mb
          --record --status --status-open --leave --bind --key-file --group --seed --interval-ms
          --timeout-ms --indirect --max-score --alpha --beta --confirmations --lambda
          --nack-thousandths --history-limit --wire --forget-ms --gossip-ms --gossip-to --help' ;;
        *:init) words='--help' ;;
        *:members) words='--at --json --help' ;;
        *:status) words='--at --json --help' ;;
        *:watch) words='--at --json --help' ;;
        *:leave) words='--at --name --help' ;;
        *:replay) words='--from --to --only --help' ;;
        *:explain) words='--record --at --all --entries --json --html --help' ;;
        *:version) words='--help' ;;
        *:help) words='answer order timeouts sim node check init members status watch leave replay explain version
          help' ;;
      esac
      ;;
  esac
  mapfile -t COMPREPLY < <(compgen -W "$words" -- "$word")
}

complete -F _lg lg
