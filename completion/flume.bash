# Completion of the words of flume-tags, flume-node and flume-host in bash.
_flume() {
  local word=$2 words=
  compopt -o filenames 2>/dev/null
  case ${1##*/}:$3 in
    *:--dir)
      mapfile -t COMPREPLY < <(compgen -d -- "$word")
      return
      ;;
    *:--key | flume-host:check | flume-host:init | flume-host:status | flume-host:explain | \
      flume-host:backup | flume-host:restore)
      mapfile -t COMPREPLY < <(compgen -f -- "$word")
      return
      ;;
    *:--workers) words=$(echo {0..16}) ;;
    *:--node) ;;
    flume-tags:*) words='--dir --workers --help --version' ;;
    flume-node:*) words='--node --dir --key --unguarded-orders --new --help --version' ;;
    flume-host:*)
      [ "$COMP_CWORD" -gt 1 ] || words='check init status explain backup restore story --as-root --help'
      ;;
  esac
  mapfile -t COMPREPLY < <(compgen -W "$words" -- "$word")
  [[ ${1##*/} != flume-host || ${#COMPREPLY[@]} -gt 0 ]] ||
    mapfile -t COMPREPLY < <(compgen -f -- "$word")
}
complete -F _flume flume-tags flume-node flume-host
