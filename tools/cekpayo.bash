# Completion of cekpayo for bash: source this file, or install it as completions/cekpayo.
_cekpayo() {
  local current=${COMP_WORDS[COMP_CWORD]} word='' at changes='--standby --lost --fail --move --ban --clear --stop --start --maintenance' options='--all -q --json --online --try --help'
  local causes="NotUtf8 ControlByte OpenQuote LineTooLong UnknownStatement Unsupported BadScore BadTime BadValue MissingWord ExtraWord
    RepeatedKey DuplicateName UnknownName NestedTwice EmptyGroup MemberTwice UnsupportedMeta NotPromotable UnsupportedOrder
    TooManyNodes TooManyLeaves TooManyRules ColocationLoop OrderLoop Repeated TooManyResults"
  for ((at = 1; at < COMP_CWORD; at++)); do
    [[ ${COMP_WORDS[at]} == -* ]] || { word=${COMP_WORDS[at]}; break; }
  done
  case $word in
    "") mapfile -t COMPREPLY < <(compgen -W "plan what-if losses why check scores graph survive replay audit world gen explain report help
      --all -q --json --online --try --build --help --version" -- "$current") ;;
    help) mapfile -t COMPREPLY < <(compgen -W "plan what-if losses why check scores graph survive replay audit world gen explain report" -- "$current") ;;
    explain) mapfile -t COMPREPLY < <(compgen -W "$causes" -- "$current") ;;
    check | scores | graph | survive | replay | plan | what-if | losses | why)
      compopt -o filenames 2>/dev/null
      if [[ $current == -* ]]; then
        case $word in
          plan) options+=" --time" ;;
          losses) options+=" --fail-on-loss" ;;
          why) options+=" --change" ;;
          what-if) options+=" $changes --config --fail-on-loss --fail-on-change" ;;
        esac
        mapfile -t COMPREPLY < <(compgen -W "$options" -- "$current")
      else
        mapfile -t COMPREPLY < <(compgen -f -- "$current")
      fi
      ;;
    report)
      compopt -o filenames 2>/dev/null
      if [[ $current == -* ]]; then
        mapfile -t COMPREPLY < <(compgen -W "--change $changes --online --secrets --help" -- "$current")
      else
        mapfile -t COMPREPLY < <(compgen -f -- "$current")
      fi
      ;;
    world) # the number comes before the file
      [[ ${COMP_WORDS[COMP_CWORD - 1]} == world ]] || { compopt -o filenames 2>/dev/null; mapfile -t COMPREPLY < <(compgen -f -- "$current"); } ;;
    audit) compopt -o filenames 2>/dev/null; mapfile -t COMPREPLY < <(compgen -f -- "$current") ;;
    *) COMPREPLY=() ;;
  esac
}
complete -F _cekpayo cekpayo ./cekpayo
